#!/usr/bin/env python3
"""Holds the program sheet, byte for byte, to the model of tests/model.py, and examples/make-stream to what its text says.

    python3 tests/sheet.py COMMAND ...      the command that starts sheet

The trials of tests/programs.py, the hard streams of tests/streams.py, and the files of examples/.
"""
import re
import subprocess
import sys
import tempfile
from pathlib import Path

import model
from model import EXAMPLE
from programs import PATIENCE, ROOT, SAMPLE, Trial, block
from streams import DEEP, MISSING, bits_of, covered, deep, hard_streams, missing, surface


class Sheet(Trial):
    name = "sheet"

    def expected(self, stream):
        return model.page(stream)

    def every(self):
        every = list(hard_streams())
        covered(every)
        return every

    # ---- examples/ and docs/FORMAT.md

    def make_stream(self, text, *words):
        """Status, what was written and what was said."""
        script = ROOT / "examples" / "make-stream"
        done = subprocess.run([sys.executable, script, *words], input=text, capture_output=True, timeout=PATIENCE)
        return done.returncode, done.stdout, done.stderr.decode()

    def holds(self, what, expected, got):
        if got != expected:
            self.wrong(f"make-stream: {what}", f"expected: {expected}", f"got:      {got}")

    def two_intakes(self):
        text, expected = (SAMPLE.with_suffix(end) for end in (".txt", ".expected"))
        kept = SAMPLE.read_bytes()
        self.compare("two-intakes.bin", kept, self.start().printed(kept))
        self.compare("two-intakes.expected", kept, expected.read_bytes())
        self.holds("two-intakes.txt by its name", (0, kept, ""), self.make_stream(b"", text))
        self.holds("two-intakes.txt as standard input", (0, kept, ""), self.make_stream(text.read_bytes()))
        with tempfile.TemporaryDirectory() as room:
            target = Path(room, "stream")
            self.holds("two-intakes.txt to a file", (0, b"", ""), self.make_stream(text.read_bytes(), "-", target))
            self.holds("two-intakes.txt to a file", kept, target.read_bytes())

    def two_depths(self):
        status, stream, _ = self.make_stream(b"", SAMPLE.with_name("two-depths.txt"))
        self.holds("two-depths.txt", 0, status)
        command = "$ ./run examples/two-depths.txt\n"
        self.compare("README.md: two-depths.txt", stream, block("README.md", command.rstrip()).removeprefix(command).encode())

    def night_shift(self):
        """Probes with numbers: what README.md and examples/README.md show of them."""
        status, stream, said = self.make_stream(b"", SAMPLE.with_name("night-shift.txt"))
        self.holds("night-shift.txt", (0, ""), (status, said))
        self.compare("night-shift.txt", stream, self.start().printed(stream))
        shown = re.findall(r"^    (pair left right needle\n(?:    .*\n)+)", SAMPLE.with_name("README.md").read_text("utf-8"), re.M)
        self.compare("examples/README.md: night-shift.txt", stream, "".join(shown).replace("    ", "").encode())
        command = "$ ./run examples/night-shift.txt\n"
        self.compare("README.md: night-shift.txt", stream, block("README.md", command.rstrip()).removeprefix(command).encode())
        self.holds("night-shift.txt: one probe in both sockets", True, b" R32\n" in model.page(stream))

    def texts(self):
        for text, stream in MAKES:
            self.holds(text, (0, stream, ""), self.make_stream(text))
        note = "make-stream: note: the last left has no right; R6 will stand for it\n"
        self.holds("an odd number of readings", (0, DEEP, note), self.make_stream(b"deep 35 5 250"))
        with tempfile.TemporaryDirectory() as room:
            target, absent = Path(room, "stream"), Path(room, "absent")
            target.write_bytes(b"kept")
            for text, says in REFUSES:
                for words in ((), ("-", target)):
                    self.holds(text, (2, b"", f"make-stream: {says}\n"), self.make_stream(text, *words))
                self.holds("a refused text leaves the file as it was", b"kept", target.read_bytes())
            for words in ((absent,), ("-", absent / "stream"), (room,), ("a", "b", "c"), ("--help",)):
                status, wrote, said = self.make_stream(b"missing\nmissing\n", *words)
                one_line = said.startswith("make-stream: ") and said.find("\n") == len(said) - 1
                self.holds(f"arguments {words}", (2, b"", True), (status, wrote, one_line))

    def examples(self):
        self.two_intakes()
        self.two_depths()
        self.night_shift()
        self.texts()
        # The bytes that the page for probe builders takes apart are SPEC's.
        text = (ROOT / "docs" / "FORMAT.md").read_text("utf-8")
        shown = re.findall(r"^((?:[0-9A-F]{2} {1,2})+)", text, re.M)
        if bytes.fromhex("".join(shown)) != EXAMPLE:
            self.wrong("docs/FORMAT.md: the bytes taken apart are not the example's", f"got: {shown}")
        # So is the numbered record that stands there field by field, and the line of two of them.
        fields = re.findall(r"^(length|kind|number|salinity|temperature|pressure) +((?:[0-9A-F]{2} )+)", text, re.M)
        numbered = bytes.fromhex("".join(bits for _, bits in fields))
        if numbered != NUMBERED_DEEP or "`%s`" % model.page(2 * NUMBERED_DEEP).decode().splitlines()[1] not in text:
            self.wrong("docs/FORMAT.md: the numbered record, or the line of two of them", f"got: {fields}")


# Probe 513, salinity 35, 5 degrees C, 100 bar.
NUMBERED_DEEP = deep(bits_of(35), bits_of(5), bits_of(100), 513)
# Good text and its stream.
MAKES = [
    (b"", b""),
    (b"\n# nothing\n   \n", b""),
    (b"surface 0 5\nsurface 35 5\nmissing\nsurface 0 5\n", EXAMPLE),
    (b"surface 0 5\r\n\r\n  surface\t35.0 +5e0 # the right\r\nmissing#\nsurface .0 5.", EXAMPLE),
    (b"deep 35 5 250\nmissing", DEEP + MISSING),
    (b"surface nan -inf\nsurface -0 INF", surface(0x7FC00000, 0xFF800000) + surface(0x80000000, 0x7F800000)),
    (b"deep 42.000004 -2 1e3\nsurface 1e-45 -1e30", deep(0x42280001, 0xC0000000, 0x447A0000) + surface(1, bits_of(-1e30))),
    ("# 5 °C\nmissing\nmissing # müde\n".encode("latin-1"), MISSING * 2),
    (b"deep 35 5 100 probe 513\nsurface 12 8 probe 17", NUMBERED_DEEP + surface(bits_of(12), bits_of(8), 17)),
    (b"missing probe 65535\nmissing probe 0 # which is none\n", missing(65_535) + missing(0)),
    (b"  missing\tprobe  258\r\nmissing probe 000000017#", missing(258) + missing(17)),
    (b"surface nan -0 probe 256\nmissing", surface(0x7FC00000, 0x80000000, 256) + MISSING),
]
# Bad text and what is said of it.
REFUSES = [
    (b"deap 1 2 3\n", "line 1: 'deap' is none of deep, surface, missing"),
    (b"\n# a\nmissing\n\nDeep 1 2 3\n", "line 5: 'Deep' is none of deep, surface, missing"),
    (b"missing\n35 5\n", "line 2: '35' is none of deep, surface, missing"),
    (b"missing\ndeep 1 2\n", "line 2: deep takes 3 numbers (salinity, temperature, pressure); here: 2"),
    (b"surface 1 2 3", "line 1: surface takes 2 numbers (salinity, temperature); here: 3"),
    (b"surface", "line 1: surface takes 2 numbers (salinity, temperature); here: 0"),
    (b"missing 0\n", "line 1: missing takes no number; here: 1"),
    (b"missing\nmissing\nsurface 35,2 5\n", "line 3: '35,2' is not a number such as 35, 4.25 or -1.5"),
    (b"surface 35 5C\n", "line 1: '5C' is not a number such as 35, 4.25 or -1.5"),
    (b"surface 1_0 5\n", "line 1: '1_0' is not a number such as 35, 4.25 or -1.5"),
    (b"surface 0x10 5\n", "line 1: '0x10' is not a number such as 35, 4.25 or -1.5"),
    (b"surface . 5\n", "line 1: '.' is not a number such as 35, 4.25 or -1.5"),
    (b"surface 5 1e39\n", "line 1: 1e39 is too large for a 32-bit float"),
    (b"surface 5 1e999\n", "line 1: 1e999 is too large for a 32-bit float"),
    (b"surface 1 2\nmiss\xffing\n", r"line 2: 'miss\xffing' is none of deep, surface, missing"),
    (b"probe 17\n", "line 1: 'probe' is none of deep, surface, missing"),
    (b"missing 17\n", "line 1: missing takes no number; here: 1"),
    (b"missing Probe 17\n", "line 1: missing takes no number; here: 2"),
    (b"missing\nsurface 1 2 probe17\n", "line 2: surface takes 2 numbers (salinity, temperature); here: 3"),
    (b"deep 35 5 probe 17\n", "line 1: deep takes 3 numbers (salinity, temperature, pressure); here: 2"),
    (b"deep 35 5 100 17 probe 17\n", "line 1: deep takes 3 numbers (salinity, temperature, pressure); here: 4"),
    (b"missing probe\n", "line 1: probe takes a number from 0 to 65535; here: none"),
    (b"surface 1 2 probe # 17\n", "line 1: probe takes a number from 0 to 65535; here: none"),
    (b"missing probe 1 probe 1\n", "line 1: probe stands twice"),
    (b"deep 35 5 probe 17 100\n", "line 1: probe and its number come last; here after them: 100"),
    *((f"missing\nmissing probe {word}\n".encode(), f"line 2: '{word}' is not a probe's number: a whole number from 0 to 65535")
      for word in ("65536", "99999", "100017", "4294967297", "-1", "+1", "1.5", "17.", "1e1", "0x11", "1_7", "nan", "١٧", "seventeen")),
]


Sheet().hold()
