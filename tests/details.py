#!/usr/bin/env python3
"""Holds the program details, byte for byte, to the model of tests/model.py.

    python3 tests/details.py COMMAND ...      the command that starts details

The trials of tests/programs.py, the hard streams of tests/streams.py, every grid number of the three quantities, every probe number, the sample of
examples/, and what README.md and docs/FORMAT.md show of it.
"""
import subprocess
import sys
import tempfile
from pathlib import Path

import model
from model import LONGEST_DETAILS, LONGEST_STREAM, QUANTITIES, pairs
from programs import PATIENCE, ROOT, SAMPLE, Trial, block
from streams import LONGEST, LONGEST_TABLE, bits_of, covered_co2, covered_probes, covered_remarks, deep, hard_streams, made, missing, surface


def grid_numbers():
    """Every grid number of each quantity, in streams of 60,000 bytes: so every text that its column can have."""
    records = [deep(bits_of(n % 42_001 / 1_000), bits_of((n % 42_001 - 2_000) / 1_000), bits_of(n / 100)) for n in range(100_001)]
    return [b"".join(records[i : i + 3_750]) for i in range(0, len(records), 3_750)]


def probe_numbers():
    """Every number of a probe, missing ones and, in between, some that are not."""
    records = [deep(0, 0, 0, n) if n % 97 == 0 else missing(n) for n in range(65_536)]
    return [b"".join(records[i : i + 9_400]) for i in range(0, len(records), 9_400)]


def covered(every):
    """Every refusal on either side, of a density and of ln K0, every grid number, every probe number, all remarks, the lengths around the limit and
    the longest table are among what is tried."""
    covered_co2(every)
    covered_remarks(every)
    covered_probes(every)
    found = [pair for stream in every if len(stream) <= LONGEST_STREAM for pair in pairs(stream)]
    for side in (0, 1):
        assert {pair[side].refusal for pair in found} == set(range(9))
    for name, (low, high, unit, _) in zip(("sigma", "tau", "pi"), QUANTITIES):
        numbers = {getattr(channel, name) for pair in found for channel in pair if not channel.refusal}
        assert numbers == set(range(low * unit, high * unit + 1)), name
    assert {channel.probe for pair in found for channel in pair if channel.probe is not None} == set(range(65_536))
    assert {0, LONGEST_STREAM, LONGEST_STREAM + 1} <= set(map(len, every)) and {LONGEST, LONGEST_TABLE} <= set(every)
    table = model.details(LONGEST_TABLE)
    assert len(LONGEST_TABLE) == LONGEST_STREAM and len(table) == LONGEST_DETAILS
    assert table.endswith(b"\n7499,right,R1,R1,R1,R1,R1,R1,R1,54321\n7500,left,R6,R6,R6,R6,R6,R6,R6,R6\n7500,right,R6,R6,R6,R6,R6,R6,R6,R6\n")


class Details(Trial):
    name = "details"
    writes = 32  # of up to 515,366 bytes

    def expected(self, stream):
        return model.details(stream)

    def every(self):
        every = [*hard_streams(), *grid_numbers(), *probe_numbers()]
        covered(every)
        return every

    def holds(self, what, fact, got):
        if not fact:
            self.wrong(f"details: {what}", f"got: {got}")

    def examples(self):
        kept, header = SAMPLE.read_bytes(), model.DETAILS_HEADER.decode().rstrip()
        self.compare("two-intakes.bin", kept, self.start().printed(kept))
        self.compare("two-intakes.details", kept, SAMPLE.with_suffix(".details").read_bytes())
        self.compare("docs/FORMAT.md: the example's", model.EXAMPLE, block("docs/FORMAT.md", header).encode())
        # Probe 513 below 0 degrees C, an old one without a pressure; probe 513 missing, and a record of kind 9.
        salinity, cold, warm = bits_of(35), bits_of(-1), bits_of(25)
        four = surface(salinity, cold, 513) + deep(salinity, warm, 0x7FC00000) + missing(513) + made(9, b"")
        lines = block("docs/FORMAT.md", "1,left,35.000,-1.000,0.00,1028.154,21449.49,R4,ooo,513")
        self.compare("docs/FORMAT.md: refused readings'", four, model.DETAILS_HEADER + lines.encode())
        shown = block("README.md", header).removesuffix("...\n")
        self.holds("README.md: not how the sample's begin", model.details(kept).startswith(shown.encode()), shown)
        self.loading(kept)
        self.calibration()

    def calibration(self):
        """The bench's text, and what README.md shows for it; its remarks are those that the text's own comments say."""
        script, text = ROOT / "examples" / "make-stream", SAMPLE.with_name("calibration.txt")
        stream = subprocess.run([sys.executable, script, text], capture_output=True, timeout=PATIENCE, check=True).stdout
        self.compare("calibration.txt", stream, self.start().printed(stream))
        command = "$ ./run details examples/calibration.txt\n"
        self.compare("README.md: calibration.txt", stream, block("README.md", command.rstrip()).removeprefix(command).encode())
        remarks = [side.remarks for pair in pairs(stream) for side in pair]
        on, below = model.ON, model.BELOW
        self.holds("the bench's remarks", remarks == [(on, on, on), (on, on, on), (below, below, on), (on, below, on)], remarks)

    def loading(self, kept):
        """What README.md says to run in Python does keep the refused cells apart from the numbers."""
        code = block("README.md", "import csv") + "print(len(rows), numbers, [row['pair'] + row['side'] for row in refused])\n"
        with tempfile.TemporaryDirectory() as room:
            Path(room, "morning.csv").write_bytes(model.details(kept))
            run = subprocess.run([sys.executable, "-I", "-c", code], cwd=room, capture_output=True, timeout=PATIENCE, text=True)
        sides = [(f"{n}{name}", side) for n, pair in enumerate(pairs(kept), 1) for name, side in zip(("left", "right"), pair)]
        numbers = [side.density / 1_000 for _, side in sides if not side.refusal]
        refused = [name for name, side in sides if side.refusal]
        self.holds("README.md: the lines for Python", run.stdout == f"{len(sides)} {numbers} {refused}\n", run.stdout + run.stderr)


Details().hold()
