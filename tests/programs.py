"""What holds a program, standard input to standard output, byte for byte to its model: hard streams, seeded random ones, slow pipes, pipes
that do not wait, closed ones, and ./run. tests/sheet.py and tests/details.py use it; each adds the files of examples/ that are its own.
"""
import fcntl
import os
import platform
import re
import shutil
import signal
import subprocess
import sys
import tempfile
import threading
import time
from concurrent.futures import ThreadPoolExecutor
from contextlib import suppress
from pathlib import Path

import model
from model import EXAMPLE
from streams import ALL_KINDS, LONGEST, MISSING, SURFACE

ROOT = Path(__file__).resolve().parent.parent
SAMPLE = ROOT / "examples" / "two-intakes.bin"
WORKERS = 2
PATIENCE = 30  # seconds after which a run counts as hanging


def block(document, first):
    """The one fenced block of a document that starts with this line."""
    fenced = re.findall(r"^```\w*\n(.*?)^```$", (ROOT / document).read_text("utf-8"), re.M | re.S)
    [text] = [text for text in fenced if text.startswith(first + "\n")]
    return text


# ---- a program


class Started:
    """A started program. When its time is over it is stopped and counts as hanging, so that no wait for it is without end; one that starts
    others wants a session of its own, so that they are stopped too."""

    def __init__(self, command, **how):
        self.hangs, self.alone = False, not how.get("start_new_session")
        self.process = subprocess.Popen(command, bufsize=0, **how)
        self.timer = threading.Timer(PATIENCE, self.stop)
        self.timer.daemon = True
        self.timer.start()

    def stop(self):
        self.hangs = True
        if self.alone:
            return self.process.kill()
        with suppress(ProcessLookupError):
            os.killpg(self.process.pid, signal.SIGKILL)

    def end(self):
        """Words for what is wrong with its end, if anything is."""
        self.process.wait()
        self.timer.cancel()
        if self.hangs:
            return f"no end within {PATIENCE} s"
        return f"status {self.process.returncode}" if self.process.returncode else None

    def printed(self, stream=None):
        got, _ = self.process.communicate(stream)
        return self.end() or got


def pipe_for_64k():
    """Of the same size on every machine: above the longest stream that has a page, below the longest page."""
    reads, writes = os.pipe()
    fcntl.fcntl(writes, fcntl.F_SETPIPE_SZ, 1 << 16)
    return reads, writes


class Trial:
    """Of the program `name`, which prints `expected(stream)`; `every()` are its streams, and `examples()` its own further trials."""

    writes = 4  # at most, for a stream of 60,000 bytes

    def __init__(self):
        self.command = sys.argv[1:] or sys.exit(f"give the command that starts {self.name}")
        self.streams = 0
        self.different = 0

    def wrong(self, *lines):
        self.different += 1
        if self.different <= 10:
            print("\n  ".join(lines), flush=True)

    def compare(self, what, stream, got):
        """`got` is what was printed, or words for what went wrong."""
        self.streams += 1
        expected = self.expected(stream)
        if got == expected:
            return
        hexed = stream[:2_000].hex(" ") + (f" .. ({len(stream)} bytes)" if len(stream) > 2_000 else "")
        if isinstance(got, bytes):
            lines = [text.split(b"\n") for text in (expected, got)]
            at = next((i for i, (a, b) in enumerate(zip(*lines)) if a != b), min(map(len, lines)))
            shown = [f"{name} {text[at:at + 3]}" for name, text in zip(("expected:", "got:     "), lines)]
            self.wrong(f"{self.name}: {what}: different from line {at + 1} on", f"input:    {hexed}", *shown)
        else:
            self.wrong(f"{self.name}: {what}: {got}", f"input:    {hexed}", f"expected: {expected[:300]}")

    def start(self, **how):
        return Started(self.command, stdin=subprocess.PIPE, stdout=subprocess.PIPE, **how)

    def all_streams(self):
        every = list(dict.fromkeys(self.every()))
        hanging = []

        def run(stream):
            if len(hanging) > 3:
                return "not run, others hang"
            program = self.start()
            got = program.printed(stream)
            hanging.extend([stream] * program.hangs)
            return got

        with ThreadPoolExecutor(WORKERS) as pool:
            for stream, got in zip(every, pool.map(run, every)):
                self.compare("a stream", stream, got)

    # ---- standard input: pipes, files, closed

    def slowly(self, stream, piece, delay):
        """From a pipe, some bytes at a time."""
        program = self.start()
        with suppress(BrokenPipeError):
            for at in range(0, len(stream), piece):
                program.process.stdin.write(stream[at : at + piece])
                time.sleep(delay)
        self.compare(f"a pipe, {piece} bytes at a time", stream, program.printed())

    def from_file(self, what, stream, file):
        self.compare(what, stream, Started(self.command, stdin=file, stdout=subprocess.PIPE).printed())

    def inputs(self):
        for piece in (1, 3, 7):
            for stream in (EXAMPLE, ALL_KINDS[:-1], MISSING * 3 + b"\x08"):
                self.slowly(stream, piece, 0.002)
        self.slowly(ALL_KINDS * 250, 4_099, 0.005)
        self.slowly(LONGEST, 30_000, 0.02)
        self.slowly(LONGEST + b"\0", 60_000, 0.02)
        with tempfile.TemporaryFile() as file:
            file.write(SURFACE + ALL_KINDS)
            for at in (0, len(SURFACE), len(SURFACE + ALL_KINDS)):
                file.seek(at)
                self.from_file("a file, from its middle too", (SURFACE + ALL_KINDS)[at:], file)
        with open("/dev/null", "rb") as nothing, open("/dev/zero", "rb") as endless:
            self.from_file("no input", b"", nothing)
            self.from_file("endless input", bytes(60_001), endless)

    # ---- standard input that fails: a read that fails ends the stream as its end does, without a word and with status 0. So what
    # came before is taken for the whole, and where that ends between two pairs the page does not show it.

    def failing(self, what, stream, command=None, **how):
        """The page of what could be read, and nothing said beside it."""
        program = Started(command or self.command, stdout=subprocess.PIPE, stderr=subprocess.STDOUT, **how)
        self.compare(what, stream, program.printed())

    def not_waiting(self, ready):
        """From a pipe that says so when nothing is there, and stays open: the program ends all the same, and more may still come."""
        reads, writes = pipe_for_64k()
        os.set_blocking(reads, False)
        os.write(writes, ready)
        self.failing(f"a pipe that does not wait, {len(ready)} bytes there", ready, stdin=reads)
        os.close(reads)
        os.close(writes)

    def failing_inputs(self):
        for ready in (b"", EXAMPLE[:2], EXAMPLE[:12], EXAMPLE[:24], EXAMPLE, LONGEST, LONGEST + b"\0"):
            self.not_waiting(ready)
        self.failing("standard input closed", b"", ["sh", "-c", 'exec "$@" <&-', "sh", *self.command])
        directory = os.open(ROOT, os.O_RDONLY)
        self.failing("standard input is a directory", b"", stdin=directory)
        os.close(directory)
        with tempfile.NamedTemporaryFile() as file:
            file.write(EXAMPLE)
            file.flush()
            for mode in ("ab", "r+b"):  # at its start, and readable, the second
                with open(file.name, mode) as opened:
                    self.failing(f"a file opened as {mode}", b"" if mode == "ab" else EXAMPLE, stdin=opened)

    # ---- standard output: read slowly, or not to the end, when it must end by itself; a write that fails ends it with status 0

    def read_slowly(self, stream):
        """The page is longer than a pipe holds."""
        program = self.start()
        with suppress(BrokenPipeError):
            program.process.stdin.write(stream)
        program.process.stdin.close()
        got = b""
        while piece := program.process.stdout.read(1_000):
            got += piece
            time.sleep(0.001)
        program.process.stdout.close()
        self.compare("a page read slowly", stream, program.end() or got)

    def ends(self, what, stream, read=0, command=None, out=None, status=None, **how):
        """It ends, though nobody reads more than the first bytes: with that status, or any."""
        self.streams += 1
        with tempfile.TemporaryFile() as file:
            file.write(stream)
            file.seek(0)
            reads, writes = os.pipe()
            if not read:
                os.close(reads)
            program = Started(command or self.command, stdin=file, stdout=out or writes, **how)
            os.close(writes)
            if read:
                os.read(reads, read)
                os.close(reads)
            said = program.end()
        if program.hangs or status not in (None, program.process.returncode):
            self.wrong(f"{self.name}: {what}, input of {len(stream)} bytes: {said or 'status 0'}")

    def no_room(self):
        """To a pipe that takes what it has room for and does not wait: the page is cut there, and nothing is said."""
        with tempfile.TemporaryFile() as file:
            file.write(LONGEST)
            file.seek(0)
            reads, writes = pipe_for_64k()
            os.set_blocking(writes, False)
            said = Started(self.command, stdin=file, stdout=writes).end()
            os.close(writes)
            with open(reads, "rb") as pipe:
                got = pipe.read()
        self.streams += 1
        expected = self.expected(LONGEST)
        if said or not 0 < len(got) < len(expected) or not expected.startswith(got):
            self.wrong(f"{self.name}: standard output that does not wait: {said or f'{len(got)} bytes'}")

    def outputs(self):
        self.read_slowly(LONGEST)
        self.no_room()
        for stream in (EXAMPLE, LONGEST, bytes(60_001)):
            for signals in (True, False):  # with the signal of a broken pipe and, as Python ignores it, without
                self.ends("standard output without a reader", stream, restore_signals=signals)
                self.ends("standard output's reader leaves", stream, read=5, restore_signals=signals)
            self.ends("standard output closed", stream, command=["sh", "-c", 'exec "$@" >&-', "sh", *self.command], status=0)
            with open("/dev/full", "wb") as full:
                self.ends("standard output without room", stream, out=full, status=0)

    # ---- system calls

    def few_calls(self):
        if not shutil.which("strace"):
            return print(f"{self.name}: system calls not counted: no strace")
        if platform.machine() != "x86_64" or any("qemu" in os.path.basename(word) for word in self.command):
            return print(f"{self.name}: system calls not counted: the program runs under an emulator")
        with tempfile.TemporaryDirectory() as room:
            source, calls, out = (Path(room, name) for name in ("stream", "calls", "page"))
            source.write_bytes(LONGEST)
            with open(source, "rb") as stream, open(out, "wb") as printed:
                traced = ["strace", "-f", "-o", calls, *self.command]
                said = Started(traced, stdin=stream, stdout=printed, stderr=subprocess.DEVNULL).end()
            if said:
                return print(f"{self.name}: system calls not counted: strace ends with {said}")
            self.compare("traced", LONGEST, out.read_bytes())
            text = calls.read_text(errors="replace")
            reads, writes, every = (len(re.findall(p, text, re.M)) for p in (r"\bread\(0,", r"\bwrite\(1,", r"^.*\w\("))
            if not (1 <= reads <= 4 and 1 <= writes <= self.writes and every <= 120):
                self.wrong(f"{self.name}: {reads} reads, {writes} writes and {every} system calls for 60,000 bytes")

    # ---- ./run

    def by_run(self):
        """By its name, and sheet without one too: of the sample, of standard input, of a file, and of one that has the program's name."""
        sample = SAMPLE.read_bytes()
        ways = [([], sample), (["-"], ALL_KINDS), ([str(SAMPLE)], sample), ([f"./{self.name}"], EXAMPLE)]
        with tempfile.TemporaryDirectory() as room:
            Path(room, self.name).write_bytes(EXAMPLE)
            for first in [[self.name]] + [[]] * (self.name == "sheet"):
                for rest, stream in ways:
                    how = {"stdin": subprocess.PIPE, "stdout": subprocess.PIPE, "cwd": room, "start_new_session": True}
                    run = Started([ROOT / "run", *first, *rest], **how)
                    self.compare(" ".join(["./run", *first, *rest]), stream, run.printed(ALL_KINDS))

    def hold(self):
        model.hold()
        self.examples()
        self.by_run()
        self.inputs()
        self.failing_inputs()
        self.outputs()
        self.few_calls()
        self.all_streams()
        print(f"{self.name}: {self.streams} streams, {self.different} different")
        sys.exit(1 if self.different else 0)
