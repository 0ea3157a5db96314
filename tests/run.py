#!/usr/bin/env python3
"""Tries the command ./run as a stranger may: wrong words, odd names, text, files that cannot be read, a terminal, a full disk, closed pipes,
a kit that proves, refuses or is not there; and holds README.md to the sample page and the refusal numbers.

    python3 tests/run.py

The panel has to be built, so that the kit finds nothing to prove. A kit that does is a stand-in, in a copy of what ./run needs.
"""
import os
import re
import shutil
import signal
import subprocess
import sys
import tempfile
import threading
from concurrent.futures import ThreadPoolExecutor
from pathlib import Path

import model
from model import EXAMPLE, bits_of
from programs import PATIENCE, ROOT, SAMPLE, Started, block, pipe_for_64k
from streams import ALL_KINDS, LONGEST, MISSING, NANS, PLAIN, deep, missing, surface

RUN = ROOT / "run"
PAGES = {"sheet": model.page, "details": model.details}
TEXT = SAMPLE.with_suffix(".txt").read_bytes()
# Root reads and writes everything, but for this.
BOUND = ["setpriv", "--bounding-set=-dac_override,-dac_read_search"] if os.geteuid() == 0 and shutil.which("setpriv") else []


class Tries:
    count = different = 0

    def holds(self, what, expected, got):
        self.count += 1
        if got != expected:
            self.different += 1
            print(f"run: {what}", f"expected: {str(expected)[:500]}", f"got:      {str(got)[:500]}", sep="\n  ", flush=True)

    def run(self, what, status, page, words, says=None, command=(RUN,), stdin=b"", stdout=subprocess.PIPE, **how):
        """The status, standard output to the byte, and one line or, without `says`, nothing on standard error; `says` is in that line."""
        given = stdin if isinstance(stdin, bytes) else None
        how.update(stdin=stdin if given is None else subprocess.PIPE, stdout=stdout, stderr=subprocess.PIPE)
        run = Started([*command, *words], start_new_session=True, **how)
        out, err = run.process.communicate(given)
        wrong, said = run.end(), err.decode(errors="replace")
        if says and says in said and said.startswith(("run: ", "make-stream: ")) and said.find("\n") == len(said) - 1:
            said = says
        self.holds(what, (status, page, says or ""), (wrong if run.hangs else run.process.returncode, out, said))


def links_to(folder, *commands):
    """A folder for PATH with these commands alone, as far as they are there."""
    folder.mkdir()
    for command in filter(shutil.which, commands):
        folder.joinpath(command).symlink_to(shutil.which(command))
    return str(folder)


# ---- words


def words(tries, room):
    for asked in (["--help"], ["-h"], ["details", "--help"], ["sheet", "-h"]):
        done = subprocess.run([RUN, *asked], capture_output=True, timeout=PATIENCE, cwd=room, text=True)
        shown = re.findall(r"^\./run \[sheet \| details\] \[FILE \| -\]$|\bdetails\b|\.txt\b|\bStatus: 0\b", done.stdout, re.M)
        tries.holds(asked, (0, "", 4), (done.returncode, done.stderr, len(set(shown))))
    Path(room, "folder.txt").mkdir()
    for wrong, says in [
        (["shet"], "no file 'shet', nor a program"), (["absent.bin"], "no file 'absent.bin'"), ([""], "no file ''"), (["-x"], "no file '-x'"),
        (["--"], "no file '--'"), (["sheet", "details"], "no file 'details'"), (["details", "absent.txt"], "no file 'absent.txt'"),
        (["tables", "-"], "'tables' is neither sheet nor details"), ([str(SAMPLE), "details"], "is neither sheet nor details"),
        (["sheet", "-", "-"], "one FILE at a time"), (["."], "'.' is a folder"), (["details", "folder.txt"], "'folder.txt' is a folder"),
        (["a\nb"], r"no file $'a\nb'"), (["sheet", "/dev/null/x"], "no file '/dev/null/x'"),
    ]:
        tries.run(wrong, 2, b"", wrong, says, cwd=room)


# ---- inputs


def written(path, stream):
    """A pipe with a name, and somebody who writes to it."""
    os.mkfifo(path)
    threading.Thread(target=path.write_bytes, args=(stream,), daemon=True).start()


def names(tries, room):
    for name in ("a morning.bin", "-odd", "--help.bin", "é", "line\nfeed", "$(false)", "*", "txt"):
        Path(room, name).write_bytes(ALL_KINDS)
        tries.run(f"a file called {name!r}", 0, model.page(ALL_KINDS), [name], cwd=room)
    Path(room, "--help").write_bytes(EXAMPLE)
    tries.run("a file called --help", 0, model.page(EXAMPLE), ["./--help"], cwd=room)
    Path(room, "link").symlink_to("a morning.bin")
    Path(room, "panel").symlink_to(RUN)
    tries.run("a link, and ./run by a link", 0, model.details(ALL_KINDS), ["details", "link"], command=["./panel"], cwd=room)
    tries.run("from the top", 0, model.page(SAMPLE.read_bytes()), ["examples/two-intakes.bin"], command=["./run"], cwd=ROOT)
    tries.run("from a folder below", 0, model.page(SAMPLE.read_bytes()), ["two-intakes.bin"], command=["../run"], cwd=SAMPLE.parent)


def inputs(tries, room):
    Path(room, "empty").touch()
    Path(room, "longest").write_bytes(LONGEST)
    Path(room, "too-long").write_bytes(LONGEST + b"\0")
    for name, expected in PAGES.items():
        for what in ("empty", "/dev/null"):
            tries.run(f"{name} {what}", 0, expected(b""), [name, what], cwd=room)
        tries.run(f"{name}, standard input /dev/null", 0, expected(b""), [name, "-"], stdin=subprocess.DEVNULL)
        tries.run(f"{name}, 60,000 bytes", 0, expected(LONGEST), [name, "longest"], cwd=room)
        for what in ("too-long", "/dev/zero"):
            tries.run(f"{name} {what}", 3, b"too long\n", [name, what], f"'{what}' has more than 60,000 bytes", cwd=room)
    tries.run("60,001 bytes from a pipe", 3, b"too long\n", ["-"], "standard input has more than 60,000", stdin=LONGEST + b"\0")
    with open("/dev/zero", "rb") as endless:
        tries.run("endless standard input", 3, b"too long\n", ["-"], "standard input has more than 60,000", stdin=endless)
    written(Path(room, "pipe"), LONGEST)
    tries.run("a pipe with a name", 0, model.page(LONGEST), ["pipe"], cwd=room)
    bash = ["bash", "-c", '"$0" details <(cat "$1")', RUN]
    tries.run("bash's <(..)", 0, model.details(EXAMPLE), [ROOT / "crates" / "sheet" / "stdin"], command=bash)


def unreadable(tries, room):
    """A read that fails is told, and gives no page: to the programs it would be the end of the stream."""
    tries.run("a file whose reading fails", 2, b"", ["/proc/self/mem"], "cannot read '/proc/self/mem': Input/output error")
    tries.run("standard input closed", 2, b"", ["-"], "standard input is closed", command=["sh", "-c", 'exec "$0" "$@" <&-', RUN])
    folder = os.open(room, os.O_RDONLY)
    tries.run("standard input is a folder", 2, b"", ["-"], "cannot read standard input: Is a directory", stdin=folder)
    os.close(folder)
    reads, writes = os.pipe()
    os.set_blocking(reads, False)
    os.write(writes, EXAMPLE)
    tries.run("standard input that does not wait", 2, b"", ["details", "-"], "cannot read standard input: Resource", stdin=reads)
    os.close(reads)
    os.close(writes)
    kept = Path(room, "kept.txt")
    kept.write_bytes(TEXT)
    kept.chmod(0)
    if subprocess.run([*BOUND, "cat", kept], capture_output=True).returncode != 1:
        return print("run: a file without leave to read it: not tried, since here it can be read")
    tries.run("a file without leave to read it", 2, b"", [kept], "kept.txt': Permission denied", command=[*BOUND, RUN])


def texts(tries, room):
    stream = SAMPLE.read_bytes()
    for name in ("morning.txt", "-my morning.TXT"):
        Path(room, name).write_bytes(TEXT)
        tries.run(f"text {name}", 0, model.page(stream), [name], cwd=room)
        tries.run(f"details of text {name}", 0, model.details(stream), ["details", name], cwd=room)
    Path(room, "alone.txt").write_bytes(b"deep 35 5 nan\nsurface 35 -1\n")
    alone = deep(*PLAIN[:2], NANS[0]) + surface(PLAIN[0], bits_of(-1))
    tries.run("a reading with ln K0 alone, and one with all but that", 0, model.details(alone), ["details", "alone.txt"], cwd=room)
    Path(room, "probes.txt").write_bytes(b"deep 35 5 250 probe 513\nsurface 35 -1 probe 513\nmissing probe 258\nmissing\n")
    probes = deep(*PLAIN, 513) + surface(PLAIN[0], bits_of(-1), 513) + missing(258) + MISSING
    for name, expected in PAGES.items():
        tries.run(f"{name} of one probe on both sides", 0, expected(probes), [name, "probes.txt"], cwd=room)
    written(Path(room, "pipe.txt"), TEXT.replace(b"\n", b"\r\n"))
    tries.run("text from a pipe with a name", 0, model.page(stream), ["pipe.txt"], cwd=room)
    for text, status, page, says in [
        (b"", 0, model.HEADER, None), (b"# nothing yet\n", 0, model.HEADER, None), (b"missing\n" * 15_000, 0, model.page(LONGEST), None),
        (b"missing\n" * 15_002, 3, b"too long\n", "'slip.txt' has more than 60,000 bytes"),
        (b"missing\n", 0, model.page(MISSING), "make-stream: note: the last left"),
        (b"missing\nsurface 35,2 5\n", 2, b"", "make-stream: line 2: '35,2' is not a number"), (stream, 2, b"", "make-stream: line 1: "),
        (b"missing\nmissing probe 65536\n", 2, b"", "make-stream: line 2: '65536' is not a probe's number"),
    ]:
        Path(room, "slip.txt").write_bytes(text)
        tries.run(f"text {text[:40]}", status, page, ["slip.txt"], says, cwd=room)


def terminal(tries):
    """On a terminal '-' says what it waits for, and nothing else does."""
    for asked, expected in ((["-"], model.page(b"")), (["details", "-"], model.details(b""))):
        ours, its = os.openpty()
        run = Started([RUN, *asked], stdin=its, stdout=subprocess.PIPE, stderr=subprocess.PIPE, start_new_session=True)
        line = run.process.stderr.readline()
        os.write(ours, b"\x04")  # the end, as it is typed
        out, err = run.process.communicate()
        waits = line.startswith(b"run: waits for records from standard input")
        tries.holds(f"{asked} on a terminal", (None, True, expected, b""), (run.end(), waits, out, err))
        tries.run("no '-' on a terminal", 0, model.page(SAMPLE.read_bytes()), [], stdin=its)
        os.close(ours)
        os.close(its)


# ---- outputs


def outputs(tries, room):
    """A page that does not go out whole is told, with status 4."""
    Path(room, "longest").write_bytes(LONGEST)
    for stream in (SAMPLE, "longest"):
        for signals in (True, False):  # with the signal of a broken pipe, and without
            how = {"cwd": room, "restore_signals": signals}
            with open("/dev/full", "wb") as full:
                tries.run(f"{stream}, a full disk", 4, None, [stream], "not written to its end: No space left on device", stdout=full, **how)
            reads, writes = os.pipe()
            os.close(reads)
            says = "not written to its end: " + ("nobody reads it" if signals else "Broken pipe")
            tries.run(f"{stream}, a closed pipe", 4, None, ["details", stream], says, stdout=writes, **how)
            os.close(writes)
    with open("/dev/full", "wb") as full:
        tries.run("the help, a full disk", 4, None, ["--help"], "the help is not written to its end", stdout=full)
    closed = ["sh", "-c", 'exec "$0" "$@" >&-', RUN]
    tries.run("standard output closed", 4, b"", [], "standard output is closed", command=closed)
    head = ["bash", "-c", '"$0" details "$1" | head -n 1; exit "${PIPESTATUS[0]}"', RUN]
    tries.run("./run | head -n 1", 4, model.DETAILS_HEADER, ["longest"], "nobody reads it", command=head, cwd=room)
    reads, writes = pipe_for_64k()
    os.set_blocking(writes, False)
    tries.run("standard output that does not wait", 4, None, ["longest"], "not written to its end: Resource", stdout=writes, cwd=room)
    os.close(reads)
    os.close(writes)
    mute = ["sh", "-c", 'exec "$0" "$@" 2>&-', RUN]
    tries.run("standard error closed", 0, model.page(LONGEST), ["longest"], command=mute, cwd=room)
    tries.run("standard error closed, and a word for it", 2, b"", ["absent"], command=mute, cwd=room)


def together(tries):
    """Three at once do not take each other's files for their own."""
    with ThreadPoolExecutor(3) as pool:
        for done in pool.map(lambda _: subprocess.run([RUN], capture_output=True, timeout=PATIENCE), range(12)):
            tries.holds("three at once", (0, model.page(SAMPLE.read_bytes())), (done.returncode, done.stdout))


# ---- the kit


class Copy:
    """What ./run needs of the checkout, and a stand-in for the kit, whose `rt run` does what a script says, in the crate's folder. As the kit's, it says
    all on standard error; what it writes to standard output is what the program wrote that it ran on nothing."""

    PROGRAM = "#!/bin/sh\ncat >/dev/null\necho page\n"
    UNCHANGED = """echo 'rt: nothing has changed since the last proved build, by out/sheet.stamp, so nothing is checked now'
echo 'rt: running out/sheet; to give it other input, run that file yourself'
echo header >&3
"""

    def __init__(self, room):
        self.top, self.gate = Path(room, "copy"), None
        for name in ("run", "scripts/kit.sh", "examples/make-stream", "examples/two-intakes.bin"):
            self.top.joinpath(name).parent.mkdir(parents=True, exist_ok=True)
            shutil.copy(ROOT / name, self.top / name)
        self.command = [self.top / "run"]
        self.env = {**os.environ, "PATH": f"{self.top / 'bin'}:{os.environ['PATH']}"}
        self.built = self.top / "crates/sheet/out"
        waits = f"waits() {{ read -r _ <{self.top / 'go'}; }}"
        asked = f'[ "$1 $PWD" = "run {self.built.parent}" ] || exit 9'
        self.write("bin/rt", f'#!/bin/sh\n[ "$1" = doc ] && echo "$0" && exit\n{waits}\n{asked}\nexec 3>&1 >&2\n. {self.top / "check"}\n')

    def write(self, name, text):
        path = self.top / name
        path.parent.mkdir(parents=True, exist_ok=True)
        path.write_text(text)
        path.chmod(0o755)

    def begin(self, script, program=PROGRAM, stamp=""):
        """The kit's part, the program that an earlier run left, and its stamp; a pipe at which the kit waits."""
        for made in (self.top / "target", self.built):
            shutil.rmtree(made, ignore_errors=True)
        self.built.parent.mkdir(parents=True, exist_ok=True)
        self.write("check", script)
        if program:
            self.write("crates/sheet/out/sheet", program)
        if stamp:
            self.write("crates/sheet/out/sheet.stamp", stamp)
        if self.gate:
            os.close(self.gate)
            os.unlink(self.top / "go")
        os.mkfifo(self.top / "go")
        self.gate = os.open(self.top / "go", os.O_RDWR)  # so that no end of it waits for the other

    def go(self):
        os.write(self.gate, b"go\n")

    def started(self):
        return Started(self.command, stdin=subprocess.DEVNULL, stdout=subprocess.PIPE, stderr=subprocess.PIPE, env=self.env, start_new_session=True)


def proving(tries, copy):
    """Said at once, while the kit is still at its first crate; then crate by crate."""
    first = b"run: the panel is proved and built once, before its first run: some minutes"
    changed = b"run: something has changed since the panel was built"
    whole, sheet = b"run: whole is proved\n", b"run: sheet is proved\n"
    proves = "echo 'rt: chose --jobs 2 for {0}'; {1}; echo 'fn {0}::first: proved'; echo 'crate {0}: modules loaded=9 checked=9'; echo 'logic=proved functions=1'\n"
    build = proves.format("whole", "waits") + f"waits; mkdir -p out; cp {copy.top / 'made'} out/sheet\n" + proves.format("sheet", ":") + "echo header >&3\n"
    copy.write("made", copy.PROGRAM)
    for what, says, program, stamp in [
        ("the first run", first, "", ""), ("the program gone, its stamp there", first, "", "stamp"),
        ("after an edit", changed, "#!/bin/sh\necho old\n", "stamp"),
    ]:
        stale = "" if program else "[ ! -e out/sheet.stamp ] || exit 9\n"
        copy.begin(stale + build, program, stamp)
        run = copy.started()
        begins, *lines = [run.process.stderr.readline()]
        for _ in (whole, sheet):
            copy.go()
            lines.append(run.process.stderr.readline())
        out, rest = run.process.communicate()
        tries.holds(what, (None, True, [whole, sheet], b"page\n", b""), (run.end(), begins.startswith(says), lines, out, rest))
    copy.begin(proves.format("sheet", ":"))
    run = copy.started()
    out, said = run.process.communicate()
    tries.holds("after a small edit", (None, b"page\n", True, True), (run.end(), out, said.startswith(changed), said.endswith(b"\n" + sheet)))
    copy.begin(copy.UNCHANGED)
    tries.run("nothing changed", 0, b"page\n", [], command=copy.command, env=copy.env)


def waiting(tries, copy):
    """The second of two waits until the first has proved, and says so."""
    copy.begin("waits\n" + copy.UNCHANGED)
    one = copy.started()
    one.process.stderr.readline()  # it has the kit at work
    other = copy.started()
    line = other.process.stderr.readline()
    copy.go()
    copy.go()
    got = [(run.process.communicate()[0], run.end()) for run in (one, other)]
    tries.holds("two at once", [(b"page\n", None)] * 2, got)
    tries.holds("two at once: the second", True, line.startswith(b"run: another ./run is proving the panel"))


def refusing(tries, copy):
    """The old program is not served; the last lines are shown, those that say nothing left out; the status is 1 whatever the kit's is."""
    for status in (1, 2, 3, 127):
        log = [f"line {n}" for n in range(30)] + ["library whole: modules loaded=1 checked=0", "fn whole::root: not proved"]
        log += ["fn whole::step: proved", "rt: the library whole did not build, so nothing above it was checked"]
        copy.begin("".join(f"echo '{line}'\n" for line in log) + f"exit {status}\n")
        done = subprocess.run(copy.command, env=copy.env, capture_output=True, timeout=PATIENCE, text=True)
        *shown, last = done.stderr.splitlines() or [""]
        tries.holds("a kit that refuses", (1, "", log[12:30] + [log[31], log[33]]), (done.returncode, done.stdout, shown))
        tries.holds("a kit that refuses: its last line", True, last.startswith("run: the panel as it stands is not proved"))
    for program in ("#!/bin/sh\necho half\nexit 1\n", "#!/bin/sh\nexit 0\n", "#!/bin/sh\necho half\nkill -TERM $$\n"):
        copy.begin(copy.UNCHANGED, program)
        done = subprocess.run(copy.command, env=copy.env, capture_output=True, timeout=PATIENCE, text=True)
        tries.holds(f"a program that fails: {program}", (1, "", True), (done.returncode, done.stdout, "sheet did not print its page" in done.stderr))


def no_kit(tries, copy, room):
    copy.begin(copy.UNCHANGED)
    path = links_to(Path(room, "no-rt"), "bash", "cat", "dirname", "readlink")
    tries.run("no kit", 1, b"", [], "there is no command rt", command=copy.command, env={"PATH": path})
    tries.run("no kit, and a wrong word", 2, b"", ["absent"], "no file 'absent'", command=copy.command, env={"PATH": path})
    text = Path(room, "text.txt")
    text.write_bytes(TEXT)
    path = links_to(Path(room, "no-python"), "bash", "cat", "dirname", "mkdir", "mktemp", "readlink", "rm", "uname", "cc", "x86_64-linux-gnu-gcc")
    tries.run("no python3", 1, b"", [text], "readable text needs python3", command=copy.command, env={"PATH": f"{copy.top / 'bin'}:{path}"})
    (copy.top / "examples/two-intakes.bin").rename(copy.top / "moved")
    tries.run("no sample", 2, b"", [], "examples/two-intakes.bin'", command=copy.command, env=copy.env)
    (copy.top / "moved").rename(copy.top / "examples/two-intakes.bin")
    shutil.rmtree(copy.top / "target")
    shutil.rmtree(copy.built)


def no_room(tries, copy):
    """A checkout that cannot be written to."""
    says = f"cannot write in {copy.top}/target"
    (copy.top / "target").touch()
    tries.run("target is a file", 1, b"", [], says, command=copy.command, env=copy.env)
    (copy.top / "target").unlink()
    copy.begin(copy.UNCHANGED)
    (copy.top / "target").mkdir()
    for folder in (copy.top / "target", copy.top):
        folder.chmod(0o555)
        if subprocess.run([*BOUND, "touch", folder / "written"], capture_output=True).returncode != 1:
            print("run: a checkout without leave to write: not tried, since here it can be written to")
        else:
            tries.run(f"no leave to write in {folder.name}", 1, b"", [], says, command=[*BOUND, *copy.command], env=copy.env)
        folder.chmod(0o755)
        shutil.rmtree(copy.top / "target", ignore_errors=True)


def broken_off(tries, copy):
    """Stopped while the kit proves, nothing of it stays but the kit's own."""
    for number in (signal.SIGINT, signal.SIGTERM):
        copy.begin("echo 'rt: chose --jobs 2 for whole'; echo 'logic=proved functions=1'; waits", program="")
        run = copy.started()
        run.process.stderr.readline()
        run.process.stderr.readline()
        os.killpg(run.process.pid, number)
        out, _ = run.process.communicate()
        said, left = run.end(), list((copy.top / "target").glob("run.??????"))
        tries.holds(f"stopped by {number.name}", (True, b"", []), (said is not None and not run.hangs, out, left))


def kit(tries, room):
    copy = Copy(room)
    proving(tries, copy)
    waiting(tries, copy)
    refusing(tries, copy)
    broken_off(tries, copy)
    no_kit(tries, copy, room)
    no_room(tries, copy)


# ---- README.md


def numbers(document):
    """Those that the rows of its tables begin with."""
    rows = re.findall(r"^\| R?(\d+)(?: to R(\d+))? \|", (ROOT / document).read_text("utf-8"), re.M)
    return sorted(n for first, last in rows for n in range(int(first), int(last or first) + 1))


def readme(tries):
    tries.holds("README.md: the sample page", model.EXAMPLE_PAGE.decode(), block("README.md", model.HEADER.decode().rstrip()))
    tries.run("./run crates/sheet/stdin", 0, model.EXAMPLE_PAGE, ["crates/sheet/stdin"], cwd=ROOT)
    every = [*range(1, 9), 30, 31, 32, *range(101, 109), *range(201, 209)]
    tries.holds("README.md: every refusal number, once", every, numbers("README.md"))
    kinds = [1, 2, 3, 17, 18, 19]
    tries.holds("docs/FORMAT.md: kinds, and refusals of a reading and of a needle", sorted([*kinds, *range(1, 9), 32]), numbers("docs/FORMAT.md"))


def main():
    model.hold()
    signal.signal(signal.SIGINT, signal.default_int_handler)  # where it is ignored, as in the background of a shell, a try to break off would be too
    tries = Tries()
    for part in (words, names, inputs, unreadable, texts, outputs, kit):
        with tempfile.TemporaryDirectory() as room:
            part(tries, room)
    terminal(tries)
    together(tries)
    readme(tries)
    print(f"run: {tries.count} tries, {tries.different} different")
    sys.exit(1 if tries.different else 0)


main()
