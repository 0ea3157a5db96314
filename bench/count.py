"""Instructions executed, by the emulator's log of a program that it runs one instruction at a time.

count.py OBJDUMP MAP PROGRAM EMULATOR..: for each thing measured one line for each class of instruction: what, data, who, figure, class.
Only the code of the one measured is counted: the places in memory that the linker's map gives for its file."""
import collections
import re
import subprocess
import sys

objdump, map_path, program, *emulator = sys.argv[1:]
step = "-one-insn-per-tb" if "-one-insn-per-tb" in subprocess.run([*emulator, "-help"], capture_output=True, text=True).stdout else "-singlestep"

WORK = [("reading", data, who) for data in ("uniform", "sea-like", "one-salinity") for who in ("library", "plain", "plain-jump", "plain-sqrt", "double")]
WORK += [("channel", data, who) for data in ("uniform", "sea-like", "one-salinity") for who in ("library", "plain")]
WORK += [("needle", data, who) for data in ("uniform", "sea-like", "one-salinity") for who in ("library", "plain", "double")]
WORK += [("co2", data, who) for data in ("uniform", "sea-like", "one-salinity") for who in ("library", "plain", "double")]
WORK += [("page", data, who) for data in ("deep", "surface", "missing") for who in ("library", "plain")]
WORK += [("row", data, who) for data in ("accepted", "refused", "sheet") for who in ("library", "snprintf")]
WORK += [("row", data, "snprintf-double") for data in ("accepted", "sheet")]
# The doubles' logarithm is the C library's, and counted with them.
FILES = {"library": "libwarpsorrel.a(", "plain": "plain.o", "plain-jump": "jump.o", "plain-sqrt": "sqrt.o", "double": "double.o",
         "co2 log": "/libm-", "row library": "put_row.o", "row snprintf": "libc.a(", "row snprintf-double": "libc.a("}


def places():
    """Where each file's code stands: start and size. What stands together is one place: the emulator looks through all of them at every step."""
    text = re.sub(r"\n\s+(0x[0-9a-f]+\s+0x[0-9a-f]+ )", r" \1", open(map_path).read())
    parts = [(int(start, 16), int(size, 16), path) for start, size, path in re.findall(r"^ \.text\S*\s+0x([0-9a-f]+)\s+0x([0-9a-f]+) (\S+)$", text, re.M)]
    found, last = collections.defaultdict(list), None
    for start, size, path in sorted(part for part in parts if part[1] > 0):
        name = next((name for name in FILES.values() if (name in path if name[-1] in "(-" else path.split("/")[-1] == name)), None)
        if name == last:
            start, size = found[name][-1][0], start + size - found[name].pop()[0]
        found[name].append((start, size))
        last = name
    return found


def classes():
    """What an instruction at a place is, where it is one of those told apart."""
    names = {"mul": "multiplications", "imul": "multiplications", "mulx": "multiplications", "div": "divisions", "idiv": "divisions",
             "divsd": "divisions", "sqrtsd": "roots", "mulsd": "multiplications", "mulpd": "multiplications"}
    listing = subprocess.run([objdump, "-d", "--no-show-raw-insn", "-M", "intel", program], capture_output=True, text=True, check=True).stdout
    found = {}
    for place, name in re.findall(r"^ +([0-9a-f]+):\t([a-z0-9]+)", listing, re.M):
        if name in names:
            found[int(place, 16)] = names[name]
        elif name[0] == "j" and name != "jmp":
            found[int(place, 16)] = "conditional jumps"
    return found


def counted(words, ranges):
    """How often each instruction of these places is executed, and what the program says."""
    # the emulator's log is standard error, the program's own line standard output
    run = subprocess.Popen([*emulator, step, "-d", "nochain,exec", "-dfilter", ranges, program, *words], stdout=subprocess.PIPE, stderr=subprocess.PIPE)
    found = collections.Counter()
    for line in run.stderr:
        if line.startswith(b"Trace"):
            found[line.split(b"/", 2)[1]] += 1
    answers = int(run.stdout.read())
    if run.wait() != 0 or not found:
        sys.exit("count.py: no count for %s" % " ".join(words))
    return found, answers


def main():
    code, kinds = places(), classes()
    for what, data, who in WORK:
        file = f"row {who}" if what == "row" else who
        parts = code[FILES[file]] + (code[FILES["co2 log"]] if (what, who) == ("co2", "double") else [])
        ranges = ",".join("0x%x+0x%x" % place for place in parts)
        found, answers = counted(["once", what, data, who], ranges)
        if FILES[file] == "libc.a(":  # which also starts the program and prints its line
            found.subtract(counted(["never", what, data, who], ranges)[0])
        sums = collections.Counter({"instructions": 0, "multiplications": 0, "divisions": 0, "roots": 0, "conditional jumps": 0})
        for place, times in found.items():
            sums["instructions"] += times
            if kinds.get(int(place, 16)):
                sums[kinds[int(place, 16)]] += times
        for name, total in sums.items():
            print(what, data, who, "%.2f" % (total / answers), name, sep="\t", flush=True)


main()
