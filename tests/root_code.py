#!/usr/bin/env python3
"""Holds the root to shift, add and compare: its steps and its code as they are written, and its machine code as it is linked.

    python3 tests/root_code.py OBJDUMP ARCHIVE

As written: in the steps of crates/whole/specs/Paper.antt, past the shifts themselves, and in the code of crates/whole/src/lib.rt, from Trial to root, no
number is multiplied, divided or raised to a power; contracts and comments aside.

As linked: the root's code begins where the leading zeros of a number are counted, which nothing else in the archive does, and ends with the jump back of
the loop that follows. It stands in line in the work of a reading (sea::sounded) and in the call for a root (warpsorrel_root). In each the number is the
product by 100,000, which belongs to the recipe and not to the root, and nothing else; the instructions are those of START and of TRIAL, and 0 put into a
register; the one jump in the loop is its end. The two loops are the same, registers' names aside, and the numbers that they begin with are made in the
same way: so the trials that are tried with every salinity are those that a reading goes through. Beside that product the call for a root has no
multiplication and no division in all of its code.

Last, the same texts with a fault in them have to be refused.
"""
import re
import subprocess
import sys
from pathlib import Path

TOP = Path(__file__).resolve().parent.parent
STEPS = TOP / "crates/whole/specs/Paper.antt"
CODE = TOP / "crates/whole/src/lib.rt"
PLACES = ["sea::sounded", "warpsorrel_root"]
LEADING = {"bsr", "lzcnt"}
TRIAL = {"shr", "add", "sub", "lea", "cmp", "mov", "cmovb", "cmovae", "jne", "nop"}  # shift, add and take away, compare; and what chooses
START = TRIAL | LEADING | {"shl", "and", "xor", "je", "data16"}  # xor: the place of the leading bit, or nought; and: an even number of places
FORBIDDEN = re.compile(r"mul|div|sqrt|rcp")
REGISTER = re.compile(r"\b(?:[re]?(?:[abcd]x|[sd]i|[sb]p)|[abcd][lh]|r\d+[dwb]?)\b")


class Refused(Exception):
    pass


def hold(fact, otherwise):
    if not fact:
        raise Refused(otherwise)


# ---- as written


def check_written(steps, code):
    parts = re.search(r"(?s)◌≫◌ : ℕ → ℕ → ℕ\nn ≫ k = n / 2 \^ k\n(.*)", steps), re.search(r"(?s)pub struct Trial \{(.*?\npub fn root\(.*?\n\})\n", code)
    hold(all(parts), "the steps or the code of the root are not where they were")
    for what, text in (("steps", re.sub(r"--.*", "", parts[0][1])), ("code", re.sub(r"//.*|(?m:^\s*(?:requires|ensures) .*$)", "", parts[1][1]))):
        found = re.search(r".*(?:[*/%^]|\bpow|\bsqrt|whole::|scaled|\bstep\().*", text)
        hold(not found, f"in the {what} of the root: {found and found[0].strip()}")
        hold("≫" in text or ">>" in text, f"no shift in the {what} of the root")


def faults_written(steps, code):
    for old, new in (("t.root ≫ 1 })", "t.root / 2 })"), ("(t.root ≫ 1) + t.bit", "(t.root ≫ 1) + t.bit * 1"), ("(pairs_of n ≪ 1)", "(2 * pairs_of n)")):
        yield f"steps: {new}", (steps.replace(old, new), code)
    for old, new in (("self.root >> 1", "self.root / 2"), ("self.bit >> 2", "self.bit / 4"), ("pairs << 1", "2 * pairs"), ("    searched(n)", "    scaled(n, 1)")):
        yield f"code: {new}", (steps, code.replace(old, new))


# ---- as linked


def functions(text):
    """Each function's instructions: place, name, operands."""
    found = {}
    for block in re.split(r"\n\n", text):
        if head := re.search(r"^[0-9a-f]+ <(.+)>:$", block, re.M):
            lines = re.findall(r"^ *([0-9a-f]+):\t(\S+)(?: +(.*))?$", block, re.M)
            found[head[1]] = [(int(at, 16), name, operands.strip()) for at, name, operands in lines]
    return found


def wide(register):
    """The 64-bit register that a name is a part of."""
    if m := re.fullmatch(r"(r\d+)[dwb]?", register):
        return m[1]
    letters = register.lstrip("re") if len(register) == 3 else register
    return "r" + {"al": "ax", "bl": "bx", "cl": "cx", "dl": "dx"}.get(letters, letters)


def renamed(code):
    """Registers by the order in which they come, the jump's place left out; and that order."""
    names = {}
    lines = []
    for _, name, operands in code:
        lines.append((name, "" if name == "jne" else REGISTER.sub(lambda m: "#%d" % names.setdefault(wide(m[0]), len(names)), operands)))
    return lines, [*names]


def made(code, names):
    """How the numbers in these registers are made by a run of instructions without a loop; "in" is what a register held before."""
    held = {}

    def value(operand):
        return held.get(wide(operand), ("in", wide(operand))) if REGISTER.fullmatch(operand) else operand

    for _, name, operands in code:
        to, *of = operands.split(",")
        if name in ("je", "nop", "data16") or "[" in to:  # a jump past the loop; nothing; a word put aside
            continue
        hold("[" not in operands, f"the start reads memory: {name} {operands}")
        if name == "mov":
            held[wide(to)] = value(of[0])
        elif name == "xor" and to == of[0]:
            held[wide(to)] = "0x0"
        else:
            held[wide(to)] = (name, value(to), *map(value, of))
    return [held.get(name, ("in", name)) for name in names]


def root_of(where, code):
    """The root's instructions, its loop, and how the numbers that the loop begins with are made."""
    starts = [i for i, (_, name, _) in enumerate(code) if name in LEADING]
    hold(len(starts) == 1, f"{where}: leading zeros are counted {len(starts)} times")
    products = [i for i, (_, name, operands) in enumerate(code[: starts[0]]) if name == "imul" and operands.endswith(",0x186a0")]
    hold(len(products) == 1, f"{where}: not one product by 100,000 before the leading zeros")
    after = products[0] + 1
    ends = [i for i in range(starts[0], len(code)) if code[i][1][0] == "j" and int(code[i][2].split()[0], 16) <= code[i][0]]
    hold(ends, f"{where}: no loop after the leading zeros")
    loop = [line for line in code[: ends[0] + 1] if line[0] >= int(code[ends[0]][2].split()[0], 16)]
    start = code[after : ends[0] + 1 - len(loop)]
    hold(code[starts[0]] in start, f"{where}: the loop holds more than the trials")
    for lines, allowed in ((start, START), (loop, TRIAL)):
        for _, name, operands in lines:
            nought = name == "xor" and len(set(operands.split(","))) == 1  # a register with itself: 0 is put there
            hold((name in allowed or nought) and not re.search(r"\*[248]", operands), f"{where}: {name} {operands}")
    hold([name for _, name, _ in loop if name[0] == "j"] == ["jne"], f"{where}: a jump in the loop that is not its end")
    hold(loop[-2][1] == "shr" and loop[-2][2].endswith(",0x2"), f"{where}: the loop does not end with the trial bit two places lower")
    number = code[products[0]][2].split(",")[0]
    lines, names = renamed(loop)
    n = ("in", wide(number))
    begun = repr(made(start, names)).replace(repr(n), "'n'")
    hold("'n'" in begun and f"('{code[starts[0]][1]}', '0x7f', 'n')" in begun, f"{where}: the leading zeros are not the number's")
    return start + loop, loop, lines, begun


def check_linked(text):
    found = functions(text)
    counting = sorted(name for name, code in found.items() if any(line[1] in LEADING for line in code))
    hold(counting == PLACES, f"leading zeros are counted in {counting}")
    roots = {where: root_of(where, found[where]) for where in PLACES}
    one, other = roots.values()
    hold(one[2] == other[2], "the loops of a reading's root and of the call for a root differ")
    hold(re.sub(r"\('in', '\w+'\)", "in", one[3]) == re.sub(r"\('in', '\w+'\)", "in", other[3]), f"the loops begin with other numbers: {one[3]}, {other[3]}")
    products = [line for line in found["warpsorrel_root"] if FORBIDDEN.search(line[1])]
    hold(len(products) == 1, f"warpsorrel_root: {products}")
    return roots


def faults_linked(text, roots):
    """The text with one thing changed each, and what is changed."""
    for where, (code, loop, _, _) in roots.items():
        begin = text.index(f"<{where}>:")

        def put(line, name, operands):
            at = re.compile(r"^\s*%x:\t%s(?:\s+.*)?$" % (line[0], re.escape(line[1])), re.M).search(text, begin)
            return text[: at.start()] + "  %x:\t%s    %s" % (line[0], name, operands) + text[at.end() :]

        def line(name, last="", of=code):
            return next(each for each in of if each[1] == name and each[2].endswith(last))

        def other(name, last, new, of=code):
            found = line(name, last, of)
            return put(found, name, found[2][: len(found[2]) - len(last)] + new)

        leading = next(each for each in code if each[1] in LEADING)
        yield f"{where}: a multiplication in the loop", put(loop[1], "imul", loop[1][2])
        yield f"{where}: a division in the loop", put(loop[1], "div", "rcx")
        yield f"{where}: a square root before the loop", put(line("and"), "sqrtsd", "xmm0,xmm0")
        yield f"{where}: a jump on the digit found", put(loop[3], "jb", "%x <%s+0x%x>" % (loop[5][0], where, loop[5][0]))
        yield f"{where}: an and for an add", put(line("add", of=loop), "and", line("add", of=loop)[2])
        yield f"{where}: an exclusive or in the loop", put(line("xor", of=loop), "xor", line("xor", of=loop)[2].split(",")[0] + ",ecx")
        yield f"{where}: eight times the bit", put(loop[0], "lea", loop[0][2].replace("*1", "*8"))
        yield f"{where}: other shifts of the bit", other("shr", "0x2", "0x1", loop)
        yield f"{where}: other shifts of the root", other("shr", ",1", ",3", loop)
        yield f"{where}: another loop", put(loop[0], "mov", loop[0][2].split(",")[0] + ",rsi")
        yield f"{where}: another number's leading zeros", put(leading, leading[1], leading[2].split(",")[0] + ",r15")
        yield f"{where}: no leading zeros", put(leading, "mov", leading[2])
        yield f"{where}: one more than the number", put(code[0], "add", leading[2].split(",")[1] + ",0x1")
        yield f"{where}: the first bit a pair higher", other("mov", "0x41", "0x43")
        yield f"{where}: an odd number of places", other("and", "0x7e", "0x7f")
        yield f"{where}: a root that begins with the bit", put([each for each in code if each[1] == "xor" and "cx" in each[2]][-1], "mov", "rcx,rdx")
        yield f"{where}: the first bit not moved back", put(line("shr", "0x2"), "nop", "")


def main():
    objdump, archive = sys.argv[1:]
    text = subprocess.run([objdump, "-d", "--no-show-raw-insn", "-M", "intel", archive], capture_output=True, text=True, check=True).stdout
    written = STEPS.read_text(encoding="utf-8"), CODE.read_text(encoding="utf-8")
    try:
        check_written(*written)
        roots = check_linked(text)
    except Refused as why:
        sys.exit(f"root's code: {why}")
    missed = tried = 0
    faulty = [(what, check_written, texts) for what, texts in faults_written(*written)]
    faulty += [(what, check_linked, (changed,)) for what, changed in faults_linked(text, roots)]
    for what, check, texts in faulty:
        assert texts not in (written, (text,)), what
        tried += 1
        try:
            check(*texts)
        except Refused:
            continue
        missed += 1
        print("root's code: not seen:", what)
    told = ", ".join(f"{where} {len(code)} instructions, {len(loop)} of them a trial" for where, (code, loop, _, _) in roots.items())
    print(f"root's code: no multiplication, no division: {told}; {tried - missed} of {tried} faults seen")
    sys.exit(1 if missed else 0)


main()
