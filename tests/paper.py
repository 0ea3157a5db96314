#!/usr/bin/env python3
"""Holds docs/ROOT.md to the compiled panel, line by line, and to the rule that it explains, word by word.

    python3 tests/paper.py COMMAND ...      the command that starts the driver (tests/driver.c)

Every line of each paper is asked of the compiled code, and so is the line after the last; and it is worked out once more by the page's own steps, whose
sentences have to stand there as they stand in RULE. The lines of the theorem `paper_points` are those of the page. Sums, digits, the check below a paper,
the ladder and every other number of the page are worked out here: each that is changed has to be seen. What examples/root-on-paper prints has to be on the
page as it is, on x86-64, where it can be run; it has to refuse what is no salinity, and to say so where a last line is none.
"""
import platform
import re
import struct
import subprocess
import sys
from fractions import Fraction
from importlib.machinery import SourceFileLoader
from importlib.util import module_from_spec, spec_from_loader
from math import isqrt
from pathlib import Path

TOP = Path(__file__).resolve().parent.parent
PAGE = (TOP / "docs/ROOT.md").read_text(encoding="utf-8")
POINTS = (TOP / "crates/roots/proofs/Points.antt").read_text(encoding="utf-8")
EXAMPLE = TOP / "examples/root-on-paper"
PAPERS = ["35", "12.345"]
N = 3_500_000_000

# The steps, as a reader has them; by_rule() does what they say.
RULE = [
    "Take the salinity in thousandths and write five noughts after it",
    "One digit struck halves it, two digits struck quarter it.",
    "1. **The first line.** The rest is the number itself, the root so far is 0. The trial bit is the greatest number of the ladder that is not over it.",
    "2. **A trial.** Add the root so far and the trial bit. Compare the sum with the rest.\n",
    "   - It is not over the rest: the digit is 1. Take the sum from the rest. Halve the root so far and add the trial bit to it.\n",
    "   - It is over the rest: the digit is 0. The rest stays. Halve the root so far.\n",
    "   Either way, the trial bit goes one step down the ladder.",
    "3. **The end.** After the trial with the bit 1 the trial bit is 0. What now stands for the root so far is the root.\n",
]


class Wrong(Exception):
    pass


def hold(fact, otherwise):
    if not fact:
        raise Wrong(otherwise)


def number(text):
    return int(text.replace(",", "")) if text else None


def cells(line):
    return [number(cell.strip()) for cell in line.strip().strip("|").split("|")]


def ask(command, asked):
    """The words of the compiled call for each salinity and number of trials."""
    requests = b"".join(b"w" + struct.pack("<qI", *each) for each in asked)
    answers = [*struct.iter_unpack("<5Q", subprocess.run(command, input=requests, capture_output=True, check=True).stdout)]
    assert len(answers) == len(asked)
    return dict(zip(asked, answers))


def sigma_of(salinity):
    whole, _, decimals = salinity.partition(".")
    return int(whole + decimals.ljust(3, "0"))


def section(page, salinity):
    found = re.search(rf"(?ms)^## Salinity {re.escape(salinity)}$(.*?)^## ", page)
    hold(found, f"no paper of salinity {salinity}")
    return found[1]


def by_rule(n, ladder):
    """Trial bit, rest and root so far of each line."""
    steps = [bit for bit in ladder if bit <= n] + [0]
    rest, so_far = n, 0
    for bit in steps[:-1]:
        yield [bit, rest, so_far]
        together = so_far + bit
        hold(so_far % 2 == 0, "a root so far that is odd is halved")
        so_far //= 2
        if together <= rest:
            rest -= together
            so_far += bit
    yield [0, rest, so_far]


def paper(page, salinity, told, ladder):
    """Returns how many lines were compared."""
    text, sigma = section(page, salinity), sigma_of(salinity)
    n = sigma * 100_000
    hold(f"Salinity {sigma // 1000}.{sigma % 1000:03d} in thousandths, with five noughts: {n:,}\n" in text, f"{salinity}: what is rooted")
    lines = [cells(line) for line in re.findall(r"(?m)^\| +\d* \| .*\|$", text)]
    hold([[bit, rest, so_far] for _, bit, so_far, _, rest, _ in lines] == [*by_rule(n, ladder)], f"{salinity}: not by the page's own steps")
    theorem = re.findall(rf"\bat {sigma:_} (\d+) ([\d_]+) ([\d_]+) ([\d_]+)\n", POINTS)
    hold([[*map(int, each)] for each in theorem] == [[j, bit, rest, so_far] for j, (_, bit, so_far, _, rest, _) in enumerate(lines)], f"{salinity}: not the theorem's lines")
    digits = ""
    for trials, (trial, bit, so_far, together, rest, digit) in enumerate(lines):
        refusal, root, *line = told[sigma, trials]
        hold(refusal == 0 and line == [bit, rest, so_far], f"{salinity}, line {trials + 1}: {bit, rest, so_far} on the page, the panel says {line}")
        if trials + 1 < len(lines):
            hold((trial, together) == (trials + 1, bit + so_far), f"{salinity}, line {trials + 1}: its number or its sum")
            hold(digit == (together <= rest), f"{salinity}, line {trials + 1}: its digit")
            digits += str(digit)
    hold((trial, bit, together, digit) == (None, 0, None, None), f"{salinity}: the last line")
    hold(told[sigma, len(lines)][2:] == (0, rest, so_far), f"{salinity}: a line more changes something")
    hold(so_far == root and int(digits, 2) == root, f"{salinity}: the root and its digits")
    below = f"The root is {root:,}, in binary digits {digits}.\nTo check it: {root:,} times {root:,} is {root * root:,}; with the rest, {rest:,}, that makes {n:,};\n"
    hold(below + f"and the rest is not over twice the root, {2 * root:,}.\n" in text, f"{salinity}: the check below the paper")
    hold(root * root + rest == n and rest <= 2 * root, f"{salinity}: the check does not hold")
    return len(lines)


def prose(page, told):
    """The steps word by word, and every number outside the papers. Returns the ladder."""
    for sentence in RULE:
        hold(sentence in page, f"the steps do not say: {sentence.strip()}")
    ladder = [x for line in re.findall(r"(?m)^\| [\d,]+(?: \| [\d,]+){3} \|$", page) for x in cells(line)]
    hold(ladder == [4**k for k in range(15, -1, -1)], "the ladder")
    w, other, left = told[35_000, 16][1], 1_234_500_000, 16 - 8
    _, _, _, rest, so_far = told[35_000, 8]
    known = so_far >> left
    pairs = " ".join(f"{N:b}"[i : i + 2] for i in range(0, 32, 2))
    hold(Fraction(w, 100_000) ** 2 < Fraction(35, 100) < Fraction(w + 1, 100_000) ** 2, "the root and its point")
    hold(known**2 + rest == N and N.bit_length() == 32 and other.bit_length() == 31 and ladder[0] <= other, "the examples")
    longest = max((sigma * 100_000).bit_length() for sigma in range(42_001))
    for sentence in (
        f"    examples/root-on-paper {PAPERS[1]}\n",
        f"for 35 that is {35_000:,}, and then {N:,}.",
        "divided by 100, with five decimals.",
        f"for 35 it is {w:,}, and the square root of 0.35 is 0.{w} and a little more.",
        "(For a salinity of 0 there is none: the trial bit is 0, and so is the root.)",
        f"No salinity takes more than {(longest + 1) // 2} trials.",
        f"the digits of the root are worth {isqrt(ladder[0]):,}, {isqrt(ladder[1]):,}, {isqrt(ladder[2]):,} and on to 1, their squares are the ladder.",
        "every trial with such a bit would give a 0 and change nothing",
        "the leading 1 stands in the leftmost pair",
        f"{N:,} has 32 digits,\n\n    {pairs}\n\nin {len(pairs.split())} pairs; the first trial bit is a 1 with 30 noughts, {1 << 30:,}.",
        f"{other:,} has 31 digits, and its leading pair is a single 1: {(31 + 1) // 2} pairs as well.",
        "counts the zeros before the leading 1 in a word of 64 digits, for which the processor has an instruction, takes them from 65,",
        f"After trial 8 of salinity 35, in the line of trial 9, {left} trials are left: {so_far:,} halved {left} times is {known:,}, whose square is {known**2:,};"
        f" with the rest, {rest:,}, that makes {N:,}.",
        "For every number below 2⁶⁴ the last line has the root",
        "for every salinity from 0 to 42 it is the root that",
        f"after at most {(longest + 1) // 2} trials (`sixteen`)",
        "the root of all 42,001 salinities",
    ):
        hold(sentence in page, f"the page does not say: {sentence.strip()}")
    return ladder


def whole_page(page, told):
    ladder = prose(page, told)
    return sum(paper(page, salinity, told, ladder) for salinity in PAPERS)


def changed(page):
    """The page with a digit of one of its numbers changed, each number in turn."""
    for at in re.finditer(r"\d[\d,.]*\d|\d", page):
        last = at.end() - 1
        yield page[:last] + str((int(page[last]) + 1) % 10) + page[last + 1 :]


def refused(page, told):
    try:
        whole_page(page, told)
    except Wrong:
        return True
    return False


def example():
    """What the example prints stands on the page; what it refuses it says, with status 2, and prints nothing; a line that is wrong it does not pass."""
    for salinity in PAPERS:
        run = subprocess.run([EXAMPLE, salinity], capture_output=True, text=True)
        hold(run.returncode == 0 and not run.stderr, f"the example's paper of {salinity}: {run.stderr.strip()}")
        hold(f"\n\n{run.stdout}\n" in PAGE, f"the example's paper of {salinity} is not on the page")
    far, none = "the salinity is not from 0 to 42", "at most three decimals"
    for bad, why in (("42.001", far), ("-0.001", far), ("9" * 30, far), ("12.3456", none), ("salt", none), ("", none), (".", none), ("12,345", "after a point")):
        run = subprocess.run([EXAMPLE, bad], capture_output=True, text=True)
        hold(run.returncode == 2 and not run.stdout and why in run.stderr, f"the example's answer to {bad}")
    loader = SourceFileLoader("root_on_paper", str(EXAMPLE))
    script = module_from_spec(spec_from_loader(loader.name, loader))
    loader.exec_module(script)
    right = script.Panel().root_lines(35_000)
    hold(script.paper(35_000, right)[1], "the example does not pass a right paper")
    last = right[-1]
    for slip in (last._replace(so_far=59_161), last._replace(rest=94_401), last._replace(root=59_161), last._replace(so_far=59_159, rest=94_400 + 2 * 59_160 - 1)):
        text, passes = script.paper(35_000, [*right[:-1], slip])
        hold(not passes and f"that makes {slip.so_far**2 + slip.rest:,};" in text, "the example passes a wrong paper")


def main():
    asked = [(sigma_of(salinity), trials) for salinity in PAPERS for trials in range(40)]
    told = ask(sys.argv[1:], asked)
    try:
        lines = whole_page(PAGE, told)
        if platform.machine() == "x86_64":
            example()
    except Wrong as why:
        sys.exit(f"docs/ROOT.md: {why}")
    changes = [(page, refused(page, told)) for page in changed(PAGE)]
    for page, seen in changes:
        if not seen:
            at = next(i for i, (a, b) in enumerate(zip(page, PAGE)) if a != b)
            print("docs/ROOT.md: not seen:", page[max(at - 40, 0) : at + 20].replace("\n", " "))
    seen = sum(seen for _, seen in changes)
    print(f"docs/ROOT.md: {lines} lines of {len(PAPERS)} papers as the compiled panel and the page's steps have them; {seen} of {len(changes)} changed numbers seen")
    sys.exit(0 if seen == len(changes) else 1)


main()
