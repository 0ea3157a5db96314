#!/usr/bin/env python3
"""Holds docs/PROMISES.md and the laws `One` to what the crates have: nothing is cited that is not there, and nothing public is left out.

    python3 tests/cited.py

Every file and every name that the page cites exists, comments aside; a law that stands in a column whose head names a file is a public law
of that file; every must-fail edit is cited, and says in its first line what it does; every public function has its law in its crate's
proofs/One, over its contract, and stands on the page; each but the inner ones has the law that it asks nothing of its caller. The numbers
that README promises in its table are those of the theorems. The definitions without remarks are made without those that have them.
"""
import re
import sys
from pathlib import Path

ROOT = Path(__file__).resolve().parent.parent
CRATES = ROOT / "crates"
PAGE = (ROOT / "docs/PROMISES.md").read_text(encoding="utf-8")
LIBRARIES = sorted(p.parent.parent.name for p in CRATES.glob("*/src/lib.rt"))
READ = [p for crate in CRATES.iterdir() for part in ("src", "specs", "proofs") for kind in ("antt", "rt") for p in (crate / part).rglob("*." + kind)]
TEXTS = {p: p.read_text(encoding="utf-8") for p in READ}
LAWS = {p: re.sub(r"(?m)(?:--|//) .*$", "", text) for p, text in TEXTS.items()}  # without comments

INNER = {("whole", "*"), ("freezing", "*"), ("floats", "grid.Range.place"), ("cells", "*"), ("texts", "put_line")}  # they ask for sizes or room, and their callers see to it

wrong = []


def hold(fact, otherwise):
    if not fact:
        wrong.append(otherwise)
    return fact


def edits_cited():
    """Crate and label of each edit: after a crate's name, or for both crates of demand 3, or all of a crate's."""
    cited = set()
    for line in PAGE.splitlines():
        for crate, labels in re.findall(r"\b(%s): ((?:`\w+`[,;]? ?)+|all three)" % "|".join(LIBRARIES), line):
            cited |= {(crate, label) for label in re.findall(r"`(\w+)`", labels)}
            if labels == "all three":
                cited |= {(crate, p.stem) for p in (CRATES / crate / "must-fail").glob("*.edit")}
        if line.count("|") == 5:  # a row of demand 3: what stands before a crate's name is in both
            both = re.split(r"\b(?:promises|pledges): ", line.split("|")[4])[0]
            cited |= {(crate, label) for crate in ("promises", "pledges") for label in re.findall(r"`(\w+)`", both)}
    return cited


def files_and_names():
    for path in set(re.findall(r"`((?:%s)/(?:specs|proofs|src)[^`]*)`" % "|".join(LIBRARIES), PAGE)):
        hold(any((CRATES / (path + end)).exists() for end in ("", ".antt", ".rt")), f"no such file: {path}")
    for path in set(re.findall(r"`(tests/[^`]+)`", PAGE)):
        hold((ROOT / path).exists(), f"no such file: {path}")
    labels = {label for _, label in EDITS}
    known = "\n".join(LAWS.values())
    words = {w for w in re.findall(r"`([^`\s]+)`", PAGE) if re.fullmatch(r"[A-Za-z][\w√'-]*", w)}
    for word in sorted(words - labels):
        hold(re.search(r"(?<![\w-])%s(?![\w-])" % re.escape(word), known), f"no such name: {word}")
    return len(words - labels)


def columns():
    """The laws below a head that names a file: each is public there."""
    heads, count = [], 0
    for line in PAGE.splitlines():
        cells = line.split("|")[1:-1]
        if not cells:
            heads = []
        elif not heads:
            heads = [re.search(r"\(`(\w+/proofs/\w+)`\)", cell) for cell in cells]
            continue
        for head, cell in zip(heads, cells):
            for law in re.findall(r"`([a-z]+(?:_[a-z]+)*)`", cell) if head else []:
                count += 1
                hold(re.search(r"(?m)^\s*pub %s :" % re.escape(law), LAWS[CRATES / (head[1] + ".antt")]), f"no public law {law} in {head[1]}")
    return count


WITH_REMARKS = """place_of remark_of first_outside placed_for in_order checked_for checked_of filled watered_of entered checked_channel channel_of needle_of
comparison_of channel_number channel_density channel_bulk dissolved solubility_of place_text places_text line_of page_of columns side_text
sides_of channel_words level_of level_for put_together taken_at channel_at side_of beside_of channel_beside side_cells place_cell line_cells""".split()


def bare():
    """That the panel is the same without remarks says something only of definitions that are not the panel's own."""
    words = set(re.findall(r"[A-Za-z]\w*", LAWS[CRATES / "remarks/specs/Bare.antt"]))
    for name in WITH_REMARKS:
        hold(any(re.search(r"(?m)^(?:abbrev|unfoldable) pub %s :" % name, text) for text in LAWS.values()), f"no such definition: {name}")
        hold(name not in words, f"remarks/specs/Bare names {name}, which has remarks")


def numbers():
    """README's table of how far to trust it: on the grid by `promises`, as sent by `sent`, of the definitions and of what the calls tell."""
    table = re.search(r"(?ms)^## How far may I trust it\?$.*?^\|---.*?\n(.*?)\n\n", (ROOT / "README.md").read_text(encoding="utf-8"))[1]
    rows = [re.findall(r"[\d.]+(?= kg/m³)|\d+(?= \(|\*\*)", line.replace("**", "")) for line in table.splitlines()]
    within, needle, near = ([round(float(x) * 10_000) for x in rows[0]], [int(rows[1][0]), int(rows[1][2])], [round(float(x) * 10_000) for x in rows[2]])
    for column, (said, told) in enumerate((("promises/specs/Promises", "pledges/proofs/Calls"), ("sent/specs/Sent", "sent/proofs/Calls"))):
        e, n, d = within[column], needle[column], near[column]
        for path in (said, told):
            text = LAWS[CRATES / (path + ".antt")]
            wanted = [rf"over {d} 10_000\)"]
            if path == "sent/specs/Sent":
                wanted += [rf"SentWithin = SentWithinBy {e}$", rf"SentToRight = SentToRightFrom {n}$", rf"SentToLeft = SentToLeftFrom {n}$"]
            else:
                wanted += [rf"pos {n} ≤ℤ", rf"≤ℤ neg {n}\b", "Close d " if path == "pledges/proofs/Calls" else rf"over {e} 10_000\)"]
            for pattern in wanted:
                hold(re.search("(?m)" + pattern, text), f"README's numbers and {path}: no {pattern}")
    return 3


def edits():
    for crate, label in sorted(EDITS):
        hold((CRATES / crate / "must-fail" / (label + ".edit")).exists(), f"no such edit: {crate}: {label}")
    there = [p for p in sorted(CRATES.glob("*/must-fail/*.edit"))]
    for path in there:
        hold((path.parent.parent.name, path.stem) in EDITS, f"an edit that the page does not cite: {path.relative_to(ROOT)}")
        hold(re.match(r"# \S.*\n", path.read_text(encoding="utf-8")), f"an edit without a label: {path.relative_to(ROOT)}")
    return len(there)


def held(crate, path, generic, laws):
    """The laws over one function's contract: two answers that it allows are equal; and, but for the inner ones, nothing is asked."""
    alias = re.search(r"use Rattle\.%s\.proofs\.%s\.Reads as (\S+)" % (crate, re.escape(path)), laws)
    if not hold(alias, f"no law over the contract of {crate}::{path}"):
        return
    reads = re.escape(alias[1])
    if not generic:
        hold(laws.count(f"{alias[1]}.Learnt κs a r s → {alias[1]}.Learnt κs a r' s'") == 1, f"no law: {crate}::{path}")
        free = r"(?m)^pub (free_\w+) : [^→]* → %s\.Asked κs a\n\1 κs a = tt$" % reads
    else:  # its types, and what holds of them, come first; of types that hold no loan nothing is asked
        told = re.findall(r"(?<=[ (])%s\.Learnt ((?:[a-z] )+)κs a r s → %s\.Learnt \1κs a r' s'" % (reads, reads), laws)
        hold(len(told) == 1, f"no law: {crate}::{path}")
        bound = r"(?P<bound>\((?:[a-z] )+: RattleType\)) (?:\((?:[a-z] )+: _\) )?\(κs : Lifetimes\.Lfts \d\) \(a : _\)"
        free = r"(?m)^pub (free_\w+) : %s → (?P<loans>(?:[a-z]\.lives ≡ \[\] → )+)%s\.Asked ((?:[a-z] )+)κs a\n\1 \4κs a(?: [a-z])+ = " % (bound, reads)
    if not {(crate, "*"), (crate, path)} & INNER:
        found = re.search(free, laws)
        hold(found, f"no law that nothing is asked: {crate}::{path}")
        if found and generic:
            types = re.findall(r"[a-z](?= )", found["bound"])
            hold(re.findall(r"([a-z])\.lives", found["loans"]) == types, f"asked of more than its types: {crate}::{path}")


def functions():
    """Each `pub fn`, and each function by which a trait is kept, with the path of its proofs: its module, the type whose method it is, its name. What keeps
    `Iterator` or `Layout` promises what the trait says (the page)."""
    count = 0
    for crate in LIBRARIES:
        laws = TEXTS.get(CRATES / crate / "proofs/One.antt", "")
        for source in sorted((CRATES / crate / "src").glob("*.rt")):
            module = "" if source.stem == "lib" else source.stem + "."
            owner, kept = "", ""
            for line in TEXTS[source].splitlines():
                if found := re.match(r"impl(?:<.*?>)? (\w+)(?:<(\w+)>)? for (\w+)", line):
                    owner = f"{found[3]}{found[1]}{found[2] or ''}."
                    kept = "" if found[1] in {"Iterator", "Layout"} else rf"`{found[1]}(?:<{found[2]}>)?` for `{found[3]}`"
                elif found := re.match(r"impl(?:<.*?>)? (\w+)(?:<.*?>)? \{", line):
                    owner = found[1] + "."
                elif line.startswith("impl"):
                    hold(False, f"an impl that is not read: {source.relative_to(ROOT)}: {line}")
                elif line.startswith("}"):
                    owner, kept = "", ""
                elif found := re.match(r'\s*(pub )?(?:extern "C" )?fn (\w+)(<\w)?', line):
                    if not found[1] and not kept:
                        continue
                    count += 1
                    held(crate, module + owner + found[2], bool(found[3]), laws)
                    name = kept or r"`(?:[\w:]+::|warpsorrel_)?%s`" % found[2].removeprefix("warpsorrel_")
                    hold(re.search(name, PAGE), f"a public function that the page does not name: {crate}::{found[2]}")
    return count


EDITS = edits_cited()
bare()
print(
    f"cited: {files_and_names()} names, {columns()} laws in columns of their own, {numbers()} rows of numbers, {edits()} edits,"
    f" {functions()} public functions, {len(wrong)} wrong"
)
for text in wrong:
    print("cited:", text)
sys.exit(1 if wrong else 0)
