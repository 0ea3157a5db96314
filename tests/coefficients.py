#!/usr/bin/env python3
"""Holds the 41 coefficients of the density and the 6 of ln K0, to the last unit, to what is printed.

    python3 tests/coefficients.py

The definition (crates/sea/specs/Table.antt) and the code (ROWS in crates/sea/src/lib.rt) are proved to agree, and checked at nine
points. A coefficient that is wrong in both, below its printed digits, would pass all that. So both are read here and compared,
exactly, with SPEC's decimals and with UNESCO's, each typed in on its own. Then both are changed in memory, one place at a
time, to see that the comparison would notice.

Of ln K0 the definition (crates/carbon/specs/Weiss.antt) and the equation that it is proved to be near (crates/weiss/specs/Equation.antt) are read
so, and compared with the handbook's decimals. The code is proved to compute the definition.
"""
import itertools
import re
import sys
from fractions import Fraction
from pathlib import Path

ROOT = Path(__file__).resolve().parent.parent
TABLE = ROOT / "crates/sea/specs/Table.antt"
CODE = ROOT / "crates/sea/src/lib.rt"
WEISS = ROOT / "crates/carbon/specs/Weiss.antt"
EQUATION = ROOT / "crates/weiss/specs/Equation.antt"

# SPEC, on the common scale: u is degrees C/100, v is salinity/100, q is bar/1,000; lowest power of u first.
DOCUMENT = """
Dw 999.842594 6.793952 -90.95290 100.1685 -112.0083 65.36332
Ds 82.4493 -40.899 76.438 -82.467 53.875
Dr -5.72466 10.227 -16.546
Dss 4.8314
Kw 19652.21 14842.06 -23271.05 13604.77 -5155.288
Ks 5467.46 -6034.59 10998.7 -6167.0
Kr 79.44 1648.3 -5300.9
Aw 3239.908 143.713 1160.92 -577.905
As 228.38 -109.81 -1607.8
Ar 191.075
Bw 85.0935 -612.293 527.87
Bs -99.348 208.16 916.97
"""

# UNESCO Technical Papers in Marine Science 38 and 44, on their own scale: practical salinity, degrees C, bar. After the name stand twice
# the power of the salinity and the power of the pressure that the row is multiplied by.
PAPERS = """
Dw 0 0 999.842594 6.793952e-2 -9.095290e-3 1.001685e-4 -1.120083e-6 6.536332e-9
Ds 2 0 8.24493e-1 -4.0899e-3 7.6438e-5 -8.2467e-7 5.3875e-9
Dr 3 0 -5.72466e-3 1.0227e-4 -1.6546e-6
Dss 4 0 4.8314e-4
Kw 0 0 19652.21 148.4206 -2.327105 1.360477e-2 -5.155288e-5
Ks 2 0 54.6746 -0.603459 1.09987e-2 -6.1670e-5
Kr 3 0 7.944e-2 1.6483e-2 -5.3009e-4
Aw 0 1 3.239908 1.43713e-3 1.16092e-4 -5.77905e-7
As 2 1 2.2838e-3 -1.0981e-5 -1.6078e-6
Ar 3 1 1.91075e-4
Bw 0 2 8.50935e-5 -6.12293e-6 5.2787e-8
Bs 2 2 -9.9348e-7 2.0816e-8 9.1697e-10
"""

# Weiss (1974), as the handbook of CO2 measurements prints it in equation (30): with 100/T, alone, with ln(T/100); with S times (T/100) to the powers
# 0, 1, 2.
HANDBOOK = "93.4517 -60.2409 23.3585 0.023517 -0.023656 0.0047036".split()

NAMES = "Dw Ds Dr Dss Kw Ks Kr Aw As Ar Bw Bs".split()
LENGTHS = [6, 5, 3, 1, 5, 4, 3, 4, 3, 1, 3, 3]
WIDTH = 6  # a row of the code, with its noughts


class Unreadable(Exception):
    pass


def need(condition, what):
    if not condition:
        raise Unreadable(what)


def typed(text, powers):
    """name -> (powers, decimals)"""
    rows = {name: (tuple(map(int, words[:powers])), words[powers:]) for name, *words in map(str.split, text.split("\n")[1:-1])}
    need(list(rows) == NAMES and [len(decimals) for _, decimals in rows.values()] == LENGTHS, "this test's own tables have other rows")
    return rows


def by_document():
    """The decimals as printed, row by row."""
    return [decimals for _, decimals in typed(DOCUMENT, 0).values()]


def by_papers():
    """In units of 10^-9 on the common scale: t is 100 u, S is 100 v, P is 1,000 q."""
    return [
        [Fraction(c) * 100**i * 10**halves * 1_000**pressure * 10**9 for i, c in enumerate(decimals)]
        for (halves, pressure), decimals in typed(PAPERS, 2).values()
    ]


# ---- what the sources say; comments are blanked, so that places in the text stay the same


def blanked(text, mark):
    return re.sub(re.escape(mark) + ".*", lambda found: " " * len(found.group()), text)


# What makes a whole number of a printed decimal: these lines, as they are.
NOTATION = (
    "digits /10^ places = pos (digits * 10 ^ (9 - places))",
    "- digits /10^ places = neg (digits * 10 ^ (9 - places))",
)
DECIMAL = r"(?:- )?[0-9]+_[0-9]+ /10\^ [0-9]"


def table_rows(text):
    """The definition's rows, in the order of its table of tables: for each coefficient where it stands in the text."""
    text = blanked(text, "--")
    lines = text.split("\n")
    for line in NOTATION:
        need(lines.count(line) == 1, "Table.antt: what /10^ stands for")
    rows = {}
    for found in re.finditer(r"^(\w+) = (.*)$", text, re.M):
        name, body = found.groups()
        need(name not in rows, f"Table.antt: {name} stands twice")
        kind = "List (List ℤ)" if name == "table" else "List ℤ"
        need(lines.count(f"unfoldable pub {name} : {kind}") == 1, f"Table.antt: {name} is not declared")
        rows[name] = found.start(2), body
    need("table" in rows, "Table.antt: no table")
    order = rows.pop("table")[1].split(" ∷ ")
    need(order == NAMES + ["[]"] and sorted(rows) == sorted(NAMES), "Table.antt: other rows, or in another order")
    spans = []
    for name in NAMES:
        start, body = rows[name]
        need(re.fullmatch(rf"(?:{DECIMAL} ∷ )+\[\]", body) is not None, f"Table.antt: {name} is no list of decimals")
        spans.append([(start + c.start(), start + c.end()) for c in re.finditer(DECIMAL, body)])
    need([len(row) for row in spans] == LENGTHS, "Table.antt: a row has another length")
    return spans


def decimal(text):
    """What a coefficient of the definition says: the decimal that it stands for, as printed, and its units of 10^-9."""
    sign, whole, fraction, places = re.fullmatch(r"(- )?([0-9]+)_([0-9]+) /10\^ ([0-9])", text).groups()
    number = int(whole + fraction) * 10 ** (9 - int(places))
    # the point is where _ is only if so many digits follow
    printed = f"{'-' if sign else ''}{whole}.{fraction}" if len(fraction) == int(places) else f"{text} with its point elsewhere"
    return printed, -number if sign else number


def code_rows(text):
    """The code's rows, noughts and all: for each number where it stands in the text."""
    text = blanked(text, "//")
    found = re.findall(r"\bROWS\b *:", text), re.search(r"^const ROWS: \[\[i64; 6\]; 12\] = \[\n(.*?)\n\];$", text, re.M | re.S)
    need(len(found[0]) == 1 and found[1], "lib.rt: no array ROWS of twelve rows of six")
    start, body = found[1].start(1), found[1].group(1)
    array = r"\s*\[(?:\s*-?[0-9]+\s*,)*\s*-?[0-9]+,?\s*\],"
    need(re.fullmatch(rf"(?:{array})*", body) is not None, "lib.rt: ROWS is no array of arrays of numbers")
    spans = [
        [(start + row.start() + c.start(), start + row.start() + c.end()) for c in re.finditer(r"-?[0-9]+", row.group())]
        for row in re.finditer(r"\[[^\]]*\]", body)
    ]
    need([len(row) for row in spans] == [WIDTH] * len(NAMES), "lib.rt: ROWS has other rows")
    return spans


def differences(table_text, code_text):
    """What is not as printed: (source, compared with, row, place), or a source that cannot be read."""
    document, papers, wrong = by_document(), by_papers(), set()
    try:
        for row, spans in enumerate(table_rows(table_text)):
            for i, (start, end) in enumerate(spans):
                printed, number = decimal(table_text[start:end])
                if printed != document[row][i]:
                    wrong.add(("Table.antt", "the digits printed", NAMES[row], i))
                if number != Fraction(document[row][i]) * 10**9:
                    wrong.add(("Table.antt", "SPEC", NAMES[row], i))
                if number != papers[row][i]:
                    wrong.add(("Table.antt", "UNESCO's papers", NAMES[row], i))
    except Unreadable as why:
        wrong.add(("Table.antt", str(why), "", 0))
    try:
        for row, spans in enumerate(code_rows(code_text)):
            for i, (start, end) in enumerate(spans):
                number, past = int(code_text[start:end]), i >= LENGTHS[row]
                if number != (0 if past else Fraction(document[row][i]) * 10**9):
                    wrong.add(("ROWS", "SPEC", NAMES[row], i))
                if number != (0 if past else papers[row][i]):
                    wrong.add(("ROWS", "UNESCO's papers", NAMES[row], i))
    except Unreadable as why:
        wrong.add(("ROWS", str(why), "", 0))
    return wrong


# ---- changes, in the definition and in the code together


def put(text, changes):
    """The text with other words at some places."""
    for (start, end), words in sorted(changes, reverse=True):
        text = text[:start] + words + text[end:]
    return text


def nine_places(units):
    whole, fraction = divmod(abs(units), 10**9)
    return f"{'- ' if units < 0 else ''}{whole}_{fraction:09} /10^ 9"


def changed_numbers(table, code):
    """Each coefficient one unit of 10^-9 higher, one lower, and with its sign turned: all of the exact comparisons have to see it."""
    exact = list(itertools.product(("Table.antt", "ROWS"), ("SPEC", "UNESCO's papers")))
    table_spans, code_spans = table_rows(table), code_rows(code)
    for row, name in enumerate(NAMES):
        for i in range(LENGTHS[row]):
            at, there = table_spans[row][i], code_spans[row][i]
            units, said = int(code[slice(*there)]), table[slice(*at)]
            turned = said[2:] if said.startswith("- ") else "- " + said
            for number, words in ((units + 1, nine_places(units + 1)), (units - 1, nine_places(units - 1)), (-units, turned)):
                seen = {(source, other, name, i) for source, other in exact}
                yield f"{name} {i} is {number}", put(table, [(at, words)]), put(code, [(there, str(number))]), seen


def changed_digits(table, code):
    """Each coefficient of the definition with a nought more after its digits, the number kept; and with another count of places."""
    for row, name in enumerate(NAMES):
        for i, at in enumerate(table_rows(table)[row]):
            digits, places = table[slice(*at)].split(" /10^ ")
            seen = {("Table.antt", "the digits printed", name, i)}
            yield f"{name} {i} has a nought more", put(table, [(at, f"{digits}0 /10^ {int(places) + 1}")]), code, seen
            yield f"{name} {i} has a place more", put(table, [(at, f"{digits} /10^ {int(places) + 1}")]), code, seen


def changed_rows(table, code):
    """Coefficients lost and put past a row's end, rows lost, rows swapped: each source has to be reported, by whatever sees it."""
    table_spans, code_spans = table_rows(table), code_rows(code)

    def line(row):  # of the definition: from the first coefficient to past the last
        return table_spans[row][0][0], table_spans[row][-1][1]

    def block(row):
        return code_spans[row][0][0], code_spans[row][-1][1]

    for row, name in enumerate(NAMES):
        words = [table[slice(*span)] for span in table_spans[row]]
        numbers = [code[slice(*span)] for span in code_spans[row]]
        for i in range(LENGTHS[row]):
            fewer, less = words[:i] + words[i + 1 :], numbers[:i] + numbers[i + 1 :] + ["0"]
            lost = put(table, [(line(row), " ∷ ".join(fewer))]).replace(f"\n{name} =  ∷ []", f"\n{name} = []")
            yield f"{name} {i} is lost", lost, put(code, [(block(row), ", ".join(less))]), set()
        if LENGTHS[row] < WIDTH:
            longer, more = " ∷ ".join(words + ["0_1 /10^ 1"]), ", ".join(numbers[: LENGTHS[row]] + ["100000000"] + numbers[LENGTHS[row] + 1 :])
            yield f"{name} has one more", put(table, [(line(row), longer)]), put(code, [(block(row), more)]), set()
        without = table.replace(f"unfoldable pub {name} : List ℤ\n{name} = {' ∷ '.join(words)} ∷ []\n", "").replace(f"{name} ∷ ", "")
        start, end = block(row)
        start, end = code.rindex("[", 0, start), code.index("],", end) + 2
        yield f"{name} is lost", without, code[:start] + code[end:], set()
    for a, b in itertools.combinations(range(len(NAMES)), 2):
        turned = put(table, [(line(a), table[slice(*line(b))]), (line(b), table[slice(*line(a))])])
        there = put(code, [(block(a), code[slice(*block(b))]), (block(b), code[slice(*block(a))])])
        yield f"{NAMES[a]} and {NAMES[b]} swapped", turned, there, set()
        order = " ∷ ".join(NAMES)
        other = NAMES[:a] + [NAMES[b]] + NAMES[a + 1 : b] + [NAMES[a]] + NAMES[b + 1 :]
        yield f"{NAMES[a]} and {NAMES[b]} swapped in the table of tables", table.replace(order, " ∷ ".join(other)), code, set()


# ---- ln K0: the lines that have its coefficients, each with its digits <d>, the power of ten beside them <p> and, where it has one, its sign <s>

DEFINITION = """
by_cold n = <d0> * 10 ^ <p0> / n
fine σ n = <s1> (<d1> * 10 ^ <p1>) +ℤ pos (by_cold n) +ℤ pos (by_log n) +ℤ by_salt σ n
by_log n = <d2> * ln_t n / 10 ^ <p2>
salts = <s3> (<d3> * 10 ^ <p3>) ∷ <s4> (<d4> * 10 ^ <p4>) ∷ <s5> (<d5> * 10 ^ <p5>) ∷ []
"""
IN_FRACTIONS = """
    over <d0> (10 ^ <p0>) ⊗ over 100_000 n <s1> over <d1> (10 ^ <p1>) ⊕ over <d2> (10 ^ <p2>) ⊗ ln_f j k n ⊕ over σ 1_000 ⊗ salt_f n
salt_f n = units (10 ^ <p3>) (<s3> <d3>) ⊕ hundreds n ⊗ (units (10 ^ <p4>) (<s4> <d4>) ⊕ hundreds n ⊗ units (10 ^ <p5>) (<s5> <d5>))
"""
FORMS = {"d": "[0-9]+(?:_[0-9]+)?", "p": "[0-9]+", "s": "pos|neg|⊕|⊖"}
TURNED = {"pos": "neg", "neg": "pos", "⊕": "⊖", "⊖": "⊕"}
# In the definition a coefficient stands on a unit of so many places, which the power takes from: 10^-11, with 100/T as 10^5 over T in 0.001 K and,
# for S/100, a hundred times what is printed. Elsewhere the power is the number of places.
UNITS = {("Weiss.antt", 0): 16, ("Weiss.antt", 1): 11, ("Weiss.antt", 3): 13, ("Weiss.antt", 4): 13, ("Weiss.antt", 5): 13}
LINES = {"Weiss.antt": DEFINITION.split("\n")[1:-1], "Equation.antt": IN_FRACTIONS.split("\n")[1:-1]}


def places_in(source, text):
    """Where digits, powers and signs stand in the text."""
    text, found = blanked(text, "--"), {}
    for line in LINES[source]:
        pattern = re.sub(r"<([dps])([0-9])>", lambda part: f"(?P<{part[1]}{part[2]}>{FORMS[part[1]]})", re.escape(line))
        matches = list(re.finditer(f"^{pattern}$", text, re.M))
        need(len(matches) == 1, f"{source}: no line such as {line.strip()}")
        found.update((name, matches[0].span(name)) for name in matches[0].groupdict())
    return found


def decimals_in(source, text):
    """The six coefficients as a source has them, in the form that is printed."""
    spans = places_in(source, text)
    words = {name: text[slice(*span)] for name, span in spans.items()}
    for i in range(len(HANDBOOK)):
        digits, power, minus = words[f"d{i}"], int(words[f"p{i}"]), words.get(f"s{i}") in ("neg", "⊖")
        places = UNITS[source, i] - power if (source, i) in UNITS else power
        need(0 < places < 20, f"{source}: a power of ten that fits no decimal")
        number = digits.replace("_", "").rjust(places + 1, "0")
        # _ is where the point is
        elsewhere = "_" in digits and len(digits.split("_")[1]) != places
        yield f"{'-' if minus else ''}{number[:-places]}.{number[-places:]}{' with its point elsewhere' if elsewhere else ''}"


def weiss_differences(texts):
    """What is not as printed: (source, which), or a source that cannot be read."""
    wrong = set()
    for source, text in texts.items():
        try:
            wrong |= {(source, i) for i, (said, printed) in enumerate(zip(decimals_in(source, text), HANDBOOK)) if said != printed}
        except Unreadable as why:
            wrong.add((source, str(why)))
    return wrong


def weiss_changes(texts):
    """In both sources at once: each coefficient with its last digit one more and one less, a nought more, another power, its sign turned; two of
    them swapped; each line lost."""
    spans = {source: places_in(source, text) for source, text in texts.items()}

    def changed(change):
        """change: from a source to other words for some of its places."""
        return {source: put(text, [(spans[source][name], words) for name, words in change(source).items()]) for source, text in texts.items()}

    def said(source, name):
        return texts[source][slice(*spans[source][name])]

    for i in range(len(HANDBOOK)):
        digits, power, sign = f"d{i}", f"p{i}", f"s{i}"
        for step in (1, -1):
            def stepped(source):
                parts = said(source, digits).split("_")
                return {digits: "_".join([*parts[:-1], str(int(parts[-1]) + step)])}

            yield f"{HANDBOOK[i]} a step of {step} away", changed(stepped), {i}
            yield f"{HANDBOOK[i]} with another power", changed(lambda source: {power: str(int(said(source, power)) + step)}), {i}
        yield f"{HANDBOOK[i]} with a nought more", changed(lambda source: {digits: said(source, digits) + "0"}), {i}
        if all(sign in spans[source] for source in texts):
            yield f"{HANDBOOK[i]} with its sign turned", changed(lambda source: {sign: TURNED[said(source, sign)]}), {i}
        for j in range(i):
            other = f"d{j}"
            swapped = changed(lambda source: {digits: said(source, other), other: said(source, digits)})
            yield f"{HANDBOOK[i]} and {HANDBOOK[j]} swapped", swapped, {i, j}
    for a, b in zip(LINES["Weiss.antt"], itertools.cycle(LINES["Equation.antt"])):
        first = {source: re.escape(line.split("<")[0]) for source, line in zip(LINES, (a, b))}
        yield f"no {a}", {source: re.sub(f"^{first[source]}.*$", "", text, flags=re.M) for source, text in texts.items()}, set()


def hold_weiss():
    """Lines for what is wrong, how many changes were tried, and those that were not seen."""
    texts = {"Weiss.antt": WEISS.read_text(encoding="utf-8"), "Equation.antt": EQUATION.read_text(encoding="utf-8")}
    wrong = [f"{source}: {HANDBOOK[which]} is not so" if which in range(6) else which for source, which in weiss_differences(texts)]
    count, missed = 0, []
    for name, others, coefficients in [] if wrong else weiss_changes(texts):
        assert all(others[source] != texts[source] for source in texts), f"{name}: nothing was changed"
        count += 1
        seen = weiss_differences(others)
        if not {(source, i) for source in texts for i in coefficients} <= seen or {source for source, _ in seen} != set(texts):
            missed.append(name)
    return wrong, count, missed


def main():
    table, code = TABLE.read_text(encoding="utf-8"), CODE.read_text(encoding="utf-8")
    wrong = differences(table, code)
    for source, other, row, i in sorted(wrong)[:10]:
        print(f"coefficients: {source}: {row} {i}: not as in {other}" if row else f"coefficients: {source}: {other}")
    not_printed, weiss_count, weiss_missed = hold_weiss()
    for line in not_printed:
        print("coefficients:", line)
    if wrong or not_printed:
        sys.exit(1)

    count, missed = 0, []
    for name, other_table, other_code, expected in itertools.chain(
        changed_numbers(table, code), changed_digits(table, code), changed_rows(table, code)
    ):
        changed = {source for source, same in (("Table.antt", other_table == table), ("ROWS", other_code == code)) if not same}
        assert changed, f"{name}: nothing was changed"
        count += 1
        seen = differences(other_table, other_code)
        if not expected <= seen or {source for source, *_ in seen} != changed:
            missed.append(name)
    for name in (missed + weiss_missed)[:10]:
        print("coefficients: not seen:", name)
    total = sum(LENGTHS)
    print(f"coefficients: {total} of {total} as printed, in the definition and in the code; {count} changes, {count - len(missed)} seen")
    seen = weiss_count - len(weiss_missed)
    print(f"coefficients: ln K0: 6 of 6 as printed, in the definition and in the equation; {weiss_count} changes, {seen} seen")
    sys.exit(1 if missed or weiss_missed else 0)


if __name__ == "__main__":
    main()
