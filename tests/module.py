#!/usr/bin/env python3
"""Holds capi/warpsorrel.py to capi/warpsorrel.h, to the C and Rust callers beside it, to docs/FORMAT.md and, with the shared library that capi/build
left, to known answers.

    python3 tests/module.py

Every macro and every declaration of the header, every refusal in words, every call; remarks against exact fractions; every kind with every other and
probe numbers that differ in one byte or in both, from reports and from records; what is said of a library that is missing, cannot be loaded or is of
another version. A machine that is not x86-64 cannot load the library: there capi/try alone makes the calls, and here a channel's places, and what
is handed to a call, are tried with calls that say what they are told.
"""
import ctypes
import importlib.util
import os
import platform
import re
import shutil
import struct
import subprocess
import sys
import tempfile
from ctypes import CFUNCTYPE, POINTER, c_char_p, c_float, c_int64, c_size_t, c_uint16, c_uint32, c_uint64
from fractions import Fraction
from itertools import product
from math import floor, isqrt
from pathlib import Path
from types import SimpleNamespace
from unittest import mock

ROOT = Path(__file__).resolve().parent.parent
MODULE = ROOT / "capi" / "warpsorrel.py"
LIBRARY = ROOT / "target" / "capi" / "libwarpsorrel.so"
HEADER = (ROOT / "capi" / "warpsorrel.h").read_text("utf-8")
FORMAT = (ROOT / "docs" / "FORMAT.md").read_text("utf-8")
EXAMPLES = ROOT / "examples"


sys.path.insert(0, str(MODULE.parent))
import warpsorrel  # noqa: E402
from warpsorrel import Channel, Co2, Co2Refusal, Kind, LibraryError, Needle, Pair, Panel, Refusal, Remark, Remarks  # noqa: E402
from warpsorrel import Report, Root, Side, Written  # noqa: E402

NOTHING = "nothing raised"
held, wrong = 0, []


def hold(what, expected, got):
    global held
    held += 1
    if got != expected:
        wrong.append(f"module: {what}\n  expected: {expected}\n  got:      {got}")


def raised(kind, call):
    """The words of the exception that a call has to raise."""
    try:
        return f"{NOTHING}, and the answer is {call()}"
    except kind as error:
        return str(error)


def copied(folder):
    """The module from another place, where it looks for its library."""
    spec = importlib.util.spec_from_file_location("copied", shutil.copy(MODULE, folder))
    module = importlib.util.module_from_spec(spec)
    spec.loader.exec_module(module)
    return module


# ---- the words

WORDS = {
    1: "missing",
    2: "a NaN or an infinity",
    3: "the salinity is not from 0 to 42",
    4: "the temperature is not from -2 to 40 degrees C",
    5: "the pressure is not from 0 to 1,000 bar",
    6: "the record is cut short",
    7: "the kind is none of 1, 2, 3, 17, 18, 19",
    8: "the length is not the kind's own",
}
SAME_PROBE = "both sides have the same probe number, other than 0"
OTHER_WORDS = {0: "not refused", 30: "the room is too small", 31: "the pair number is not from 1 to 9,999", 32: SAME_PROBE}
# Of ln K0: the temperature has another range, and the pressure, which is not read, refuses nothing.
CO2_WORDS = {**WORDS, 4: "the temperature is not from 0 to 40 degrees C"}
del CO2_WORDS[5]


def words():
    sides = {base + number: f"{side}: {text}" for side, base in (("left", 100), ("right", 200)) for number, text in WORDS.items()}
    hold("the words of every refusal", {**OTHER_WORDS, **WORDS, **sides}, {int(r): r.reason for r in Refusal})
    hold("the names of a needle's", [], [r for r in Refusal if r.side and r.name != f"{r.side.upper()}_{r.cause.name}"])
    hold("the sides", {0: None, 1: "left", 2: "right"}, {r // 100: r.side for r in Refusal})
    hold("the cause of a needle's that has no side", (None, Refusal.SAME_PROBE), (Refusal.SAME_PROBE.side, Refusal.SAME_PROBE.cause))
    hold("what is true", [Refusal.NONE, Co2Refusal.NONE], [r for r in (*Refusal, *Co2Refusal) if not r])
    hold("the words of every refusal of ln K0", {0: "not refused", **CO2_WORDS}, {int(r): r.reason for r in Co2Refusal})
    hold("the names of a ln K0's", [r.name for r in Co2Refusal], [Refusal(r).name for r in Co2Refusal])
    hold("the words of the remarks", {1: "below", 2: "on", 3: "above"}, {int(r): r.word for r in Remark})
    hold("how a remark prints", "below on above, 1 2 3,   below", "{} {:s} {!s}, {:d} {:d} {:d}, {:>7}".format(*Remark, *Remark, Remark.BELOW))
    hold("the remarks' places", ("salinity", "temperature", "pressure"), Remarks._fields)
    public = [name for name, what in vars(warpsorrel).items() if getattr(what, "__module__", "") == "warpsorrel" and name[0] != "_"]
    hold("the names that are given", sorted(["VERSION", "LINE", "PAGE", "Stream", *public]), sorted(warpsorrel.__all__))


# ---- the header, the module and FORMAT


def macros():
    found = {name: int(number) for name, number in re.findall(r"^#define WARPSORREL_(\w+) (\d+)u?\b", HEADER, re.M)}
    hold("every macro has a number", re.findall(r"^#define WARPSORREL_(\w+) ", HEADER, re.M), list(found))
    refused = {name[len("REFUSED_"):]: found.pop(name) for name in list(found) if name.startswith("REFUSED_")}
    hold("a needle's refusals", (100, 200), (refused.pop("LEFT"), refused.pop("RIGHT")))
    hold("the header's refusals are the module's", {r.name: int(r) for r in Refusal if r and not r.side}, refused)
    sizes = {name: found.pop(name) for name in ("VERSION", "LINE", "PAGE")}
    hold("the header's sizes are the module's", {name: getattr(warpsorrel, name) for name in sizes}, sizes)
    remarks = {name: found.pop(name) for name in ("BELOW", "ON", "ABOVE")}
    hold("the header's remarks are the module's", {r.name: int(r) for r in Remark}, remarks)
    signed = re.findall(r"^#define WARPSORREL_(\w+) \d+ +/\* (\w+) its grid point \*/$", HEADER, re.M)  # no u: they stand in an int64_t
    hold("the header's words of them are the module's", [(r.name, r.word) for r in Remark], signed)
    hold("the header's kinds are the module's", {k.name: int(k) for k in Kind}, found)
    beside = dict(re.findall(r"^#define WARPSORREL_REFUSED_(\w+) \d+u +/\* (.+) \*/$", HEADER, re.M))
    words = {name: Refusal[name].reason for name in refused}
    words["TEMPERATURE"] += "; for warpsorrel_co2: from 0 to 40"
    hold("the header's words are the module's", words, beside)
    hold("and those of ln K0", "the temperature is not from 0 to 40 degrees C", Co2Refusal.TEMPERATURE.reason)


TYPES = {"uint16_t": c_uint16, "uint32_t": c_uint32, "uint64_t": c_uint64, "int64_t": c_int64, "float": c_float, "size_t": c_size_t}
TYPES |= {"uint8_t *": c_char_p, "size_t *": POINTER(c_size_t), "int64_t *": POINTER(c_int64)}


def type_of(parameter):
    c, star, _, count = re.fullmatch(r"(?:const )?(\w+) (\*?)(\w+)(?:\[(\d+)\])?", parameter).groups()
    return POINTER(TYPES[c] * int(count)) if count else TYPES[f"{c} *" if star else c]


def declarations():
    text = re.sub(r"/\*.*?\*/", "", HEADER, flags=re.S)
    declared = {}
    for result, name, parameters in re.findall(r"^(\w+) warpsorrel_(\w+)\((.*?)\);", text, re.M | re.S):
        types = [type_of(p) for p in re.split(r",\s*", parameters) if p != "void"]
        declared[name] = (TYPES[result], *types)
    hold("the header's declarations are the module's", declared, warpsorrel._CALLS)


RUST_TYPES = {"u16": c_uint16, "u32": c_uint32, "i64": c_int64, "f32": c_float, "usize": c_size_t, "*const u8": c_char_p, "*mut u8": c_char_p}
RUST_TYPES |= {"*mut usize": POINTER(c_size_t), "*mut i64": POINTER(c_int64), "*mut [u64; 4]": POINTER(c_uint64 * 4)}
RUST_TYPES |= {f"*mut [i64; {n}]": POINTER(c_int64 * n) for n in (3, 8)}


def other_callers():
    """What the C and Rust callers have in words and numbers of their own."""
    spoken = {**OTHER_WORDS, **WORDS}
    del spoken[0]
    c, rust = ((ROOT / "capi" / name).read_text("utf-8") for name in ("example.c", "example.rs"))
    by_name = re.findall(r'case WARPSORREL_REFUSED_(\w+): return "(.*)";', c)
    hold("the C caller's words", spoken, {int(Refusal[name]): text for name, text in by_name})
    arms = re.search(r"pub fn words\(.*?^    }$", rust, re.M | re.S)[0]
    hold("the Rust caller's words", spoken, {int(number): text for number, text in re.findall(r'^ +(\d+) => "(.*)",$', arms, re.M)})
    hold("the Rust caller's version", [str(warpsorrel.VERSION)], re.findall(r"const VERSION: u32 = (\d+);", rust))
    declared = {}
    for name, parameters, result in re.findall(r"pub fn warpsorrel_(\w+)\((.*?)\) -> (\w+);", rust, re.S):
        declared[name] = (RUST_TYPES[result], *(RUST_TYPES[kind] for kind in re.findall(r"\w+: ([^,]+?)\s*(?:,|$)", parameters)))
    hold("the Rust caller's declarations are the module's", warpsorrel._CALLS, declared)


def format_page():
    rows = [[cell.strip() for cell in line.strip("|").split("|")] for line in FORMAT.splitlines() if re.match(r"\| \d+ \|", line)]
    kinds = {int(number): (family, holds, int(length)) for number, family, holds, length, _ in (row for row in rows if len(row) == 5)}
    named = {("" if family == "old" else f"{family.upper()}_") + holds.upper(): number for number, (family, holds, _) in kinds.items()}
    hold("FORMAT's kinds", {k.name: int(k) for k in Kind if k < 65_536}, named)
    hold("FORMAT's lengths", {number: len(body(number, 0, 0, 0, 0)) for number in kinds}, {number: length for number, (_, _, length) in kinds.items()})
    hold("the words of 7 have FORMAT's kinds", f"the kind is none of {', '.join(map(str, kinds))}", WORDS[7])
    refusals = {int(row[0]): row[1] for row in rows if len(row) == 3}
    hold("FORMAT's refusals", [*sorted(WORDS), 32], sorted(refusals))
    hold("FORMAT has the one of both sides last", 32, list(refusals)[-1])
    hold("the order of FORMAT's refusals is the header's", True, ", ".join(map(str, list(refusals)[:-1])) + " is answered" in HEADER)
    # FORMAT says of 6 just what is too short, and leaves the units out; what it says of ln K0 alone stands after a semicolon.
    before = {n: when.split(";")[0] for n, when in refusals.items()}
    spoken = {**WORDS, 32: SAME_PROBE}
    differ = {n: when for n, when in before.items() if when not in spoken[n] and spoken[n] not in when}
    hold("FORMAT's words", {6: "under 4 bytes are left for the head, or under the stated length for the body"}, differ)
    hold("FORMAT's words of kinds, lengths and numbers, to the letter", [spoken[n] for n in (7, 8, 32)], [refusals[n] for n in (7, 8, 32)])


# ---- records

# Probe numbers that differ in the lower byte, in the higher one, in both, or have them exchanged; 0 is no number.
NUMBERS = (0, 1, 2, 17, 255, 256, 257, 258, 513, 32_767, 32_768, 65_280, 65_534, 65_535)


def body(kind, probe, salinity, temperature, pressure):
    """A record's, by the definition: the number in a numbered kind, then as many floats as the kind has."""
    floats = (salinity, temperature, pressure)[: {1: 3, 2: 2, 3: 0}[kind % 16]]
    return (struct.pack("<H", probe) if kind > 16 else b"") + struct.pack(f"<{len(floats)}f", *floats)


def record(kind, probe, *floats):
    made = body(kind, probe, *floats)
    return struct.pack("<HH", len(made), kind) + made


def made_stream(text):
    """What examples/make-stream makes of a text, or what it says."""
    made = subprocess.run([sys.executable, "-B", EXAMPLES / "make-stream"], input=text.encode(), capture_output=True, timeout=30)
    return made.stdout or made.stderr.decode()


def fields():
    """The numbered record that FORMAT takes apart."""
    return re.findall(r"^(\w+) +((?:[0-9A-F]{2} ){2,4}) +(\d+)(.*)$", FORMAT, re.M)


def records():
    names = ("length", "kind", "number", "salinity", "temperature", "pressure")
    hold("FORMAT's numbered record has every field", names, tuple(name for name, *_ in fields()))
    length, kind, number, *floats = (int(value) for _, _, value, _ in fields())
    shown = bytes.fromhex("".join(hexed for _, hexed, _, _ in fields()))
    hold("the bytes of FORMAT's numbered record", record(kind, number, *floats), shown)
    hold("the length of FORMAT's numbered record", length, len(shown) - 4)
    hold("FORMAT's numbered record shows which byte comes first", f", which is {number % 256} + {number // 256} · 256", fields()[2][3])
    hold("FORMAT's numbered record by make-stream", shown * 2, made_stream(f"deep {' '.join(map(str, floats))} probe {number}\n" * 2))
    for probe in NUMBERS:
        text = f"deep 35 5 100 probe {probe}\nsurface 12 8 probe {probe}\nmissing probe {probe}\ndeep 35 5 100\nsurface 12 8\nmissing\n"
        numbered = record(17, probe, 35, 5, 100) + record(18, probe, 12, 8, 0) + record(19, probe, 0, 0, 0)
        hold(f"make-stream, probe {probe}", numbered + record(1, 0, 35, 5, 100) + record(2, 0, 12, 8, 0) + record(3, 0, 0, 0, 0), made_stream(text))


# ---- answers


def same(what, expected, got):
    """Equal, and of the types that the module says: a Refusal is no bare number, a Side no bare tuple."""
    hold(what, (expected, types_in(expected)), (got, types_in(got)))


def types_in(answer):
    return (type(answer), *map(types_in, answer)) if isinstance(answer, (tuple, list)) else type(answer)


def paper(sigma):
    """The lines of a salinity's search, by what they mean: with j bits of the root to find, those before them are known, and the rest is what their
    square leaves."""
    n = sigma * 100_000
    root = isqrt(n)
    found = [(j, root >> j << j) for j in range((n.bit_length() + 1) // 2, -1, -1)]
    return [Root(Refusal.NONE, root, 4**j // 4, n - known * known, known << j) for j, known in found]


def raw(panel, report):
    """What a channel's call itself writes, into nine numbers of which it is lent eight."""
    lent = (c_int64 * 9)(*[7] * 9)
    panel._calls.channel(*warpsorrel._parts(report), (c_int64 * 8).from_buffer(lent))
    return list(lent)


def answers(panel):
    none, fjord, deep, brine = Report.missing(), Report.surface(28.5, 12.25), Report.deep(34.25, 7.5, 4), Report.deep(42.25, 7.5, 4)
    same("version", 4, panel.version)
    same("path", str(LIBRARY), panel.path)
    same("refusal", [Refusal.NONE, Refusal.SALINITY], [panel.refusal(35_000, 25_000, 100_000), panel.refusal(42_001, 25_000, 100_000)])
    same("density", 1_062_538, panel.density(35_000, 25_000, 100_000))
    same("bulk", 2_710_894, panel.bulk(35_000, 25_000, 100_000))
    same("root, the first line", Root(Refusal.NONE, 59_160, 1_073_741_824, 3_500_000_000, 0), panel.root(35_000, 0))
    same("root, after a trial", Root(Refusal.NONE, 59_160, 268_435_456, 2_426_258_176, 1_073_741_824), panel.root(35_000, 1))
    same("root, the last line", Root(Refusal.NONE, 64_807, 0, 52_751, 64_807), panel.root(42_000, 16))
    same("root, more trials", [Root(Refusal.NONE, 64_807, 0, 52_751, 64_807)] * 2, [panel.root(42_000, trials) for trials in (17, 2**32 - 1)])
    same("root, of fresh water", [Root(Refusal.NONE, 0, 0, 0, 0)] * 2, [panel.root(0, trials) for trials in (0, 16)])
    for sigma in (-1, 42_001, -(2**63), 2**63 - 1):
        same(f"root of {sigma}, refused", [Root(Refusal.SALINITY, 0, 0, 0, 0)] * 3, [panel.root(sigma, trials) for trials in (0, 16, 2**32 - 1)])
        same(f"lines of {sigma}, refused", [], panel.root_lines(sigma))
    for sigma in (0, 1, 10, 11, 167, 168, 10_737, 10_738, 12_345, 35_000, 42_000):  # the paper of 11 has a line more than that of 10
        same(f"lines of {sigma}", paper(sigma), panel.root_lines(sigma))
        same(f"each line of {sigma}", paper(sigma), [panel.root(sigma, trials) for trials in range(len(paper(sigma)))])
    same("how many lines", [1, 10, 11, 12, 16, 17, 17], [len(panel.root_lines(sigma)) for sigma in (0, 1, 10, 11, 10_737, 10_738, 42_000)])
    on = Remarks(Remark.ON, Remark.ON, Remark.ON)
    same("channel", Channel(Refusal.NONE, 34_250, 7_500, 400, 1_026_941, 2_242_612, on), panel.channel(deep))
    same("co2", [Co2(Co2Refusal.NONE, -3_162_245), Co2(Co2Refusal.NONE, -3_037_603)], [panel.co2(fjord), panel.co2(deep)])
    same("co2, the handbook's water", Co2(Co2Refusal.NONE, -3_561_652), panel.co2(Report.surface(35, 25)))
    same("co2, from minus zero to 40 degrees C", [-2_556_496, -3_920_767], [panel.co2(Report.surface(s, t)).value for s, t in ((0, -0.0), (42, 40))])
    same("needle", Needle(Refusal.NONE, 1_021_502, 1_026_941, 5_258), panel.needle(fjord, deep))
    same("needle, one water at two depths", Needle(Refusal.NONE, 1_026_941, 1_026_776, 0), panel.needle(deep, Report.deep(34.25, 7.5, 0.4)))
    same("needle, refused", Needle(Refusal.RIGHT_SALINITY, 1_021_502, 0, 0), panel.needle(fjord, brine))
    same("recorder", ctypes.c_float(1_026.941).value, panel.recorder(1_026_941))
    same("recorder, over its range", 0.0, panel.recorder(16_384_000))
    same("line", Written(Refusal.NONE, "9999 1026941 1021502 -5258\n"), panel.line(9_999, deep, fjord))
    same("line, refused", Written(Refusal.ROOM, ""), panel.line(0, deep, fjord, 31))
    same("line, refused", Written(Refusal.PAIR_NUMBER, ""), panel.line(0, deep, fjord))
    same("page, refused", Written(Refusal.ROOM, ""), panel.page(b"", warpsorrel.PAGE - 1))

    # FORMAT's example, and the same bytes in other clothes
    stream = bytes.fromhex("".join(re.findall(r"^((?:[0-9A-F]{2} {1,2})+)", FORMAT, re.M)))
    page = "pair left right needle\n1 999967 1027675 27708\n2 R1 999967 R101\n"
    second = Pair(Side(Refusal.MISSING, 0, 0), Side(Refusal.NONE, 999_967, 2_033_780), Refusal.LEFT_MISSING, 0)
    for some in (stream, bytearray(stream), memoryview(stream), memoryview(bytes(b for byte in stream for b in (byte, 7)))[::2]):
        same("pairs", 2, panel.pairs(some))
        same("pair", [second, None], [panel.pair(some, 1), panel.pair(some, 2)])
        same("page", Written(Refusal.NONE, page), panel.page(some))
    same("a stream too long", Written(Refusal.NONE, "too long\n"), panel.page(bytes(60_001)))

    # every refusal once, from the call that gives it
    reports = [none, Report.deep(float("nan"), 5, 0), brine, Report.surface(35, 40.5), Report.deep(35, 5, -1)]
    reports += [Report(Kind.CUT), Report(Kind.UNKNOWN), Report(Kind.LENGTH)]
    for number, report in enumerate(reports, 1):
        refused = [panel.channel(report).refusal, panel.needle(report, none).refusal, panel.needle(deep, report).refusal]
        same(f"refusal {number}", [Refusal(number), Refusal(100 + number), Refusal(200 + number)], refused)
        same(f"the channel of refusal {number}", Channel(Refusal(number), 0, 0, 0, 0, 0, None), panel.channel(report))
        hold(f"the numbers of refusal {number}", [0] * 8 + [7], raw(panel, report))
        of_co2 = panel.co2(report)
        same(f"refusal {number} of ln K0", Co2(Co2Refusal(0), -2_953_995) if number == 5 else Co2(Co2Refusal(number), 0), of_co2)
    for pressure in (float("nan"), float("inf"), -1, 1_001, 1e39):
        report = Report.deep(34.25, 7.5, pressure)
        same(f"a pressure of {pressure}", [True, Co2(Co2Refusal.NONE, -3_037_603)], [bool(panel.channel(report).refusal), panel.co2(report)])
    frost = Report.surface(34.25, -1)
    same("below 0 degrees C", [Refusal.NONE, Co2(Co2Refusal.TEMPERATURE, 0)], [panel.channel(frost).refusal, panel.co2(frost)])
    same("a float too large for 32 bits", Refusal.NOT_FINITE, panel.channel(Report.surface(1e39, 5)).refusal)
    kinds = [k for k in Kind if k < 65_536]
    near = {k + by for k in kinds for by in (-1, 1, 16, 256, 65_536)} | {k % 256 for k in Kind} | {0, 49, 65_535, 2**31 + 1, 2**32 - 1}
    for kind in sorted(near - {*Kind}):
        refused = [panel.channel(Report(kind, 35, 5, 0, probe)).refusal for probe in (0, 17)]
        same(f"kind {kind}", [Refusal.KIND] * 2 + [Co2(Co2Refusal.KIND, 0)], refused + [panel.co2(Report(kind, 35, 5, 0))])


# ---- probe numbers

NAN = float("nan")
WATERS = [(28.5, 12.25, 0.5), (34.25, 7.5, 4), (35, 5.1, 0.004), (42.25, 7.5, 4), (34.25, -1, 0), (34.25, 40.5, 4), (34.25, 7.5, 1_000.5)]
WATERS += [(34.25, 7.5, NAN), (NAN, 7.5, 0)]


def both_kinds(kind):
    """The kinds that say the same: those that stand for no reading have no other."""
    return (kind, kind + 16) if kind in (Kind.DEEP, Kind.SURFACE, Kind.MISSING) else (kind,)


def two_kinds(panel):
    """A report's two kinds mean the same, and its number changes nothing of its channel and of ln K0."""
    for kind, water in product((Kind.DEEP, Kind.SURFACE, Kind.MISSING), WATERS):
        bare = panel.channel(Report(kind, *water)), panel.co2(Report(kind, *water))
        for either, probe in product(both_kinds(kind), NUMBERS):
            report = Report(either, *water, probe)
            same(f"the channel and ln K0 of {report}", bare, (panel.channel(report), panel.co2(report)))
    same("deep", Report(Kind.DEEP, 35, 5, 100, 513), Report.deep(35, 5, 100, probe=513))
    same("surface", Report(Kind.SURFACE, 35, 5, 0.0, 513), Report.surface(35, 5, probe=513))
    same("missing", Report(Kind.MISSING, 0.0, 0.0, 0.0, 513), Report.missing(probe=513))
    hold("without a number", [0, 0, 0, 0], [r.probe for r in (Report.deep(35, 5, 100), Report.surface(35, 5), Report.missing(), Report(Kind.CUT))])


def line_of(number, left, right, needle):
    """The sheet's line of two sides and what is answered for the needle."""
    places = [f"R{side.refusal:d}" if side.refusal else side.density for side in (left, right)]
    return f"{number} {places[0]} {places[1]} {f'R{needle.refusal:d}' if needle.refusal else needle.value}\n"


def needles(panel):
    """Every kind with every other and every number with every other, from reports and from records: the needle, the line, the pair and the page."""
    fjord, deep, brine = WATERS[0], WATERS[1], WATERS[3]
    kept = [(Kind.SURFACE, fjord), (Kind.DEEP, deep), (Kind.DEEP, fjord), (Kind.MISSING, deep), (Kind.DEEP, brine)]
    unread = [(kind, deep) for kind in (Kind.CUT, Kind.LENGTH, Kind.UNKNOWN)]
    for (left, l_water), (right, r_water) in product(kept + unread, repeat=2):
        bare = panel.needle(Report(left, *l_water), Report(right, *r_water))
        channels = panel.channel(Report(left, *l_water)), panel.channel(Report(right, *r_water))
        sides = [Side(c.refusal, c.density, c.bulk) for c in channels]
        stream, page = b"", "pair left right needle\n"
        for number, (l_probe, r_probe) in enumerate(product(NUMBERS, repeat=2), 1):
            one_probe = not bare.refusal and l_probe == r_probe != 0
            needle = Needle(Refusal.SAME_PROBE, bare.left, bare.right, 0) if one_probe else bare
            line = line_of(number, *channels, needle)
            for l_kind, r_kind in product(both_kinds(left), both_kinds(right)):
                reports = Report(l_kind, *l_water, l_probe), Report(r_kind, *r_water, r_probe)
                same(f"the needle of {reports}", needle, panel.needle(*reports))
                same(f"the line of {reports}", Written(Refusal.NONE, line), panel.line(number, *reports))
            if max(left, right) < 4:
                stream += record(left + 16, l_probe, *l_water) + record(right + 16, r_probe, *r_water)
                page += line
                same(f"the records of {reports}", Pair(*sides, needle.refusal, needle.value), panel.pair(stream, number - 1))
        same(f"the page of {left!r} {l_water}, {right!r} {r_water}", Written(Refusal.NONE, page), panel.page(stream))


def numbered_records(panel):
    """An old record reads as number 0, whatever its floats begin with; each numbered kind has a length of its own."""
    water, begins = (34.1, 5.1, 100.1), 0x6666  # the salinity's first two bytes, as a number
    hold("what the body of an old record begins with", struct.pack("<H", begins), body(1, 0, *water)[:2])
    for left, right, probe in product((1, 2, 17, 18), (1, 2, 17, 18), (0, begins)):
        stream = record(left, probe, *water) + record(right, probe, *water)
        expected = Refusal.SAME_PROBE if min(left, right) > 16 and probe else Refusal.NONE
        same(f"kinds {left} and {right}, number {probe} where there is one", expected, panel.pair(stream, 0).needle_refusal)
    for kind in (17, 18, 19):
        own = body(kind, 513, *water)
        for length in {0, 2, 4, 8, 10, 12, 14, 16, len(own) - 1, len(own) + 1, 65_535} - {len(own)}:
            stream = struct.pack("<HH", length, kind) + bytes(length) + record(3, 0, 0, 0, 0)
            given = panel.pair(stream, 0)
            same(f"kind {kind}, length {length}", (Side(Refusal.LENGTH, 0, 0), Refusal.MISSING), (given.left, given.right.refusal))
        cut = panel.pair(record(kind, 513, *water)[:-1], 0)
        same(f"kind {kind}, cut", (Refusal.CUT, Refusal.CUT, Refusal.LEFT_CUT), (cut.left.refusal, cut.right.refusal, cut.needle_refusal))
    shown = bytes.fromhex("".join(hexed for _, hexed, _, _ in fields())) * 2
    line = re.search(r"^These 18 bytes twice, .* are the line `(.*)`\.$", FORMAT, re.M)[1]
    same("FORMAT's numbered record twice", Written(Refusal.NONE, f"pair left right needle\n{line}\n"), panel.page(shown))


def shown_examples(panel):
    """The page that examples/README.md shows, and what the module's own words show."""
    readme = (EXAMPLES / "README.md").read_text("utf-8")
    page = re.search(r"`\./run examples/night-shift\.txt` prints\n\n((?:    .*\n)+)", readme)[1]
    stream = made_stream((EXAMPLES / "night-shift.txt").read_text("utf-8"))
    same("examples/README.md: night-shift.txt", Written(Refusal.NONE, re.sub("^    ", "", page, flags=re.M)), panel.page(stream))
    one = panel.needle(Report.surface(28.5, 12.25, probe=17), Report.deep(34.25, 7.5, 4, probe=17))
    hold("the module's words", True, f"    # {one.left} {one.right} {one.refusal.reason}\n" in warpsorrel.__doc__)


def faults(panel):
    """What is no number or no bytes, and what would come round."""
    deep = Report.deep(34.25, 7.5, 4)
    least, most = -(2**63), 2**63 - 1
    same("the least and the greatest numbers", Refusal.SALINITY, panel.refusal(least, most, most))
    for what, number, limits, call in (
        ("sigma", most + 1, (least, most), lambda: panel.refusal(most + 1, 0, 0)),
        ("tau", least - 1, (least, most), lambda: panel.density(0, least - 1, 0)),
        ("pi", 2**64, (least, most), lambda: panel.bulk(0, 0, 2**64)),
        ("sigma", most + 1, (least, most), lambda: panel.root(most + 1, 16)),
        ("sigma", least - 1, (least, most), lambda: panel.root_lines(least - 1)),
        ("trials", -1, (0, 2**32 - 1), lambda: panel.root(35_000, -1)),
        ("trials", 2**32, (0, 2**32 - 1), lambda: panel.root(35_000, 2**32)),
        ("kind", 2**32 + 1, (0, 2**32 - 1), lambda: panel.channel(Report(2**32 + 1, 35, 5, 0))),
        ("kind", -1, (0, 2**32 - 1), lambda: panel.co2(Report(-1, 35, 5, 0))),
        ("probe", 65_536, (0, 65_535), lambda: panel.channel(Report.deep(35, 5, 0, probe=65_536))),
        ("probe", -1, (0, 65_535), lambda: panel.needle(Report.surface(35, 5, probe=-1), deep)),
        ("probe", 65_536 + 17, (0, 65_535), lambda: panel.needle(deep, Report.missing(probe=65_536 + 17))),
        ("probe", 2**32, (0, 65_535), lambda: panel.line(1, deep, Report(Kind.CUT, probe=2**32))),
        ("probe", 65_536, (0, 65_535), lambda: panel.co2(Report.surface(35, 5, probe=65_536))),
        ("shown", -1, (0, 2**32 - 1), lambda: panel.recorder(-1)),
        ("number", 2**32 + 1, (0, 2**32 - 1), lambda: panel.line(2**32 + 1, deep, deep)),
        ("before", -1, (0, 2**64 - 1), lambda: panel.pair(b"", -1)),
    ):
        says = f"{what} is {number}, and the panel takes {limits[0]} to {limits[1]}"
        hold(what, says, raised(OverflowError, call))
    for what, call in (
        ("a salinity that is text", lambda: panel.channel(Report.surface("35", 5))),
        ("a temperature that is text", lambda: panel.co2(Report.surface(35, "5"))),
        ("a probe's number that is text", lambda: panel.channel(Report.surface(35, 5, probe="17"))),
        ("a probe's number with a point", lambda: panel.needle(deep, Report.deep(35, 5, 0, probe=17.0))),
        ("a surface's pressure, which is no number of a probe", lambda: Report.surface(35, 5, 100)),
        ("a fourth float", lambda: Report.deep(35, 5, 100, 17)),
        ("a missing probe's salinity", lambda: Report.missing(17)),
        ("a grid number with a point", lambda: panel.refusal(35.0, 5, 0)),
        ("a root's salinity with a point", lambda: panel.root(35.0, 16)),
        ("trials that are text", lambda: panel.root(35_000, "16")),
        ("lines of a salinity that is text", lambda: panel.root_lines("35000")),
        ("a stream that is text", lambda: panel.page("text")),
        ("a stream that is a number", lambda: panel.pairs(40)),
    ):
        hold(what, False, raised(TypeError, call).startswith(NOTHING))  # in words of Python's own


# ---- remarks


def told(refusal, *numbers):
    """What the module makes of a channel if the library answers this. No library is needed."""

    @CFUNCTYPE(*warpsorrel._CALLS["channel"])
    def channel(kind, probe, salinity, temperature, pressure, out):
        out.contents[:] = numbers
        return refusal

    panel = Panel.__new__(Panel)
    panel._calls = SimpleNamespace(channel=channel)
    return panel.channel(Report.deep(35, 5, 0))


def channel_places():
    below, on, above = Remark.BELOW, Remark.ON, Remark.ABOVE
    for numbers, remarks in (((1, 2, 3), (below, on, above)), ((3, 1, 2), (above, below, on)), ((2, 3, 1), (on, above, below))):
        same(f"remarks {numbers}", Channel(Refusal.NONE, 11, -12, 13, 14, 15, Remarks(*remarks)), told(0, 11, -12, 13, 14, 15, *numbers))
    for numbers in ((0, 2, 2), (2, 0, 2), (2, 2, 0), (4, 2, 2), (2, -2, 2)):  # in words of Python's own
        hold(f"no remarks {numbers}", False, raised(ValueError, lambda: told(0, 11, -12, 13, 14, 15, *numbers)).startswith(NOTHING))
    for number in WORDS:
        same(f"refusal {number} has no remarks", Channel(Refusal(number), 0, 0, 0, 0, 0, None), told(number, *[0] * 8))


def handed(name, ask):
    """What the module hands to a call, up to what it lends; the call refuses it by 1. No library is needed."""
    taken = []

    @CFUNCTYPE(*warpsorrel._CALLS[name])
    def call(*arguments):
        taken.extend(given for given in arguments if isinstance(given, (int, float)))
        return 1

    panel = Panel.__new__(Panel)
    panel._calls = SimpleNamespace(**{name: call})
    ask(panel)
    return taken


def report_places():
    left, right = Report.deep(1.5, 2.5, 3.5, probe=513), Report(Kind.NUMBERED_SURFACE, 4.5, 5.5, 6.5, 65_535)
    l, r = [1, 513, 1.5, 2.5, 3.5], [18, 65_535, 4.5, 5.5, 6.5]
    hold("what a channel is told", [l, r], [handed("channel", lambda panel: panel.channel(report)) for report in (left, right)])
    hold("what ln K0 is told", [1, 1.5, 2.5, 3.5], handed("co2", lambda panel: panel.co2(left)))
    hold("what a needle is told", l + r, handed("needle", lambda panel: panel.needle(left, right)))
    hold("what a line is told", [7, *l, *r, 32], handed("line", lambda panel: panel.line(7, left, right)))


def placed(number, steps):
    """The grid number of a 32-bit float, to the nearest, halves upward, and its remark: in exact fractions."""
    exact = Fraction(c_float(number).value) * steps
    grid = floor(exact + Fraction(1, 2))
    return grid, Remark(2 + (exact > grid) - (exact < grid))


def off_grid(panel):
    below, on, above = Remark.BELOW, Remark.ON, Remark.ABOVE
    for numbers, known in (
        ((34.25, 7.5, 4), (on, on, on)),
        ((42, -2, 1_000), (on, on, on)),
        ((-0.0, -0.0, -0.0), (on, on, on)),
        ((35, 5.1, 0.004), (on, below, above)),
        ((5.1, 33.9, 35), (below, above, on)),
        ((33.9, -1.1, 0.4), (above, below, above)),
        ((34.0625, -1.0625, 4.125), (below, below, below)),  # halves
        ((34.062496, -1.0625001, 4.1249995), (above, above, above)),  # the floats before them
        ((41.999996, -1.9999999, 999.99994), (below, above, below)),  # the last floats before the ends
        ((1e-45, -1e-45, 1e-45), (above, below, above)),  # the least floats
    ):
        (sigma, tau, pi), remarks = zip(*map(placed, numbers, (1_000, 1_000, 100)))
        same(f"remarks of {numbers} in exact fractions", known, remarks)
        deep, surface = panel.channel(Report.deep(*numbers)), panel.channel(Report.surface(*numbers[:2]))
        same(f"remarks of {numbers}", (Refusal.NONE, sigma, tau, pi, Remarks(*remarks)), deep[:4] + deep[6:])
        same(f"remarks of {numbers[:2]}", (Refusal.NONE, sigma, tau, 0, Remarks(*remarks[:2], on)), surface[:4] + surface[6:])
        hold(f"the numbers of {numbers}", [*deep[1:6], *map(int, remarks), 7], raw(panel, Report.deep(*numbers)))
    for pressure in (0, -0.0, 1e-45, 0.004, -0.004, 4, -1, 1_001, 1e39, float("inf"), -float("inf"), float("nan")):
        surface = panel.channel(Report(Kind.SURFACE, 35, 5.1, pressure))
        same(f"a surface's pressure of {pressure}", (Refusal.NONE, 0, Remarks(on, below, on)), (surface.refusal, surface.pi, surface.remarks))


# ---- libraries


def other_versions():
    with mock.patch.object(warpsorrel, "VERSION", 5):
        says = f"{LIBRARY} is of version 4, and this module was written for version 5: take both from one copy"
        hold("another version", says, raised(LibraryError, Panel))
    with mock.patch.dict(warpsorrel._CALLS, {"none": (c_uint32,)}):
        says = f"{LIBRARY} has no call warpsorrel_none: it is older than this module, which was written for version 4, or not Warpsorrel's"
        hold("a call too few", says, raised(LibraryError, Panel))


def places():
    with tempfile.TemporaryDirectory() as room:
        room = Path(room).resolve()
        here, built, named = room / "capi" / LIBRARY.name, room / "target" / "capi" / LIBRARY.name, room / "named.so"
        for folder in (here.parent, built.parent):
            folder.mkdir(parents=True)
        copy = copied(here.parent)
        advice = "capi/build makes one; for one in another place set WARPSORREL_LIBRARY or give its path to Panel"

        def said(*path):
            return raised(copy.LibraryError, lambda: copy.Panel(*path))

        hold("no library", f"no shared library at {here} or {built}: {advice}", said())
        hold("no library where Panel looks", f"no shared library at {named}, as Panel was told: {advice}", said(named))
        with mock.patch.dict(os.environ, {"WARPSORREL_LIBRARY": str(named)}):
            says = f"no shared library at {named}, as WARPSORREL_LIBRARY says: {advice}"
            hold("no library where the environment says", says, said())

        here.write_text("no library")
        hold("not a library", f"cannot load {here}: ", said()[: len(f"cannot load {here}: ")])
        here.unlink()
        if not can_load():
            shutil.copy(LIBRARY, here)
            hold("another machine", f"the library's code is x86-64's, and this machine is {platform.machine()}", said().split("; ")[-1])
            return
        for place in (built, here, named):  # each of them is preferred to those before it
            shutil.copy(LIBRARY, place)
            with mock.patch.dict(os.environ, {"WARPSORREL_LIBRARY": str(named)} if place == named else {}):
                hold("the library that is found", str(place), copy.Panel().path)
        hold("the library that is named", str(LIBRARY), copy.Panel(LIBRARY).path)


def can_load():
    return platform.machine() in ("x86_64", "AMD64")


def main():
    os.environ.pop("WARPSORREL_LIBRARY", None)
    if not LIBRARY.exists():
        sys.exit(f"module: no {LIBRARY.relative_to(ROOT)}; capi/build makes it")
    words()
    macros()
    declarations()
    other_callers()
    format_page()
    records()
    channel_places()
    report_places()
    places()
    if can_load():
        answers(Panel())
        two_kinds(Panel())
        needles(Panel())
        numbered_records(Panel())
        shown_examples(Panel())
        off_grid(Panel())
        faults(Panel())
        other_versions()
    for text in wrong[:20]:
        print(text)
    calls = "" if can_load() else " (its calls by capi/try alone: this machine is not x86-64)"
    print(f"module: {held} held{calls}, {len(wrong)} different")
    sys.exit(1 if wrong else 0)


if __name__ == "__main__":
    main()
