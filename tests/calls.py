#!/usr/bin/env python3
"""Holds the calls on streams, lines, floats and roots, byte for byte, to the model of tests/model.py.

    python3 tests/calls.py COMMAND ...      the command that starts the driver (tests/driver.c)

The version; pairs, pair and page on the hard streams of tests/streams.py and on longer ones; lines of every kind of entry, number and room,
each with each; needles and lines of probes' numbers each with each, by every two kinds and beside every refusal; every kind of report; channels
with floats beside their grid points, on them and about the halves, and the special ones each with each; ln K0 with every special float in every
place, each salinity with each temperature; roots of salinities from end to end and of numbers off the grid, with every number of trials that
changes anything and with greater ones; special floats, remarks, waters whose ln K0 hangs on the last unit, waters at two depths, one probe on both
sides, and some roots, in every rounding mode, with denormals kept and flushed. That nothing else is written is the driver's to see: it ends then,
which counts as a difference.
"""
import random
import struct
import subprocess
import sys
from collections import Counter
from concurrent.futures import ThreadPoolExecutor
from itertools import product, repeat
from typing import NamedTuple

import model
from model import CUT, LENGTH, LONGEST_PAGE, bits_of, channel, co2, needle
from streams import (ALL_KINDS, DEEP, HUGE, INFINITIES, LONGEST, LONGEST_TABLE, MISSING, NANS, OTHER, PLAIN, PROBE, PROBES, SENT, SURFACE, TINY,
                     TURNED, ZEROS, any_record, co2_reports, covered, covered_remarks, deep, depth_pairs, halves, hard_streams, made, points,
                     record_of, remarked_reports, specials, surface)

VERSION = 4
SHORTEST_ROOM = 32  # for a line
NOWHERE = 2**64 - 1  # for a length or a room: NULL, and 0 bytes
PATIENCE = 300  # seconds after which a driver counts as hanging

# ---- calls: a request to the driver and the answer that it has to give


class Call(NamedTuple):
    what: str
    request: bytes
    answer: bytes


def words(*numbers):
    return struct.pack(f"<{len(numbers)}q", *numbers)


def asked(letter, code, *numbers):
    return letter + struct.pack("<" + code, *numbers)


REPORT = "IH3I"  # its kind, its probe's number and three floats as bits


def version_call():
    return Call("version", b"v", struct.pack("<I", VERSION))


def stream_call(stream):
    """The stream of the next calls; None is NULL."""
    length = NOWHERE if stream is None else len(stream)
    return Call("stream", asked(b"s", "Q", length) + (stream or b""), b"")


def pairs_call(found):
    return Call("pairs", b"p", words(len(found)))


def pair_call(found, before):
    answer = words(*[0] * 9)
    if before < len(found):
        left, right = found[before]
        sides = [(side.refusal, side.density, side.bulk) for side in (left, right)]
        answer = words(1, *sides[0], *sides[1], *needle(left, right))
    return Call("pair", asked(b"k", "Q", before), answer)


def text_answer(refusal, text):
    return words(refusal, 0) if refusal else words(0, len(text)) + text


def bytes_of(room):
    return 0 if room == NOWHERE else room


def page_call(text, room):
    return Call("page", asked(b"f", "Q", room), text_answer(30 if bytes_of(room) < LONGEST_PAGE else 0, text))


def line_call(number, left, right, room):
    refusal = 30 if bytes_of(room) < SHORTEST_ROOM else 0 if 1 <= number <= 9_999 else 31
    answer = text_answer(refusal, b"" if refusal else model.line(number, channel(*left), channel(*right)))
    return Call("line", asked(b"l", f"I{REPORT}{REPORT}Q", number, *left, *right, room), answer)


def channel_call(report):
    *numbers, remarks, _ = channel(*report)
    return Call("channel", asked(b"c", REPORT, *report), words(*numbers, *remarks))


def co2_call(report):
    """No number is asked for."""
    kind, _, *floats = report
    return Call("co2", asked(b"o", "4I", kind, *floats), words(*co2(*report)))


def needle_call(left, right):
    l, r = channel(*left), channel(*right)
    refusal, value = needle(l, r)
    return Call("needle", asked(b"n", REPORT + REPORT, *left, *right), words(refusal, l.density, r.density, value))


def recorder_call(shown):
    return Call("recorder", asked(b"r", "I", shown), struct.pack("<I", model.recorder(shown)))


def root_call(sigma, trials):
    return Call("root", asked(b"w", "qI", sigma, trials), words(*model.search(sigma, trials)))


def mode_call(mode, was):
    """Answered by the mode that was, so that a call which changes it is seen too."""
    rounding, flush = was
    return Call("mode", asked(b"e", "2I", *mode), struct.pack("<I", 0x1F80 | rounding << 13 | flush << 15 | flush << 6))


# ---- streams


def long_streams(rng):
    """Over 60,000 bytes, where pairs and pair answer as ever and the page is `too long`; up to 50,000 records."""
    some = b"".join(any_record(rng) for _ in range(16_000))
    for n in (60_001, 60_003, 61_007, 100_000, 131_072, 199_999):
        yield some[:n]
        yield (ALL_KINDS * 3_000)[:n]
        yield MISSING + (SURFACE * 20_000)[: n - 4]
    # Something good, cut or empty behind the 60,000 bytes and behind the greatest length of a body.
    one_probe = deep(*PLAIN, PROBE) + surface(*OTHER, PROBE)
    for before in (LONGEST, LONGEST + MISSING, LONGEST_TABLE[:-2], made(7, bytes(59_996)), made(4, bytes(65_535)), made(1, bytes(65_535)) * 2):
        for after in (b"\0", MISSING, DEEP, DEEP + SURFACE, DEEP[:-1], SURFACE + b"\0\0\0", one_probe, one_probe[:-1]):
            if len(before + after) > model.LONGEST_STREAM:
                yield before + after
    # More pairs than a page has numbers for.
    for count in (9_998, 9_999, 10_000, 10_001, 25_000):
        yield MISSING * (2 * count - 2) + DEEP + SURFACE
        yield MISSING * (2 * count - 2) + one_probe
        yield MISSING * (2 * count - 1)


def befores(count):
    """Every pair of a short stream; ends and middle of a longer one; past the end, and where fewer bits would come round."""
    short = range(count if count <= 24 else 3)
    ends = {count // 2, max(count - 2, 0), max(count - 1, 0), count, count + 1, 2 * count + 1}
    far = {7_499, 7_500, 9_998, 9_999, 10_000, 2**16, 2**31, 2**32 - 1, 2**32, 2**32 + 1, 2**63 - 1, 2**63, 2**64 - 1}
    return sorted({*short, *ends, *far})


def stream_calls(every):
    for i, stream in enumerate(every):
        found, text = model.pairs(stream), model.page(stream)
        assert len(text) <= LONGEST_PAGE
        yield stream_call(stream)
        yield pairs_call(found)
        yield from (pair_call(found, before) for before in befores(len(found)))
        rooms = [LONGEST_PAGE - 1, LONGEST_PAGE, LONGEST_PAGE + 1]
        rooms += [LONGEST_PAGE + 64, 0, 1, NOWHERE, min(len(text), LONGEST_PAGE - 1)] if i % 8 == 0 else []
        yield from (page_call(text, room) for room in rooms)
    yield stream_call(None)
    yield pairs_call([])
    yield from (pair_call([], before) for before in befores(0))
    yield from (page_call(model.HEADER, room) for room in (LONGEST_PAGE, LONGEST_PAGE - 1, 0, NOWHERE))


# ---- lines

NUMBERS = [0, 1, 9, 10, 99, 999, 1_000, 9_999, 10_000, 65_537, 2**31 + 1, 2**32 - 1]
ROOMS = [0, 1, 31, 32, 33, 64, NOWHERE]
WIDEST, LIGHTEST = [bits_of(x) for x in (42, -2, 1_000)], [0x80000000, bits_of(40), 0x80000000]
BAD_FLOATS = [(place, bits) for place, most in enumerate((42, 40, 1_000)) for bits in (NANS[0], INFINITIES[1], bits_of(most) + 1)]
OTHER_KINDS = [0, 4, 16, 20, 255, 256, 257, 273, 65_535, 65_536, 65_537, 65_538, 65_539, 65_553, *range(CUT - 1, LENGTH + 2), 2**31 + 1, 2**32 - 1]
ENTRIES = [
    *((kind, 0, *floats) for kind in (1, 2) for floats in (PLAIN, WIDEST, LIGHTEST)),
    (2, 0, *PLAIN[:2], NANS[0]), (2, 0, *PLAIN[:2], bits_of(-1)), (3, 0, 0, 0, 0), (3, 0, *NANS[:3]),  # floats that are not read
    *((1, 0, *PLAIN[:place], bits, *PLAIN[place + 1 :]) for place, bits in BAD_FLOATS),
    *((kind, 0, *PLAIN) for kind in OTHER_KINDS),
    (17, PROBE, *WIDEST), (17, PROBE, *LIGHTEST), (18, PROBE, *PLAIN[:2], NANS[0]), (2, PROBE, *PLAIN), (18, TURNED, *PLAIN), (19, PROBE, *NANS[:3]),
    (17, PROBE, *PLAIN[:2], bits_of(-1)), (9, PROBE, *PLAIN),
]


def line_calls(entries):
    for left in entries:
        for right in entries:
            yield from (line_call(number, left, right, room) for number in NUMBERS for room in ROOMS)


def kind_calls(rng):
    """Every kind that a record can have, those round about the kinds of records that gave no reading, and some others; each on both sides of a
    needle, whose other side is of the same probe."""
    powers = (2**k + d for k in range(17, 32) for d in (-1, 0, 1, 2, 3, 17, 18, 19))
    for kind in [*range(65_800), *(rng.randrange(2**32) for _ in range(5_000)), *powers]:
        report, other = (kind, rng.choice(PROBES), *PLAIN), (rng.choice((1, 2, 17, 18)), PROBE, *OTHER, 0)
        yield channel_call(report)
        yield co2_call(report)
        yield needle_call((kind, PROBE, *PLAIN), other)
        yield needle_call(other, (kind, PROBE, *PLAIN))


# ---- probes' numbers

# Of a probe: read and refused, by each of its two kinds, and what gave no reading.
PROBED = [
    *((kind, *PLAIN) for kind in SENT), (18, *OTHER, NANS[0]), (1, *PLAIN[:2], NANS[0]), (17, bits_of(43), *PLAIN[1:]),
    (18, PLAIN[0], bits_of(-3), 0), (17, *PLAIN[:2], bits_of(-1)), (CUT, *PLAIN), (CUT + 1, *PLAIN), (LENGTH, *PLAIN), (20, *PLAIN),
]


def probe_calls(rng):
    """Every two reports of one probe, of two and of probes without a number; numbers each with each, by every two kinds that give a density; any
    numbers, the two alike, alike but for a byte or a bit, or not at all. The channel of each."""

    def calls(left, right):
        yield from (channel_call(left), channel_call(right), needle_call(left, right), needle_call(right, left))
        yield from (line_call(number, left, right, SHORTEST_ROOM) for number in (1, 9_999))

    some = [(PROBE, PROBE), (PROBE, TURNED), (0, 0), (0, PROBE), (PROBE, 0), (65_535, 65_535)]
    for (one, *left), (other, *right), (l, r) in product(PROBED, PROBED, some):
        yield from calls((one, l, *left), (other, r, *right))
    waters = {1: PLAIN, 2: [*OTHER, NANS[0]], 17: WIDEST, 18: [*OTHER, bits_of(-1)]}
    for one, other in product(waters, repeat=2):
        for l, r in product(PROBES, repeat=2):
            yield from calls((one, l, *waters[one]), (other, r, *waters[other]))
    for _ in range(6_000):
        one, other = rng.choices(list(waters), k=2)
        l, any_byte, any_number = rng.getrandbits(16), rng.getrandbits(8), rng.getrandbits(16)
        r = rng.choice((l, l, l ^ 1 << rng.randrange(16), l ^ any_byte, l ^ any_byte << 8, l >> 8 | l % 256 << 8, any_number))
        yield from calls((one, l, *waters[one]), (other, r, *waters[other]))


# ---- channels


def channel_calls(rng):
    """Remarks each with each; every entry; each special float, each half and each point in its place, deep and at the surface; a pressure of
    each sort that is not read; specials of each place with each other; floats of any bits."""
    yield from map(channel_call, [*remarked_reports(), *ENTRIES])
    every = [[*dict.fromkeys(specials(place) + halves(place, rng) + points(place, rng))] for place in range(3)]
    for place, bits in ((place, bits) for place in range(3) for bits in every[place]):
        yield from (channel_call((kind, rng.choice(PROBES), *PLAIN[:place], bits, *PLAIN[place + 1 :])) for kind in (1, 2, 17, 18))
    yield from (channel_call((rng.choice((1, 2, 17, 18)), rng.choice(PROBES), *map(rng.choice, every))) for _ in range(20_000))
    yield from (channel_call((rng.choice(list(SENT)), rng.getrandbits(16), *(rng.getrandbits(32) for _ in range(3)))) for _ in range(3_000))


# ---- ln K0


def co2_calls(rng):
    """The waters that hang on the last unit; each special salinity with each special temperature and some pressure; each special pressure; every
    entry; floats of any bits."""
    salinities, temperatures, pressures = ([*dict.fromkeys(specials(place))] for place in range(3))
    yield from map(co2_call, [*co2_reports(), *ENTRIES])
    yield from (co2_call((rng.choice((1, 2, 17, 18)), 0, s, t, rng.choice(pressures))) for s, t in product(salinities, temperatures))
    yield from (co2_call((kind, 0, *PLAIN[:2], p)) for kind in (1, 2, 17, 18) for p in pressures)
    yield from (co2_call((rng.choice(list(SENT)), 0, *(rng.getrandbits(32) for _ in range(3)))) for _ in range(3_000))


# ---- roots

TRIALS = [*range(19), 31, 32, 33, 255, 256, 2**16, 2**31, 2**32 - 1]
OFF_THE_GRID = [-1, -2, 42_001, 42_002, 2**31, 2**32, 2**32 + 1, 2**32 + 35_000, -(2**32), 2**63 - 1, -(2**63)]


def root_calls(rng):
    """Each number of trials with each salinity: some from end to end, the ends and their neighbours, the squares and those that a square is missed
    by least, where a pair of digits more is; and with numbers off the grid, those among them that come round to it in fewer bits."""
    squares, more = (10 * k * k for k in range(65)), (4**pairs // 100_000 + up for pairs in range(9, 16) for up in (0, 1))
    missed = sorted(range(42_001), key=lambda sigma: (model.root(sigma) + 1) ** 2 - sigma * 100_000)[:40]
    salinities = sorted({*range(0, 42_001, 97), 0, 1, 2, 10, 11, 41_999, 42_000, *squares, *missed, *more})
    others = [*OFF_THE_GRID, *(rng.randrange(-(2**63), 2**63) for _ in range(200))]
    yield from (root_call(sigma, trials) for sigma, trials in product([*salinities, *others], TRIALS))


# ---- floating-point modes

ROUNDINGS, DENORMALS = ("to nearest", "down", "up", "to zero"), ("kept", "flushed")
MODES = [(rounding, flush) for rounding in range(4) for flush in range(2)]
NEAREST = (0, 0)  # as a program starts


def mode_reports(rng):
    """Every special float in every place, the rest plain; each place special; halves of the grid, and its points; remarks each with each."""
    for place in range(3):
        for bits in dict.fromkeys(specials(place) + rng.sample(halves(place, rng), 100) + rng.sample(points(place, rng), 60)):
            floats = [*PLAIN[:place], bits, *PLAIN[place + 1 :]]
            yield from ((kind, 0, *floats) for kind in ((1, 2) if place < 2 else (1,)))
            yield (rng.choice((17, 18)), rng.choice(PROBES), *floats)
    yield from remarked_reports()
    yield from co2_reports()
    hardest = NANS + INFINITIES + ZEROS + TINY + HUGE
    for _ in range(400):
        floats = [rng.choice(hardest if rng.random() < 0.5 else specials(i)) for i in range(3)]
        yield (kind := rng.choice((1, 17)), PROBE if kind == 17 else 0, *floats)


def mode_calls(reports):
    """A batch for each mode. The recorder divides in the mode that it finds, so it is held to the model to nearest alone."""
    plain, probed = (1, 0, *PLAIN), (17, PROBE, *PLAIN)
    records = [record_of(*report) for report in reports]
    calls = [version_call(), *(channel_call(report) for report in reports), *(co2_call(report) for report in reports)]
    of_one_probe = product((probed, (2, PROBE, *OTHER, 0)), (probed, (18, PROBE, *OTHER, NANS[0]), (19, PROBE, 0, 0, 0)))
    for left, right in [*zip(reports, repeat(plain)), *zip(repeat(probed), reports), *depth_pairs(), *of_one_probe]:
        calls += [needle_call(left, right), line_call(9_999, left, right, SHORTEST_ROOM)]
    for stream in (r + deep(*PLAIN, PROBE) for r in records):
        calls += [stream_call(stream), pairs_call(model.pairs(stream)), pair_call(model.pairs(stream), 0)]
    for stream in (b"".join(records), MISSING + b"".join(records)):
        calls += [stream_call(stream), pairs_call(model.pairs(stream)), page_call(model.page(stream), LONGEST_PAGE)]
    calls += [root_call(sigma, trials) for sigma in (-1, 0, 1, 10, 35_000, 42_000, 42_001) for trials in (0, 1, 8, 15, 16, 17)]
    recorded = [*range(60), *range(999_900, 1_000_100), *range(1_027_600, 1_069_500, 37), *range(16_383_900, 16_384_100), 2**24, 2**32 - 1]
    recorder = [recorder_call(shown) for shown in recorded]
    for mode in MODES:
        yield [mode_call(mode, NEAREST), *calls, *(recorder if mode[0] == 0 else []), mode_call(NEAREST, mode)]


# ---- the driver

# Of the answers.
SIZES = {"version": 4, "stream": 0, "pairs": 8, "pair": 72, "channel": 72, "co2": 16, "needle": 32, "recorder": 4, "root": 40, "mode": 4}


def taken(what, answers, at):
    """Where an answer ends: past the end of all, where it is cut short."""
    if what in SIZES:
        return at + SIZES[what]
    return at + 16 + (struct.unpack_from("<q", answers, at + 8)[0] if at + 16 <= len(answers) else 0)


def in_words(what, answer):
    if what in ("version", "recorder", "mode"):
        return answer.hex()
    if what in ("line", "page"):
        text = answer[16:]
        return f"refusal and count {struct.unpack('<2q', answer[:16])}, {text[:200]}" + (" .." if len(text) > 200 else "")
    return str(struct.unpack(f"<{len(answer) // 8}q", answer))


def hexed(some):
    return some[:200].hex(" ") + (f" .. ({len(some)} bytes)" if len(some) > 200 else "")


def differences(command, calls, most=None):
    """Words for each answer of one driver that is not the model's, or for so many at most. After an answer that ends too early none follows."""
    done = subprocess.run(command, input=b"".join(call.request for call in calls), capture_output=True, timeout=PATIENCE)
    if done.returncode == 0 and done.stdout == b"".join(call.answer for call in calls):
        return []
    told, at, stream, mode = [], 0, b"", NEAREST
    end_of_driver = f"the driver ends with status {done.returncode}: {done.stderr.decode().strip()}"
    for call in calls:
        stream = call.request[9:] if call.what == "stream" else stream
        end = taken(call.what, done.stdout, at)
        got, at = done.stdout[at:end], end
        if got != call.answer:
            where = f"calls: {call.what}, request {hexed(call.request)}"
            where += f"\n  stream:   {hexed(stream)}" if call.what in ("pairs", "pair", "page") else ""
            where += f"\n  mode:     rounding {ROUNDINGS[mode[0]]}, denormals {DENORMALS[mode[1]]}" if mode != NEAREST else ""
            said = f"got:      {in_words(call.what, got)}" if end <= len(done.stdout) else end_of_driver
            told.append(f"{where}\n  expected: {in_words(call.what, call.answer)}\n  {said}")
        if end > len(done.stdout) or len(told) == most:
            return told
        mode = struct.unpack("<2I", call.request[1:]) if call.what == "mode" else mode
    return told or [f"calls: {end_of_driver}"]


def batches(calls, size=10_000):
    """Many calls in parts, none of which needs the stream of the one before."""
    some = []
    for call in calls:
        if len(some) >= size and call.what in ("stream", "line"):
            yield some
            some = []
        some.append(call)
    yield some


def every_batch():
    rng = random.Random(44)
    every = list(dict.fromkeys(hard_streams()))
    covered(every)
    covered_remarks(every)
    yield from batches(stream_calls([*every, *long_streams(rng)]))
    yield from batches(line_calls(ENTRIES))
    yield from batches(probe_calls(rng), 60_000)
    yield list(kind_calls(rng))
    yield list(channel_calls(rng))
    yield list(co2_calls(rng))
    yield from mode_calls(list(mode_reports(rng)))
    yield list(root_calls(rng))


def main():
    command = sys.argv[1:]
    if not command:
        sys.exit("give the command that starts the driver")
    model.hold()
    counts, streams, waiting = Counter(), set(), []
    with ThreadPoolExecutor(1) as pool:  # the driver answers while the model works out the next
        for calls in every_batch():
            counts.update(call.what for call in calls)
            streams.update(call.request for call in calls if call.what == "stream")
            waiting.append(pool.submit(differences, command, calls))
    told = [text for result in waiting for text in result.result()]
    for text in told[:10]:
        print(text)
    print(
        f"calls: {len(streams)} streams, {counts['pair']} pairs, {counts['line']} lines, {counts['page']} pages, {counts['channel']} readings,"
        f" {counts['co2']} of ln K0, {counts['needle']} needles, {counts['root']} roots, some in {len(MODES)} float modes, {len(told)} different"
    )
    sys.exit(1 if told else 0)


if __name__ == "__main__":
    main()
