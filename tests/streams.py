"""Streams that are hard on a reader: every cut, kind and length, probe numbers on both sides, bad floats in every place, floats beside their grid
points and on them, knife edges of the density and of ln K0, waters at two depths, seeded random ones."""
import random
import struct
from itertools import product

import model
from model import ABOVE, BELOW, EXAMPLE, LONGEST_PAGE, ON, QUANTITIES, bits_of, channel, co2, needle, needle_at, page, pairs

RANDOM_STREAMS = 1_300


def made(kind, body, length=None):
    return struct.pack("<HH", len(body) if length is None else length, kind) + body


# Floats of each kind, and whether the probe's number is before them.
SENT = {1: (3, False), 2: (2, False), 3: (0, False), 17: (3, True), 18: (2, True), 19: (0, True)}


def record_of(kind, probe, *floats):
    """A report's record. Floats past those of the kind are not sent, nor is a number where it has none."""
    count, is_numbered = SENT[kind]
    return made(kind, struct.pack("<H", probe) * is_numbered + struct.pack(f"<{count}I", *floats[:count]))


def deep(s, t, p, probe=None):
    """With a probe's number the kind is the numbered one."""
    return record_of(1, 0, s, t, p) if probe is None else record_of(17, probe, s, t, p)


def surface(s, t, probe=None):
    return record_of(2, 0, s, t) if probe is None else record_of(18, probe, s, t)


def missing(probe=None):
    return record_of(3, 0) if probe is None else record_of(19, probe)


MISSING = missing()
# A water for every place: salinity 35, temperature 5, pressure 250. At the surface stands another, so that the two have a needle.
PLAIN = [bits_of(x) for x in (35, 5, 250)]
OTHER = [bits_of(x) for x in (31, 9)]
DEEP, SURFACE = deep(*PLAIN), surface(*OTHER)
# Numbers of probes. One whose bytes differ and the one with the bytes the other way round; those that are alike in one byte, or but for one bit.
PROBE, TURNED = 0x0201, 0x0102
PROBES = [0, 1, 2, 3, 17, 255, 256, 257, TURNED, PROBE, 0x0301, 0x0202, 0x1100, 0x7FFF, 0x8000, 0x8001, 0x8201, 0xFF00, 0xFFFE, 0xFFFF]

NANS = [0x7FC00000, 0xFFC00000, 0x7F800001, 0xFF800001, 0x7FFFFFFF, 0xFFFFFFFF, 0x7FBFFFFF]
INFINITIES = [0x7F800000, 0xFF800000]
ZEROS = [0x00000000, 0x80000000]
TINY = [0x00000001, 0x80000001, 0x007FFFFF, 0x807FFFFF, 0x00800000, 0x80800000, 0x00800001, 0x00400000, 0x80400000]
HUGE = [0x7F7FFFFF, 0xFF7FFFFF, 0x4F000000, 0xCF000000, 0x5F000000, 0xDF000000]


def around(bits):
    """A float and its two neighbours; zero has both signs."""
    return [*ZEROS, 1, 0x80000001] if bits & 0x7FFFFFFF == 0 else [bits - 1, bits, bits + 1]


def specials(place):
    low, high, unit, _ = QUANTITIES[place]
    ends = [b for x in (low, high, -high, low - 1, high + 1) for b in around(bits_of(x))]
    steps = [b for x in (low, 0, high) for d in (-1, -0.5, 0.5, 1) for b in around(bits_of(x + d / unit))]
    return [*NANS, *INFINITIES, *ZEROS, *TINY, *HUGE, *ends, *steps, bits_of(1), bits_of(-1), bits_of(0.0625), bits_of(-0.0625)]


def halves(place, rng):
    """Floats whose grid number hangs on the half: exact halves, and the nearest to others with their neighbours."""
    low, high, unit, _ = QUANTITIES[place]
    parts = 16 if unit == 1_000 else 8  # (n + 1/2)/1,000 is a float only as an odd multiple of 1/16; (n + 1/2)/100: of 1/8
    exact = rng.sample([n / parts for n in range(low * parts + 1, high * parts, 2)], 300)
    near = [n / unit + 0.5 / unit for n in [low * unit, high * unit - 1] + rng.sample(range(low * unit, high * unit), 300)]
    return [bits_of(x) for x in exact] + [b for x in near for b in around(bits_of(x))]


def points(place, rng):
    """Floats whose remark hangs on the grid point: points that are floats, and the nearest to others, with their neighbours."""
    low, high, unit, _ = QUANTITIES[place]
    parts = 8 if unit == 1_000 else 4  # n/1,000 is a float only as a multiple of 1/8, n/100 of 1/4
    exact = [n / parts for n in rng.sample(range(low * parts, high * parts + 1), 60)]
    near = [n / unit for n in [low * unit + 1, -1, 1, high * unit - 1] + rng.sample(range(low * unit, high * unit), 120)]
    return [b for x in exact + near for b in around(bits_of(x))]


# Below its grid point, on it and above it, in each place; of the temperatures some below 0, a half among them, which is below.
REMARKED = [around(PLAIN[0]), [*around(PLAIN[1]), *around(bits_of(-1)), *around(bits_of(-0.0625))], around(PLAIN[2])]


def remarked_reports():
    """Each with each, deep and at the surface, where the pressure is not read; one probe's number and another's in turn."""
    floats = list(product(*REMARKED))
    return [(kind, (0, PROBE, TURNED)[i % 3] if kind > 3 else 0, *some) for kind in (1, 2, 17, 18) for i, some in enumerate(floats)]


def with_place(place, bits, kind=1, probe=0):
    return record_of(kind, probe, *PLAIN[:place], bits, *PLAIN[place + 1 :])


def both_sides(records):
    """One stream with each record on one side, one with each on the other."""
    stream = b"".join(records)
    return [stream, MISSING + stream]


def cut_to_fit(records):
    """The same with as many streams as are needed, none over 60,000 bytes."""
    some, size = [], len(MISSING)
    for r in records:
        if size + len(r) > 60_000:
            yield from both_sides(some)
            some, size = [], len(MISSING)
        some.append(r)
        size += len(r)
    yield from both_sides(some)


# One of everything: each kind, refused floats, unknown kinds and wrong lengths, a body that looks like records; readings with a density and no
# ln K0, and the other way round; one probe on both sides.
ALL_KINDS = b"".join(
    [DEEP, SURFACE, MISSING, surface(PLAIN[0], NANS[0]), made(16, MISSING + SURFACE[:5]), made(2, DEEP[4:]), made(3, MISSING),
     deep(PLAIN[0], PLAIN[1], 0x447A0001), made(1, b""), SURFACE, surface(PLAIN[0], bits_of(-1)), deep(PLAIN[0], PLAIN[1], NANS[0]),
     deep(*PLAIN, PROBE), surface(*OTHER, PROBE), missing(PROBE), surface(*OTHER, TURNED), made(17, MISSING + SURFACE[:5]), made(19, b""),
     made(4, b"\1\2\3\4\5")]
)
KINDS = [0, 1, 2, 3, 4, 5, 15, 16, 17, 18, 19, 20, 21, 33, 34, 35, 49, 255, 256, 257, 258, 273, 274, 275, 512, 768, 4352, 4608, 4864, 65535]
SHORT_LENGTHS = [0, 1, 2, 3, 4, 7, 8, 9, 10, 11, 12, 13, 14, 15, 16]
LENGTHS = [*SHORT_LENGTHS, 255, 256, 258, 264, 266, 268, 270, 512, 2048, 2560, 3072, 3584]


def filling(kind, length):
    """A body of valid floats, after a number where the kind has one."""
    number = struct.pack("<H", PROBE) if kind in SENT and SENT[kind][1] else b""
    return (number + SURFACE[4:] * (length // 8 + 1))[:length]


def heads():
    """Every kind with every length, all in one stream; the short ones alone before a good record and cut by a byte; the
    greatest length, and bodies that just fit or just do not."""
    yield from cut_to_fit([made(k, filling(k, n)) for k in KINDS for n in LENGTHS])
    short = [made(k, filling(k, n)) for k in (0, 1, 2, 3, 4, 16, 17, 18, 19, 20, 256, 513, 65535) for n in SHORT_LENGTHS]
    yield from (r + SURFACE for r in short)
    yield from (r[:-1] for r in short)
    for k in (1, 2, 3, 4, 17, 18, 19):
        for length, held in ((65_535, 0), (65_535, 12), (65_535, 40_000), (59_997, 59_996), (59_996, 59_996), (59_992, 59_992)):
            head = made(k, filling(k, held), length)
            yield head
            yield MISSING + head[:59_996]


def every_kind():
    """All 65,536 kinds, with no body, with the body that a surface reading has, with a number and with both."""
    number = struct.pack("<H", PROBE)
    for body, count in ((b"", 15_000), (SURFACE[4:], 5_000), (number, 10_000), (number + SURFACE[4:], 4_284)):
        records = [made(k, body) for k in range(65_536)]
        yield from (b"".join(records[i : i + count]) for i in range(0, len(records), count))


def trailing():
    for count in range(5):
        for rest in (b"\0\0\0", b"\x08\x00\x02", b"\x00\x00\x03", b"\x02\x00\x13", b"\xff\xff\xff"):
            for n in (0, 1, 2, 3):
                yield SURFACE * count + rest[:n]
                yield (MISSING + made(5, b"ab")) * count + rest[:n]
                yield missing(PROBE) * count + rest[:n]


# Of one probe: what has a density, and one of each refusal of a reading, deep and at the surface.
WAYS = [
    (17, *PLAIN), (18, *OTHER), (19,), (17, *PLAIN[:2], NANS[0]), (18, INFINITIES[0], PLAIN[1]), (17, bits_of(43), *PLAIN[1:]),
    (18, PLAIN[0], bits_of(-3)), (17, *PLAIN[:2], bits_of(-1)),
]


def probes():
    """Of every two numbered kinds that give a density: each number on both sides, beside its neighbour, and each with each. Every kind with every
    kind's length. Every two kinds, old and numbered, with one number, with two and with 0, all in a row and each pair alone; every two ways to read or
    refuse a probe that is on both sides, two probes, or probes without a number; all that beside records that give no reading; every cut of three
    pairs, in a number too."""
    plain = {1: PLAIN, 2: OTHER, 3: [], 17: PLAIN, 18: OTHER, 19: []}

    def two(kinds, numbers):
        return b"".join(record_of(kind, number, *plain[kind]) for kind, number in zip(kinds, numbers))

    for kinds in product((17, 18), repeat=2):
        for numbers in (zip(PROBES, PROBES), zip(PROBES, PROBES[1:]), product(PROBES, repeat=2)):
            yield b"".join(two(kinds, both) for both in numbers)
    yield from both_sides([made(kind, filling(kind, length)) for kind in SENT for length in (0, 2, 8, 10, 12, 14, 16)])
    some = [(PROBE, PROBE), (PROBE, TURNED), (TURNED, PROBE), (0, 0), (0, PROBE), (PROBE, 0), (0xFFFF, 0xFFFF)]
    pairs_of_kinds = [two(kinds, numbers) for kinds, numbers in product(product(SENT, repeat=2), some)]
    yield from both_sides(pairs_of_kinds)
    yield from dict.fromkeys(pairs_of_kinds)
    ways = [[record_of(kind, number, *floats) for kind, *floats in WAYS] for number in (PROBE, TURNED, 0)]
    for left, right in product(ways, repeat=2):
        yield b"".join(one + other for one, other in product(left, right))
    number = struct.pack("<H", PROBE)
    none = [made(9, number), made(17, number), made(19, b""), made(18, SURFACE[4:])]
    yield b"".join(pair for one, other in product(ways[0], none) for pair in (one + other, other + one))
    three = two((17, 18), (PROBE, PROBE)) + two((19, 17), (PROBE, PROBE)) + two((18, 18), (PROBE, TURNED))
    yield from (three[:n] for n in range(len(three) + 1))


def refusal_order(rng):
    """Good and bad in each place, each with each, of the old kinds and of one probe."""
    bad = [
        [PLAIN[i], 0x7FC00000, 0xFF800000, bits_of(low - 1), around(bits_of(high))[2]]
        for i, (low, high, _, _) in enumerate(QUANTITIES)
    ]
    bad[1] += [bits_of(-1), 0x80000001, 0x80000000]  # good enough for a density
    reports = [*product((1,), (0,), *bad), *product((2,), (0,), *bad[:2]), *product((17,), (PROBE,), *bad), *product((18,), (PROBE,), *bad[:2])]
    records = [record_of(*report) for report in reports]
    yield from both_sides(records)
    rng.shuffle(records)
    yield from both_sides(records)


def float_streams(rng):
    for place in range(3):
        every = specials(place)
        for kind in (1, 2, 17, 18):
            if place < SENT[kind][0]:
                yield from both_sides([with_place(place, b, kind, PROBES[i % len(PROBES)]) for i, b in enumerate(every)])
        yield from cut_to_fit([with_place(place, b) for b in halves(place, rng) + points(place, rng)])
    yield from both_sides(dict.fromkeys(record_of(*report) for report in remarked_reports()))
    mixed = [deep(*(rng.choice(specials(i)) for i in range(3))) for _ in range(3_000)]
    yield from cut_to_fit(mixed)
    # each special alone, against a good reading
    for place in range(3):
        for b in specials(place)[:24]:
            yield with_place(place, b) + SURFACE


# Waters, in grid numbers and found by search, whose shown density hangs on the last unit: each would show such a slip.
KNIFE_EDGES = {
    "a scaled product rounded towards zero": [
        (1939, 16136, 11891), (26750, 29562, 31717), (0, 28926, 54105), (15120, 17441, 567), (0, 39549, 98140),
        (1063, -36, 67268), (1098, 39454, 99137), (25031, 8145, 61249),
    ],
    "K for N rounded up": [
        (0, -1098, 99231), (0, 17249, 98591), (0, -1283, 65118), (11192, -1735, 91544), (32957, 8886, 91603), (41298, 36718, 65300),
    ],
    "a root one too large, just below a square": [
        (1562, 3490, 87171), (3516, 8029, 57292), (6249, 11239, 0), (14061, 7777, 25533), (24999, -861, 0), (25002, 39916, 0),
    ],
    "a root one too small, at a square": [
        (640, 8790, 0), (1000, -320, 23879), (2250, 9020, 0), (25000, 16443, 0), (28090, -604, 22475), (40960, 3932, 0),
    ],
    "the last digit of a coefficient": [
        (33784, 38764, 0), (0, 39924, 22995), (0, 38407, 0), (3534, 39977, 66445), (23360, 35158, 90258), (0, 38910, 94050),
        (25061, 38522, 98475), (0, 39407, 99169), (6754, 38493, 91150),
    ],
}


def knife_edges():
    waters = [deep(bits_of(s / 1_000), bits_of(t / 1_000), bits_of(p / 100)) for some in KNIFE_EDGES.values() for s, t, p in some]
    return both_sides(waters)


# Waters, in grid numbers of salinity and temperature and found by search, whose ln K0 hangs on the last unit: each would show such a slip.
CO2_EDGES = {
    "15 terms for ln 3": [(13767, 33361), (3145, 20604), (33429, 25138), (30663, 1239), (11592, 9936), (40051, 32172), (930, 17048)],
    "3 terms for the rest": [(1124, 1754), (16918, 1787), (22847, 3933), (34500, 1180), (27689, 136), (38949, 270), (16632, 2564)],
    "ln 3 itself for its 16 terms": [(15978, 10565), (15898, 1747), (18403, 28501), (41644, 19716), (1312, 39702), (38994, 7432)],
    "a scaled product rounded towards zero": [(26487, 25447), (37232, 36437), (17992, 13736), (8236, 37374), (35229, 3223), (40695, 23055)],
    "100/T rounded to the nearest": [(6241, 9616), (1364, 36209), (5278, 24397), (30173, 2327), (33646, 28068), (7834, 16451)],
    "halves downward": [(11970, 30581), (817, 31411), (17759, 15956), (35075, 25387), (6541, 23121), (41425, 38011)],
    "273.16 for 273.15, or a sign": [(35000, 25000), (35000, 5000), (0, 0), (42000, 0), (0, 40000), (42000, 40000), (20000, 26850), (20000, 26849)],
}


def co2_reports():
    """Each at the surface, deep, and deep with a pressure that has no density."""
    pressures = [bits_of(250), *NANS, *INFINITIES, bits_of(-1), 0x447A0001]
    for i, (s, t) in enumerate(water for some in CO2_EDGES.values() for water in some):
        floats = bits_of(s / 1_000), bits_of(t / 1_000)
        yield from ((kind, 0, *floats, p) for kind, p in ((2, NANS[0]), (1, pressures[0]), (1, pressures[1 + i % (len(pressures) - 1)])))
        yield from ((kind, PROBES[i % len(PROBES)], *floats, p) for kind, p in ((18, NANS[1]), (17, pressures[1 + i % (len(pressures) - 1)])))


def co2_edges():
    return both_sides([record_of(*report) for report in co2_reports()])


# Pairs of waters, in grid numbers, whose needle hangs on the pressure that both are put to.
DEPTHS = {
    "one water": [
        ((35000, 5000, 40), (35000, 5000, 900)), ((0, 3980, 0), (0, 3980, 100000)), ((42000, 40000, 0), (42000, 40000, 1)),
        ((14833, 30336, 65051), (14833, 30336, 65052)),
    ],
    "one pressure": [
        ((0, 5000, 0), (35000, 5000, 0)), ((33900, 8150, 900), (33900, 8160, 900)), ((42000, -2000, 100000), (0, 40000, 100000)),
    ],
    "the printed difference the other way": [
        ((40822, 14740, 0), (40823, 14760, 1085)), ((38677, 11393, 765), (38676, 11408, 830)), ((35864, 22502, 617), (35860, 22507, 1116)),
        ((7419, 22365, 0), (7422, 22390, 49906)), ((17942, 13956, 75), (17945, 13976, 20285)),
    ],
    "the lesser pressure the other way": [
        ((22321, 26549, 0), (16713, 2462, 62)), ((14115, 23451, 0), (12671, 18929, 691)), ((5836, 37530, 156), (1945, 28862, 913)),
        ((27473, 33767, 786), (28066, 34932, 31845)), ((803, 613, 0), (11736, 33407, 85310)),
    ],
    "a step of pressure": [
        ((19257, 20287, 35872), (19255, 20294, 35873)), ((3920, 3762, 18854), (3917, 3753, 18855)), ((22144, 2326, 61936), (22144, 2318, 61937)),
    ],
    "far apart": [((42000, -2000, 0), (0, 40000, 100000)), ((42000, -2000, 100000), (0, 40000, 0))],
}


def reports(s, t, p):
    """A water on the grid as its probe may report it; at the surface with a pressure that is not read too."""
    salinity, temperature = bits_of(s / 1_000), bits_of(t / 1_000)
    deep_report, surface_report = (1, 0, salinity, temperature, bits_of(p / 100)), (2, 0, salinity, temperature, bits_of(1_000))
    return [deep_report, surface_report] if p == 0 else [deep_report]


def depth_pairs(*sorts):
    """Two reports each, both ways round; of some sorts or of all."""
    for one, other in (pair for sort in sorts or DEPTHS for pair in DEPTHS[sort]):
        for left in reports(*one):
            for right in reports(*other):
                yield from ((left, right), (right, left))


def depths():
    """A stream for each sort."""
    return [b"".join(record_of(*report) for pair in depth_pairs(sort) for report in pair) for sort in DEPTHS]


def sizes(rng):
    mixture = (DEEP + SURFACE + MISSING + made(9, b"xyz")) * 5_000
    for n in (1, 59_999, 60_000, 60_001, 60_002, 65_535, 65_536, 65_537, 200_000):
        yield bytes(n)
        yield mixture[:n]
        yield rng.randbytes(n)
        yield (MISSING * 50_000)[:n]
        yield made(2, bytes(n))[:n] if n < 65_536 else SURFACE + bytes(n - 12)


# Every pair needs 8 bytes at least, but a cut last one, and a longer record never pays for the line it costs.
LONGEST = MISSING * 15_000
# The table of details: a record refused by 7 has the widest cells for 4 bytes. The last pair is cut, and what it does not need is enough for three
# numbers of five digits.
LONGEST_TABLE = made(9, b"") * 14_995 + missing(54_321) * 3 + b"\0\0"
WIDEST_LINES = (deep(bits_of(42), bits_of(-2), bits_of(1_000)) + deep(0, bits_of(40), bits_of(1_000))) * 1_875


def any_float(place, rng):
    low, high, unit, _ = QUANTITIES[place]
    way = rng.random()
    if way < 0.80:
        return bits_of(rng.uniform(low, high))
    if way < 0.86:
        return bits_of((rng.randint(low * unit, high * unit) + rng.choice((0, 0.5))) / unit)
    if way < 0.96:
        return rng.choice(specials(place))
    return rng.getrandbits(32)


def any_probe(rng):
    """None, or a number, so that two that follow each other often have one."""
    return rng.choice((None, None, None, 0, PROBE, PROBE, PROBE, TURNED, rng.choice(PROBES), rng.getrandbits(16)))


def any_record(rng):
    way, probe = rng.random(), any_probe(rng)
    if way < 0.42:
        return deep(*(any_float(i, rng) for i in range(3)), probe)
    if way < 0.80:
        return surface(*(any_float(i, rng) for i in range(2)), probe)
    if way < 0.90:
        return missing(probe)
    if way < 0.95:
        return made(kind := rng.choice(KINDS), filling(kind, rng.choice((0, 2, 8, 10, 12, 14))))
    return made(kind := rng.choice(list(SENT)), filling(kind, rng.choice(SHORT_LENGTHS)))


def mutated(stream, rng):
    changed = bytearray(stream)
    at = rng.randrange(len(changed))
    way = rng.randrange(6)
    if way == 0:
        changed[at] ^= 1 << rng.randrange(8)
    elif way == 1:
        changed[at] = rng.choice((0, 1, 2, 3, 4, 8, 10, 12, 14, 17, 18, 19, 0x7F, 0x80, 0xFF, rng.randrange(256)))
    elif way == 2:
        del changed[at]
    elif way == 3:
        changed.insert(at, rng.choice((0, 1, 2, 3, 8, 10, 12, 14, 17, 18, 19, rng.randrange(256))))
    elif way == 4:
        del changed[at:]
    else:
        end = rng.randint(at, len(changed))
        changed[at:at] = changed[at:end]
    return bytes(changed)


def any_stream(rng):
    way = rng.random()
    if way < 0.06:  # bytes that make plausible heads
        return bytes(rng.choice((0, 0, 0, 0, 0, 1, 2, 3, 4, 8, 10, 12, 14, 17, 18, 19)) for _ in range(rng.randrange(80)))
    count = rng.randrange(200) if way > 0.95 else rng.randrange(24)
    stream = b"".join(any_record(rng) for _ in range(count))
    for _ in range(rng.choice((0, 0, 1, 1, 2, 3))):
        if stream:
            stream = mutated(stream, rng)
    return stream


def late_readings():
    """Readings, left and right unlike, after many pairs of missing probes: numbers of pairs that readings alone do not reach."""
    one, other = deep(*PLAIN, PROBE), surface(*OTHER, PROBE)
    for before in (9, 99, 999, 3_749, 5_000, 6_143, 7_495):
        for pair in (DEEP + SURFACE, SURFACE + DEEP, one + other, other + one):
            yield MISSING * (2 * before) + pair


def hard_streams():
    rng = random.Random(38)
    yield from (EXAMPLE[:n] for n in range(len(EXAMPLE) + 1))
    for whole in (ALL_KINDS, MISSING + ALL_KINDS):
        yield from (whole[:n] for n in range(len(whole) + 1))
    yield from (model.NUMBERED[:n] for n in range(len(model.NUMBERED) + 1))
    for part in (heads(), every_kind(), trailing(), probes(), refusal_order(rng), float_streams(rng)):
        yield from part
    for part in (knife_edges(), co2_edges(), depths(), sizes(rng)):
        yield from part
    yield from (LONGEST, LONGEST[4:], LONGEST + b"\0", LONGEST_TABLE, LONGEST_TABLE + b"\0", WIDEST_LINES, WIDEST_LINES[16:])
    yield from (SURFACE * n for n in (1, 2, 3, 7, 99, 2_499, 5_000))
    yield from late_readings()
    yield from (any_stream(rng) for _ in range(RANDOM_STREAMS))


# Of two accepted channels.
WRONG_NEEDLES = {
    "the printed difference": lambda left, right: right.density - left.density,
    "at the lesser pressure": lambda left, right: needle_at(left, right, min(left.pi, right.pi)),
    "at the left's pressure": lambda left, right: needle_at(left, right, left.pi),
    "at the right's pressure": lambda left, right: needle_at(left, right, right.pi),
}


# What a reading is refused by, for its density and for its ln K0: 0 is for not at all.
BOTH_REFUSALS = {(n, n) for n in (0, 1, 2, 3, 4, 6, 7, 8)} | {(0, 4), (2, 0), (2, 3), (2, 4), (5, 0), (5, 4)}


def covered_remarks(every):
    """All remarks, each with each, are among what is tried, on either side; at the surface the pressure's is always the same. Both signs of
    a temperature have each."""
    some = [(side, report) for stream in every if len(stream) <= 60_000 for pair in model.reports(stream) for side, report in enumerate(pair)]
    every_remark = list(product((BELOW, ON, ABOVE), repeat=3))
    wanted = {(kind, *remarks) for kind in (1, 2, 17, 18) for remarks in every_remark if kind in (1, 17) or remarks[2] == ON}
    for side in (0, 1):
        here = {report for its, report in some if its == side and not channel(*report).refusal}
        assert {(report[0], *channel(*report).remarks) for report in here} == wanted
        assert {(report[3] >> 31, channel(*report).remarks[1]) for report in here} == set(product((0, 1), (BELOW, ON, ABOVE)))


def covered_co2(every):
    """Whatever a reading can be refused by is among what is tried, on either side; so are the waters that a term fewer would show."""
    some = [pair for stream in every if len(stream) <= 60_000 for pair in model.reports(stream)]
    for side in (0, 1):
        assert {(channel(*pair[side]).refusal, co2(*pair[side]).refusal) for pair in some} == BOTH_REFUSALS
    tried = {report for pair in some for report in pair}
    assert {report[: 2 + SENT[report[0]][0]] for report in co2_reports()} <= tried
    fewer = {"15 terms for ln 3": {"ln3_terms": 15}, "3 terms for the rest": {"log_terms": 3}}
    assert all(model.solubility(*water) != model.solubility(*water, **terms) for name, terms in fewer.items() for water in CO2_EDGES[name])


# Whether two accepted channels are one probe's, not as it should be.
WRONG_PROBES = {
    "never": lambda left, right: False,
    "0 as any other number": lambda left, right: left == right,
    "always where the left has a number": lambda left, right: left != 0,
    "always where the right has a number": lambda left, right: right != 0,
    "where the numbers differ": lambda left, right: left != right and left != 0 and right != 0,
    "the low bytes alone": lambda left, right: left % 256 == right % 256 and left != 0 and right != 0,
    "the high bytes alone": lambda left, right: left // 256 == right // 256 and left != 0 and right != 0,
    "no number where the low byte is 0": lambda left, right: left == right and left % 256 != 0,
    "no number where the high byte is 0": lambda left, right: left == right and left // 256 != 0,
    "15 bits": lambda left, right: left % 2**15 == right % 2**15 != 0,
    "the left's bytes turned": lambda left, right: left % 256 * 256 + left // 256 == right != 0,
    "65,535 for none": lambda left, right: left == right and left not in (0, 65_535),
}
# A whole record of a numbered kind not as it should be read: as the one that is given here, rightly.
WRONG_RECORDS = {
    "the number's bytes turned": lambda kind, body: (kind, body[1::-1] + body[2:]),
    "the number after the floats": lambda kind, body: (kind, body[-2:] + body[:-2]),
    "the number's low byte alone": lambda kind, body: (kind, body[:1] + b"\0" * len(body[1:2]) + body[2:]),
    "the number passed over": lambda kind, body: (kind, b"\0" * len(body[:2]) + body[2:]),
    "as of the old kinds": lambda kind, body: (kind - 16, body),
    "as of the old kinds, past its number": lambda kind, body: (kind - 16, body[2:]),
    "as of no kind": lambda kind, body: (4, body),
    "missing without its number": lambda kind, body: (kind, b"\0\0" if body == b"" and kind == 19 else body),
    "missing with a greater body": lambda kind, body: (kind, body[:2] if kind == 19 else body),
    "a number where there is none": lambda kind, body: (kind, b"\0\0" + body if len(body) in (8, 12) else body),
}


def read_as(wrong, stream):
    """The stream whose right page is the page of this one with its numbered records read wrongly."""
    found, at = [], 0
    while len(stream) - at >= 4:
        length, kind = struct.unpack_from("<HH", stream, at)
        if len(stream) - at - 4 < length:
            break
        body, at = stream[at + 4 : at + 4 + length], at + 4 + length
        found.append(made(*wrong(kind, body) if kind in (17, 18, 19) else (kind, body)))
    return b"".join(found) + stream[at:]


def covered_probes(every):
    """One probe on both sides is among what is tried by every two kinds that have a number and give a density; so are every two numbers of those
    listed, which show each wrong way to compare two, and every two refusals of readings with one number. Each wrong way to read a numbered record
    shows in the table and, but for bytes turned on both sides, on the page."""
    short = [stream for stream in every if len(stream) <= 60_000]
    some = [(left, right, needle(channel(*left), channel(*right)).refusal) for stream in short for left, right in model.reports(stream)]
    probed = [(left, right, refusal) for left, right, refusal in some if left[0] in SENT and right[0] in SENT]
    assert {(left[0], right[0]) for left, right, refusal in probed if refusal == 32} == set(product((17, 18), repeat=2))
    accepted = {(left[1], right[1], refusal) for left, right, refusal in probed if refusal in (0, 32)}
    assert {(one, other) for one, other, _ in accepted} >= set(product(PROBES, repeat=2))
    for name, wrong in WRONG_PROBES.items():
        assert any(wrong(one, other) != (refusal == 32) for one, other, refusal in accepted), name
    alike = {(channel(*left).refusal, channel(*right).refusal) for left, right, _ in probed if left[1] == right[1] != 0}
    assert alike >= set(product(range(6), repeat=2))
    brief = [stream for stream in short if len(stream) < 600]
    for name, wrong in WRONG_RECORDS.items():
        assert any(model.details(read_as(wrong, stream)) != model.details(stream) for stream in brief), name
        if "bytes turned" not in name:
            assert any(page(read_as(wrong, stream)) != page(stream) for stream in brief), name


def covered(every):
    """Every refusal number on either side and every sign of a needle is among what is tried, and where each wrong needle lies the other way."""
    covered_co2(every)
    covered_probes(every)
    found = set()
    for stream in every:
        if len(stream) <= 60_000:
            for left, right in pairs(stream):
                refused, n = needle(left, right)
                found |= {("left", left.refusal), ("right", right.refusal), ("needle", refused or (n > 0) - (n < 0))}
    wanted = {(side, n) for side in ("left", "right") for n in range(9)}
    wanted |= {("needle", n) for n in (-1, 0, 1, 32, *range(101, 109), *range(201, 209))}
    assert found == wanted, found ^ wanted
    two_depths = [pair for stream in set(depths()) & set(every) for pair in pairs(stream)]
    for name, wrong in WRONG_NEEDLES.items():
        assert {sign for sign in (-1, 1) for pair in two_depths if needle(*pair).value * sign > 0 > wrong(*pair) * sign} == {-1, 1}, name
    late = [(left, right) for stream in every if len(stream) <= 60_000 for left, right in pairs(stream)[7_400:] if not left.refusal and not right.refusal]
    assert {refused or (n > 0) - (n < 0) for left, right in late for refused, n in [needle(left, right)]} >= {-1, 1, 32}
    assert len(page(LONGEST)) == LONGEST_PAGE and page(LONGEST).endswith(b"\n7500 R1 R1 R101\n")
