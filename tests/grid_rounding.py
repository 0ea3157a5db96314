#!/usr/bin/env python3
"""Measures how much is used of what is proved of a shown density and of a needle, and what of it putting readings on the grid adds.

    python3 tests/grid_rounding.py COMMAND ...      the command that starts the driver (tests/driver.c)

Proved is how near a shown density is to the published formula: 0.0006 kg/m3 at the grid numbers, 0.0014 at the floats as sent; and how near a
needle is to the formula's difference, both waters at the greater of the two pressures: 0.0012 on the grid, 0.0028 as sent. A float as sent is
up to half a step away from its grid number: 0.0005 of salinity, 0.0005 degrees C, 0.005 bar. What that changes in the formula is scanned here
over the whole accepted range, and then sampled through the compiled panel, with floats as near to half a step as floats come. Both waters of a
needle share the half step of the greater pressure, so that salinity and temperature matter most there. It is a measurement, in doubles where
nothing hangs on them; tests/sampling.py holds the proved sentences in exact fractions. The documents' words are the bounds below: the test
fails where one is exceeded, and where a search comes to under 0.9 of a half step's or of a density's as sent, or 0.75 of another.
"""
import random
import struct
import subprocess
import sys
from bisect import bisect_left
from fractions import Fraction
from itertools import product
from math import floor, isqrt, sqrt

sys.dont_write_bytecode = True
import coefficients  # as UNESCO's papers print them, held to SPEC and to the code

# kg/m3, measured: half a step in each, in the first two and in all three.
BOUNDS = {"salinity": 0.00043, "temperature": 0.00023, "pressure": 0.00027, "salinity and temperature": 0.00059, "together": 0.0008}
# Proved: of a shown density, on the grid and as sent, which is the sum of that and of all three half steps; of a needle, twice as much. A needle's
# waters share a pressure, so that as sent little more than both waters' half steps in the first two is added to the grid's.
PROVED, PROVED_SENT = 0.0006, 0.0014
NEEDLE, NEEDLE_SENT = 2 * PROVED, 2 * PROVED_SENT
# Proved: from this needle on no pair's waters, as sent, lie the other way: it is more than a needle's error as sent. A needle of 2 may.
SURE_NEEDLE = 3

RANGES = (0.0, 42.0), (-2.0, 40.0), (0.0, 1_000.0)
STEPS = 1_000, 1_000, 100  # grid numbers to the unit
HALF = tuple(0.5 / steps for steps in STEPS)
POINTS = 85, 85, 101
UNIFORM, NEAR = 100_000, 50_000  # readings sampled
LEVELS, WATERS = 20, 2_500  # pressures, and waters at each of them, of which all pairs are sampled
# In few decimals, found by search. A pair as sent, left and right: the needle says +2, the formula at the right's pressure that the right is
# lighter. And a reading as sent whose shown density is about as far from the formula as it comes.
EXAMPLE = (41.5695, 39.9095, 0.4), (41.5465, 39.8685, 5)
FAR_EXAMPLE = 41.9575, 39.9585, 0.595

# ---- the published formula, in doubles and in fractions: practical salinity, degrees C, bar; lowest power of the temperature first. The
# density at the surface goes by salinity to the powers 0, 1, 3/2 and 2, the modulus by these and by the pressure.
EXACT = {name: [Fraction(c) for c in decimals] for name, (_, decimals) in coefficients.typed(coefficients.PAPERS, 2).items()}
DOUBLE = {name: [float(c) for c in row] for name, row in EXACT.items()}


def parcel(s, t, w, rows=DOUBLE):
    """What salinity, temperature and the salinity's root w decide: density at the surface and the modulus's three parts."""

    def at(name):
        value = 0
        for c in reversed(rows[name]):
            value = value * t + c
        return value

    return (
        at("Dw") + s * (at("Ds") + w * at("Dr") + s * at("Dss")),
        at("Kw") + s * (at("Ks") + w * at("Kr")),
        at("Aw") + s * (at("As") + w * at("Ar")),
        at("Bw") + s * at("Bs"),
    )


def pressed(water, p):
    d, k0, a, b = water
    k = k0 + p * (a + p * b)
    return d * k / (k - p)


def density(s, t, p):
    return pressed(parcel(s, t, sqrt(s)), p)


def exactly(s, t, p):
    """The density in fractions, with a root just below the true one and with one 10^-30 above that: the lower and the higher."""
    s, t, p = Fraction(s), Fraction(t), Fraction(p)
    w = isqrt(s.numerator * 10**60 // s.denominator)
    ends = [pressed(parcel(s, t, Fraction(w + i, 10**30), EXACT), p) for i in (0, 1)]
    return min(ends), max(ends)


# ---- half a step, over the whole range

CORNERS = list(product((0, 1), repeat=3))  # half a step up from a point in salinity, temperature, pressure, or not
WAYS = {
    "salinity": [((0, 0, 0), (1, 0, 0))],
    "temperature": [((0, 0, 0), (0, 1, 0))],
    "pressure": [((0, 0, 0), (0, 0, 1))],
    "salinity and temperature": [((0, 0, 0), (1, 1, 0)), ((1, 0, 0), (0, 1, 0))],
    "together": [(c, tuple(1 - x for x in c)) for c in CORNERS[:4]],  # grid number and float at opposite corners of a box
}


def corners(point):
    """The densities at the corners of the box from a point up."""
    return {c: density(*(x + h * i for x, h, i in zip(point, HALF, c))) for c in CORNERS}


def change(way, point):
    at = corners(point)
    return max(abs(at[b] - at[a]) for a, b in WAYS[way])


def evenly(place):
    """Points over a range, both ends among them; half a step up from each is still in the range."""
    (low, high), n = RANGES[place], POINTS[place]
    return [low + (high - HALF[place] - low) * i / (n - 1) for i in range(n)]


def scanned():
    """way -> the greatest change and the point where the box starts"""
    best = {way: (0.0, None) for way in WAYS}
    hs, ht, hp = HALF
    for s in evenly(0):
        roots = sqrt(s), sqrt(s + hs)
        for t in evenly(1):
            # the four waters of a box, which pressures are then put to; the first letter is the salinity's side
            (ld, l0, la, lb), (md, m0, ma, mb) = parcel(s, t, roots[0]), parcel(s, t + ht, roots[0])
            (sd, s0, sa, sb), (wd, w0, wa, wb) = parcel(s + hs, t, roots[1]), parcel(s + hs, t + ht, roots[1])
            for p in evenly(2):
                q = p + hp
                k = l0 + p * (la + p * lb)
                low = ld * k / (k - p)
                k = l0 + q * (la + q * lb)
                low_deep = ld * k / (k - q)
                k = m0 + p * (ma + p * mb)
                warm = md * k / (k - p)
                k = m0 + q * (ma + q * mb)
                warm_deep = md * k / (k - q)
                k = s0 + p * (sa + p * sb)
                salt = sd * k / (k - p)
                k = s0 + q * (sa + q * sb)
                salt_deep = sd * k / (k - q)
                k = w0 + p * (wa + p * wb)
                both = wd * k / (k - p)
                k = w0 + q * (wa + q * wb)
                both_deep = wd * k / (k - q)
                found = (
                    abs(salt - low),
                    abs(warm - low),
                    abs(low_deep - low),
                    max(abs(both - low), abs(salt - warm)),
                    max(abs(both_deep - low), abs(salt_deep - warm), abs(both - low_deep), abs(warm_deep - salt)),
                )
                for way, size in zip(WAYS, found):
                    if size > best[way][0]:
                        best[way] = size, (s, t, p)
    return best


def refined(way, size, point):
    """From the best point of the scan to the best near it, by ever smaller moves within the range."""
    moves = [(high - low) / (n - 1) for (low, high), n in zip(RANGES, POINTS)]
    for _ in range(40):
        for signs in product((-1, 0, 1), repeat=3):
            other = tuple(min(max(x + m * i, low), high - h) for x, m, i, (low, high), h in zip(point, moves, signs, RANGES, HALF))
            if change(way, other) > size + 1e-12:  # less is the doubles' own noise
                size, point = change(way, other), other
        moves = [m / 2 for m in moves]
    return size, point


def exact_change(way, point):
    """The change at a point, in fractions: no less than this."""
    point, half = [Fraction(x) for x in point], [Fraction(1, 2 * steps) for steps in STEPS]
    at = {c: exactly(*(x + h * i for x, h, i in zip(point, half, c))) for c in CORNERS}
    return max(max(at[b][0] - at[a][1], at[a][0] - at[b][1]) for a, b in WAYS[way])


# ---- floats


def to_float(x):
    """The 32-bit float nearest to x."""
    return struct.unpack("<f", struct.pack("<f", x))[0]


def next_float(x, up):
    """The next float above or below one that is above 0."""
    bits = struct.unpack("<I", struct.pack("<f", x))[0]
    return struct.unpack("<f", struct.pack("<I", bits + 1 if up else bits - 1))[0]


def on_grid(x, steps):
    """Exact: a float times 1,000 has 34 bits, and where a double cannot hold that and the half, it is too small to matter."""
    return floor(x * steps + 0.5)


def farthest(number, steps, up):
    """The float farthest from a grid number above 0, up or down, that is still put on it."""
    x = to_float((number + (0.5 if up else -0.5)) / steps)
    while on_grid(x, steps) != number:
        x = next_float(x, not up)
    return x


def anywhere(rng):
    return tuple(to_float(rng.uniform(low, high)) for low, high in RANGES)


def extreme(rng, middle):
    """A reading near a point, all three floats near half a step off and the worst way: all heavier or all lighter than the grid numbers."""
    tops = [round(high * steps) - 1 for (_, high), steps in zip(RANGES, STEPS)]
    grid = [min(max(round(x * steps) + rng.randint(-250, 250), 1), top) for x, steps, top in zip(middle, STEPS, tops)]
    heavier = rng.random() < 0.5
    ways = heavier, heavier == (density(middle[0], middle[1] + 0.01, middle[2]) > density(*middle)), heavier
    return tuple(farthest(g, steps, up) for g, steps, up in zip(grid, STEPS, ways))


# ---- the compiled panel


def asked(command, requests, answer):
    said = subprocess.run(command, input=b"".join(requests), stdout=subprocess.PIPE, check=True).stdout
    answers = list(struct.iter_unpack(answer, said))
    assert len(answers) == len(requests)
    return answers


def channels(command, readings):
    return asked(command, [struct.pack("<cIH3f", b"c", 1, 0, *r) for r in readings], "<9q")


def needle(command, left, right):
    return asked(command, [struct.pack("<cIH3fIH3f", b"n", 1, 0, *left, 1, 0, *right)], "<4q")[0]


def exact_difference(left, right):
    """Right minus left in fractions, both at the greater pressure as sent: no less than the first and no more than the second."""
    p = max(left[2], right[2])
    (l, l_high), (r, r_high) = exactly(*left[:2], p), exactly(*right[:2], p)
    return r - l_high, r_high - l


def used(size, bound, least=0.75):
    """What to say of a measured size, and whether it is as it should be."""
    return f"{size:.7f} ({100 * size / bound:.0f} % of the {bound:.4f} proved)", least * bound < size <= bound


def place(point):
    return "(%s)" % ", ".join("%.9g" % x for x in point)


def main():
    command = sys.argv[1:]
    if not command:
        sys.exit("give the command that starts the driver")
    wrong, rng = [], random.Random(1980)
    assert PROVED + BOUNDS["together"] <= PROVED_SENT + 1e-12 and NEEDLE_SENT < SURE_NEEDLE / 1_000

    # Doubles do here: nowhere as much as 10^-9 from the exact formula.
    off = max(
        max(abs(Fraction(density(*r)) - end) for end in exactly(*r))
        for r in [anywhere(rng) for _ in range(300)] + [tuple(c) for c in product(*RANGES)]
    )
    if off > Fraction(1, 10**9):
        wrong.append("doubles are not enough")

    # Half a step.
    told, points = [], {}
    for way, found in scanned().items():
        size, point = refined(way, *found)
        exact = exact_change(way, point)
        if abs(exact - Fraction(size)) > Fraction(1, 10**9):
            wrong.append(f"{way}: {size} in doubles, {float(exact)} in fractions")
        if not 0.9 * BOUNDS[way] < exact <= BOUNDS[way]:
            wrong.append(f"{way}: half a step changes the density by {float(exact):.7f}, the bound stated is {BOUNDS[way]}")
        told.append(f"{way} {float(exact):.7f} at {place(point)}")
        points[way] = point
    print(f"grid rounding: the most that half a step changes the density (kg/m3; from salinity, degrees C, bar up): {'; '.join(told)}")

    # Readings as sent. The last ones are waters near the greatest change by salinity and temperature, many at one pressure.
    readings = [anywhere(rng) for _ in range(UNIFORM)] + [extreme(rng, points["together"]) for _ in range(NEAR)]
    for _ in range(LEVELS):
        p = to_float(rng.uniform(*RANGES[2]))
        readings += [(*extreme(rng, points["salinity and temperature"])[:2], p) for _ in range(WATERS)]
    at_level, grid_level, far, far_at, from_grid, over = {}, {}, 0.0, None, 0.0, 0
    for i, (reading, (refusal, *grid, shown, _, _, _, _)) in enumerate(zip(readings, channels(command, readings))):
        if refusal or grid != [on_grid(x, steps) for x, steps in zip(reading, STEPS)]:
            wrong.append(f"{place(reading)} is refused or put elsewhere on the grid")
            continue
        off = density(*reading) - shown / 1_000
        grid_off = density(*(g / steps for g, steps in zip(grid, STEPS))) - shown / 1_000
        from_grid = max(from_grid, abs(grid_off))
        over += i < UNIFORM and abs(off) > PROVED
        if abs(off) > far:
            far, far_at = abs(off), reading
        if i >= UNIFORM + NEAR:
            at_level.setdefault(reading[2], {}).setdefault(shown, []).append((off, reading))
            grid_level.setdefault(reading[2], []).append(grid_off)
    (by_grid, grid_fits), (by_float, float_fits) = used(from_grid, PROVED), used(far, PROVED_SENT, 0.9)
    if not grid_fits or not float_fits:
        wrong.append("a shown density's error is over what is proved, or far below it")
    print(
        f"grid rounding: {UNIFORM} readings drawn evenly and {len(readings) - UNIFORM} near the greatest changes: shown density at most {by_float}"
        f" from the formula as sent, at {place(far_at)}, and {by_grid} from the formula at the grid numbers; as sent,"
        f" {100 * over / UNIFORM:.1f} % of those drawn evenly are over {PROVED}"
    )
    far_at = tuple(to_float(x) for x in FAR_EXAMPLE)
    refusal, _, _, _, shown, *_ = channels(command, [far_at])[0]
    low, high = exactly(*far_at)
    if refusal or not Fraction(13, 10_000) < shown / Fraction(1_000) - high <= shown / Fraction(1_000) - low <= Fraction(14, 10_000):
        wrong.append(f"the far reading is not so: refusal {refusal}, density {shown}, formula {float(low)} to {float(high)}")
    print(f"grid rounding: the far reading: {place(far_at)}: density {shown}, the formula as sent {float(low):.7f}")

    # Every pair of waters at one pressure: how far the needle is from the formula as sent; of small needles, how many lie the other way as
    # sent, and the one that does so most. It is also the needle where one of the two stands at any lesser pressure.
    others, worst, apart = dict.fromkeys(range(1, 6), 0), {n: (1.0, None) for n in range(1, 6)}, 0.0
    for by_shown in at_level.values():
        for row in by_shown.values():
            row.sort()
        apart = max(apart, max(row[-1][0] for row in by_shown.values()) - min(row[0][0] for row in by_shown.values()))
        for n, (shown, lefts) in product(others, by_shown.items()):
            if rights := by_shown.get(shown + n):
                offs = [off for off, _ in rights]
                others[n] += sum(bisect_left(offs, off - n / 1_000) for off, _ in lefts)
                difference = n / 1_000 + rights[0][0] - lefts[-1][0]
                worst[n] = min(worst[n], (difference, (lefts[-1][1], rights[0][1])))
    grid_apart = max(max(offs) - min(offs) for offs in grid_level.values())
    (by_grid, grid_fits), (by_float, float_fits) = used(grid_apart, NEEDLE), used(apart, NEEDLE_SENT)
    if not grid_fits or not float_fits or apart > NEEDLE + 2 * BOUNDS["salinity and temperature"]:
        wrong.append("a needle's error is over what is proved, or over what was measured, or far below it")
    sure = min(n for n in others if all(others[m] == 0 for m in others if m >= n))
    if sure != SURE_NEEDLE:
        wrong.append(f"the smallest needle with no pair the other way is {sure}")

    # The example and the worst pair found, its left at half the pressure, both ways round; in fractions, by the brackets' far ends.
    left, right = worst[SURE_NEEDLE - 1][1]
    for name, pair in (("the example", EXAMPLE), ("the worst found", ((*left[:2], left[2] / 2), right))):
        left, right = (tuple(to_float(x) for x in reading) for reading in pair)
        refusal, *printed, value = needle(command, left, right)
        low, high = exact_difference(left, right)
        if refusal or value != SURE_NEEDLE - 1 or needle(command, right, left)[-1] != -value or not low <= high < 0:
            wrong.append(f"{name} is not so: refusal {refusal}, needle {value}, formula {float(low)} to {float(high)}")
        print(
            f"grid rounding: {name}: left {place(left)}, right {place(right)}: densities {printed}, needle {value:+}, the formula as sent"
            f" at the greater pressure {float(high):+.6f}"
        )
    print(
        f"grid rounding: all pairs of {WATERS} waters at each of {LEVELS} pressures: needle at most {by_float} from the formula as sent,"
        f" {by_grid} from the formula at the grid numbers; pairs that lie the other way as sent, and the least difference: "
        + "; ".join(f"needle +{n}: {others[n]}, {worst[n][0]:+.6f}" for n in others)
        + f"; none from +{sure} on"
    )
    for line in wrong[:10]:
        print("grid rounding:", line)
    print(f"grid rounding: {len(wrong)} wrong")
    sys.exit(1 if wrong else 0)


main()
