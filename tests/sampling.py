#!/usr/bin/env python3
"""Samples how near the compiled panel stays to the published formula, in whole numbers and fractions alone.

    python3 tests/sampling.py COMMAND ...      the command that starts the driver (tests/driver.c)

The formula is that of Millero and Poisson (1981) and of Millero, Chen, Bradshaw and Schleicher (1980), as UNESCO Technical
Papers in Marine Science 38 and 44 print it, in practical salinity, degrees C and bar. It is first held to the values these
papers print. A needle is held to the formula's difference with both waters at the greater of their pressures.

It is asked twice. At the reading put on the grid, where floats only carry grid numbers: its root is tried at both ends that the panel's
whole root leaves open, and at the true root to 40 digits. And at the reading as sent, at the exact values of its floats: there at the true root.

ln K0 is held to the equation of Weiss (1974), as the handbook of CO2 measurements prints it, the logarithm being a sum of many more terms than the
panel's and that sum with more than all the terms that are left out; on the grid, and measured as sent.
"""
import random
import struct
import subprocess
import sys
from fractions import Fraction
from functools import lru_cache
from itertools import product
from math import isqrt, lcm

SALINITIES, TEMPERATURES, PRESSURES = BOXES = (0, 42_000), (-2_000, 40_000), (0, 100_000)
STEPS = 1_000, 1_000, 100  # grid numbers to the unit
READINGS = 40_000
# What is proved, in kg/m3: how near a shown density is and how near a needle, and the needle that names no lighter water. On the grid, as sent.
DENSITY, NEEDLE, SURE = (6, 10_000), (12, 10_000), 2
SENT_DENSITY, SENT_NEEDLE, SENT_SURE = (14, 10_000), (28, 10_000), 3
# A root is a whole number of units of 10^-40 of the root of salinity/100, so that 10^39 are the root of 1; the panel's has units of 10^-5.
ROOT_STEP, ROOT_ONE = 10**35, 10**39


def row(text):
    """Printed coefficients, lowest power of the temperature first, in units of 10^-15."""
    scaled = [Fraction(c) * 10**15 for c in text.split()]
    assert scaled and all(c.denominator == 1 for c in scaled)
    return [int(c) for c in scaled]


# Density at the surface: water, salinity, salinity^(3/2), salinity^2.
RHO_W = row("999.842594 6.793952e-2 -9.095290e-3 1.001685e-4 -1.120083e-6 6.536332e-9")
RHO_A = row("8.24493e-1 -4.0899e-3 7.6438e-5 -8.2467e-7 5.3875e-9")
RHO_B = row("-5.72466e-3 1.0227e-4 -1.6546e-6")
RHO_C = row("4.8314e-4")
# Secant bulk modulus at the surface: water, salinity, salinity^(3/2); times pressure; times pressure squared.
K_W = row("19652.21 148.4206 -2.327105 1.360477e-2 -5.155288e-5")
K_F = row("54.6746 -0.603459 1.09987e-2 -6.1670e-5")
K_G = row("7.944e-2 1.6483e-2 -5.3009e-4")
A_W = row("3.239908 1.43713e-3 1.16092e-4 -5.77905e-7")
A_I = row("2.2838e-3 -1.0981e-5 -1.6078e-6")
A_J = row("1.91075e-4")
B_W = row("8.50935e-5 -6.12293e-6 5.2787e-8")
B_M = row("-9.9348e-7 2.0816e-8 9.1697e-10")


class Water:
    """The formula at a salinity and a temperature, each a fraction: the pair of its whole numbers, the lower one above 0. Of the density at the
    surface and, by the power of the pressure, of the parts of the modulus it keeps a number and, where there is one, the number by which a
    root is multiplied."""

    def __init__(self, salinity, temperature):
        (s, of_s), (t, of_t) = salinity, temperature
        powers = [t**i * of_t ** (5 - i) for i in range(6)]

        def at(coefficients):
            return sum(c * x for c, x in zip(coefficients, powers))

        self.salinity, self.temperature = salinity, temperature
        self.unit = 10**15 * of_t**5 * of_s * ROOT_ONE  # of the modulus; that of the surface is of_s times as many
        self.surface = ((at(RHO_W) * of_s + s * at(RHO_A)) * of_s + s**2 * at(RHO_C)) * ROOT_ONE, s * of_s * at(RHO_B)
        self.parts = (
            ((at(K_W) * of_s + s * at(K_F)) * ROOT_ONE, s * at(K_G)),
            ((at(A_W) * of_s + s * at(A_I)) * ROOT_ONE, s * at(A_J)),
            (at(B_W) * of_s + s * at(B_M)) * ROOT_ONE,
        )

    def bulk(self, pressure, root):
        """A fraction, in bar."""
        p, of_p = pressure
        (a, b), (c, d), e = self.parts
        return ((a + b * root) * of_p + p * (c + d * root)) * of_p + p**2 * e, self.unit * of_p**2

    def density(self, pressure, root):
        """A fraction, in kg/m3."""
        p, of_p = pressure
        k, _ = self.bulk(pressure, root)
        more = k - p * of_p * self.unit
        assert more > 0
        return (self.surface[0] + self.surface[1] * root) * k, more * self.unit * self.salinity[1]

    def open_roots(self):
        """Of a grid number: both ends w/100000 and (w+1)/100000, w the greatest whole number whose square is at most sigma times 100,000."""
        sigma, steps = self.salinity
        assert steps == STEPS[0]
        w = isqrt(sigma * 100_000)
        return w * ROOT_STEP, (w + 1) * ROOT_STEP

    def true_root(self):
        """Two roots next to each other, the true one from the first to below the second."""
        s, of_s = self.salinity
        r = isqrt(s * ROOT_ONE**2 // of_s)
        return r, r + 1

    def densities(self, pressure):
        """At the true root's ends."""
        return [self.density(pressure, root) for root in self.true_root()]

    def all_densities(self, pressure):
        """At the open roots, then at the true one's ends."""
        return [self.density(pressure, root) for root in self.open_roots()] + self.densities(pressure)


def rounded(n, d):
    return (2 * n + d) // (2 * d)


# Salinity, temperature, pressure in bar; modulus and density as the papers print them for the formula.
PRINTED = [
    (0, 5, 0, "20337.80375", "999.96675"),
    (0, 5, 1000, "23643.52599", "1044.12802"),
    (0, 25, 0, "22100.72106", "997.04796"),
    (0, 25, 1000, "25405.09717", "1037.90204"),
    (35, 5, 0, "22185.93358", "1027.67547"),
    (35, 5, 1000, "25577.49819", "1069.48914"),
    (35, 25, 0, "23726.34949", "1023.34306"),
    (35, 25, 1000, "27108.94504", "1062.53817"),
]
# This printed value is not the formula's own, which is 1059.8203768 and would be printed 1059.82038. Why is not in the sources at hand
# (a routine with shorter constants would explain it), so one unit of the last place is left open.
BY_ROUTINE = (40, 40, 1000, "1059.82037")


def held_to_the_papers():
    """How many of the printed values the formula gives, and a line for each that it does not."""
    held, wrong = 0, []

    def hold(text, value, off, at):
        nonlocal held
        if abs(Fraction(text) * 10**5 - value) <= off:
            held += 1
        else:
            wrong.append(f"the papers print {text} at {at}, the formula gives {value} units of 10^-5")

    def both(s, t, p):
        """Modulus and density in units of 10^-5, at both ends of the true root the same."""
        water, pressure = Water((s, 1), (t, 1)), (p, 1)
        moduli = {rounded(n * 10**5, d) for n, d in (water.bulk(pressure, root) for root in water.true_root())}
        densities = {rounded(n * 10**5, d) for n, d in water.densities(pressure)}
        assert len(moduli) == len(densities) == 1
        return moduli.pop(), densities.pop()

    for *at, modulus, density in PRINTED:
        hold(modulus, both(*at)[0], 0, at)
        hold(density, both(*at)[1], 0, at)
    *at, density = BY_ROUTINE
    hold(density, both(*at)[1], 1, at)
    assert held + len(wrong) == 17
    return held, wrong


def asked(command, readings):
    """The panel's shown density and bulk modulus at each reading."""
    requests = b"".join(struct.pack("<cqqq", b"g", *r) for r in readings)
    answers = subprocess.run(command, input=requests, stdout=subprocess.PIPE, check=True).stdout
    assert len(answers) == 12 * len(readings)
    said = list(struct.iter_unpack("<III", answers))
    assert all(refusal == 0 for refusal, _, _ in said), "the panel refuses a reading of the grid"
    return {r: (density, bulk) for r, (_, density, bulk) in zip(readings, said)}


def report(reading):
    """Of three floats; of two a surface report, whose pressure is not read. The probe has no number."""
    return struct.pack("<IH3f", 1, 0, *reading) if len(reading) == 3 else struct.pack("<IH3f", 2, 0, *reading, float("nan"))


def channels(command, readings):
    """What the panel says of each reading as sent: refusal, grid numbers, shown density, bulk modulus, remarks."""
    answers = subprocess.run(command, input=b"".join(b"c" + report(r) for r in readings), stdout=subprocess.PIPE, check=True).stdout
    assert len(answers) == 72 * len(readings)
    return list(struct.iter_unpack("<9q", answers))


def needles(command, pairs):
    """The panel's needle of each pair as sent: refusal, two densities, needle."""
    requests = b"".join(b"n" + report(left) + report(right) for left, right in pairs)
    answers = subprocess.run(command, input=requests, stdout=subprocess.PIPE, check=True).stdout
    assert len(answers) == 32 * len(pairs)
    return list(struct.iter_unpack("<4q", answers))


# ---- floats. Those of 32 bits in their order: number 0 is 0, n the n-th above it, -n the n-th below.


def float_of(n):
    return struct.unpack("<f", struct.pack("<I", n if n >= 0 else 2**31 - n))[0]


def number_of(x):
    """Of the nearest float."""
    bits = struct.unpack("<I", struct.pack("<f", x))[0]
    return bits if bits < 2**31 else 2**31 - bits


def put(x, place):
    """The grid number that a float is put on."""
    n, d = x.as_integer_ratio()
    return rounded(n * STEPS[place], d)


@lru_cache(maxsize=None)
def nearest(number, place):
    """The float nearest to a grid number's own value."""
    x = float_of(number_of(number / STEPS[place]))
    assert put(x, place) == number
    return x


@lru_cache(maxsize=None)
def farthest(number, place):
    """The lowest and the highest float that are accepted and put on a grid number."""
    least, most = (number_of(end / STEPS[place]) for end in BOXES[place])
    found = []

    def is_on(n):
        return least <= n <= most and put(float_of(n), place) == number

    for way in (-1, 1):
        n = min(max(number_of((2 * number + way) / (2 * STEPS[place])), least), most)
        while is_on(n + way):
            n += way
        while not is_on(n):
            n -= way
        found.append(float_of(n))
    return tuple(found)


def on_grid(reading):
    """A reading as sent, of a reading of the grid; at pressure 0 without one."""
    return tuple(nearest(x, place) for place, x in enumerate(reading if reading[2] else reading[:2]))


def all_ways(reading):
    """The eight readings as sent that are as far as floats come from one of the grid, each number below it or above."""
    return list(product(*(farthest(x, place) for place, x in enumerate(reading))))


def sampled(rng):
    """Corners and seeded readings: each number at an end, one off it, or anywhere."""
    def number(low, high):
        return rng.choice([low, low, low + 1, high - 1, high, high] + [rng.randint(low, high) for _ in range(6)])

    corners = list(product(*BOXES))
    return corners + [tuple(number(*box) for box in BOXES) for _ in range(READINGS - len(corners))]


def neighbour(reading, rng):
    """A water nearly as heavy, were both at one pressure: a few steps of salinity and temperature away, at about the same pressure or at any."""
    sigma, tau, pi = reading
    pressure = rng.choice([pi, pi + rng.randint(-12, 12), 0, rng.randint(*PRESSURES)])
    near = sigma + rng.randint(-4, 4), tau + rng.choice([0, rng.randint(-30, 30)]), pressure
    return tuple(min(max(x, low), high) for x, (low, high) in zip(near, BOXES))


# Two waters and the pressure that both are put to, found by search: a needle of 2 and one of 1, each about as far from the formula's difference as
# it comes. At 1 the formula may have the two in the other order.
BY_TWO = [
    ((41629, -1164), (41581, -1895), 0), ((41542, 22), (41405, -1756), 1), ((41579, 2736), (41123, -1965), 40),
    ((41339, -1447), (41342, -1422), 905), ((41799, -597), (41657, -1770), 13491), ((41853, -1451), (41736, -1995), 43386),
    ((41664, -1599), (41953, -717), 77003), ((41890, 7), (41639, -635), 99999), ((41406, -1412), (41508, -1151), 100000),
]
BY_ONE = [
    ((41629, -1164), (41581, -1875), 0), ((41877, 224), (41741, -1332), 905), ((41581, -1501), (41558, -1640), 27601),
    ((41828, -1135), (41594, -1957), 64126), ((41988, 637), (41110, -1606), 99999),
]


def hard_pairs(rng):
    """Those above, both ways round: one at the pressure, the other there, at the surface or anywhere between."""
    for one, other, pi in BY_TWO + BY_ONE:
        for lesser in (pi, 0, rng.randint(0, pi)):
            for left, right in ((one + (pi,), other + (lesser,)), (one + (lesser,), other + (pi,))):
                yield from ((left, right), (right, left))


def step(reading, place, high):
    """The reading and the next one along a place, or at the upper end the one before and the reading."""
    def at(x):
        return reading[:place] + (x,) + reading[place + 1 :]

    low = min(reading[place], high - 1)
    return at(low), at(low + 1)


def level(pair):
    """Both waters at the greater of their pressures."""
    pi = max(r[2] for r in pair)
    return tuple((*r[:2], pi) for r in pair)


def minus(a, b):
    return a[0] * b[1] - b[0] * a[1], a[1] * b[1]


def apart(shown, a):
    """How far a shown number, in 0.001 kg/m3, is from a fraction."""
    return abs(shown * a[1] - 1_000 * a[0]), 1_000 * a[1]


def below(a, b):
    return a[0] * b[1] < b[0] * a[1]


def ends(fractions):
    """The lowest and the highest."""
    low = high = fractions[0]
    for a in fractions[1:]:
        low, high = a if below(a, low) else low, a if below(high, a) else high
    return low, high


def in_millionths(a):
    """A fraction as a decimal in units of 10^-6, to three places."""
    n = rounded(a[0] * 10**9, a[1])
    return f"{'-' if n < 0 else ''}{abs(n) // 1000}.{abs(n) % 1000:03}"


# ---- readings as sent

NEAR = (41_700, 41_999), (39_700, 39_999), (1, 400)  # grid numbers about where half a step changes the density most
SENT, SENT_NEAR, SENT_ANYWHERE = 2_000, 250, 6_000  # grid readings, each sent in eight ways; readings of any floats

# Found by search: readings whose shown density is about as far from the formula as sent as it comes, below it and above.
FAR = [
    (41.9575, 39.9585, 0.595), (41.9575, 39.8615, 1.955), (41.8125, 39.9795, 10.045), (41.9575, 39.7175, 0.275), (41.9225, 39.8835, 0.405),
    (41.9575, 39.6475, 10.005), (41.9935, 39.9025, 0.015), (41.6185, 39.8125, 0.005), (41.4175, 39.9775, 8.995),
]
# Two waters and the pressure that both are put to, found by search: a needle of 2 for the right one, which is the lighter as sent where the left
# one's floats are as heavy and its own as light as they come; and a needle of 3, where it is the heavier by as little as it comes.
SENT_BY_TWO = [
    ((41578, 39964), (41596, 39994), 0), ((41618, 39759), (41667, 39845), 40), ((41569, 39910), (41547, 39868), 500),
    ((41702, 39937), (41507, 39583), 900), ((41993, 39583), (41923, 39454), 950), ((41993, 39817), (41923, 39690), 10500),
    ((41502, 39875), (41242, 39420), 30000), ((41354, 39733), (41332, 39694), 63700), ((41618, 39088), (41760, 39313), 100000),
    ((35855, 19493), (35922, 19684), 900),
]
SENT_BY_THREE = [
    ((41940, 39964), (41901, 39889), 0), ((41870, 39881), (41769, 39694), 40), ((41993, 39809), (41923, 39678), 900),
    ((41826, 39764), (41875, 39847), 5000), ((41764, 39896), (41756, 39877), 10500), ((41133, 39324), (41471, 39884), 63700),
    ((41826, 39728), (41879, 39808), 100000), ((41083, -1104), (41111, -1031), 85000), ((35849, 13621), (35916, 13857), 900),
    ((0, 134), (8, 61), 900),
]


def edge_floats(place):
    """Ends of the accepted range and of what is put on them, the floats just inside, noughts, denormals, the least normal floats."""
    low, high = BOXES[place]
    least, most = number_of(low / STEPS[place]), number_of(high / STEPS[place])
    some = {least, least + 1, most - 1, most, 0, 1, 2**23 - 1, 2**23, -1, 1 - 2**23, -(2**23)}
    found = [float_of(n) for n in sorted(some) if least <= n <= most] + [-0.0]
    return found + [farthest(low, place)[1], farthest(high, place)[0], *farthest(0, place), *farthest(1, place)]


def any_float(rng, place):
    """Anywhere in the range; one in four by its bits, so that it may be of any size."""
    low, high = (number_of(x / STEPS[place]) for x in BOXES[place])
    if rng.random() < 0.25:
        return float_of(rng.randint(low, high))
    return float_of(number_of(rng.uniform(*BOXES[place]) / STEPS[place]))


def sent_readings(rng, readings):
    near = [tuple(rng.randint(*box) for box in NEAR) for _ in range(SENT_NEAR)]
    found = [r for reading in readings[:SENT] + near for r in all_ways(reading)]
    edges = [edge_floats(place) for place in range(3)]
    found += [*product(*edges), *product(*edges[:2])]
    found += [tuple(any_float(rng, place) for place in range(rng.choice((2, 3, 3)))) for _ in range(SENT_ANYWHERE)]
    return found + [tuple(float_of(number_of(x)) for x in decimals) for decimals in FAR]


def sent_pairs(rng, readings, found):
    """Waters nearly as heavy, at pressures that are equal as sent, equal on the grid or neither; any two; those found by search, in every way."""
    for reading in readings[:SENT]:
        for _ in range(4):
            left, right = (rng.choice(all_ways(r)) for r in (reading, neighbour(reading, rng)))
            yield from ((left, right), (left, right[:2]), (left, (*right[:2], left[2])))
    some = rng.sample(found, 6_000)
    yield from zip(some[::2], some[1::2])
    for one, other, pi in SENT_BY_TWO + SENT_BY_THREE:
        deepest = [(p,) for p in (*farthest(pi, 2), nearest(pi, 2))]
        lesser = [*deepest, (), (0.0,), farthest(rng.randint(0, pi), 2)[:1]]
        for l, r in product(*(product(*(farthest(x, place) for place, x in enumerate(water))) for water in (one, other))):
            deep, high = rng.choice(deepest), rng.choice(lesser)
            for left, right in ((l, r), (r, l)):
                yield from ((left + deep, right + deep), (left + deep, right + high), (left + high, right + deep))


def pressure(reading):
    """As sent; of a surface report 0."""
    return reading[2] if len(reading) == 3 else 0.0


@lru_cache(maxsize=None)
def sent_water(salinity, temperature):
    return Water(salinity.as_integer_ratio(), temperature.as_integer_ratio())


def sent_densities(reading, p):
    """By the formula at the floats' exact values: the lower and the higher."""
    return ends(sent_water(*reading[:2]).densities(p.as_integer_ratio()))


def as_sent(command, rng, readings):
    """Lines for what is wrong, and what was met."""
    wrong, largest, largest_needle = [], (0, 1), (0, 1)
    found = sent_readings(rng, readings)
    for reading, (refusal, *grid, shown, _, _, _, _) in zip(found, channels(command, found)):
        if refusal or grid != [put(x, place) for place, x in enumerate((*reading[:2], pressure(reading)))]:
            wrong.append(f"sent {reading}: refused by {refusal}, or put on {grid}")
        for by_formula in sent_densities(reading, pressure(reading)):
            error = apart(shown, by_formula)
            largest = error if below(largest, error) else largest
            if below(SENT_DENSITY, error):
                wrong.append(f"sent {reading}: the panel shows {shown}, over 0.0014 from the formula as sent")

    # Of the needles of 2 and of 3 the least by which the water that is named is the heavier one: below 0 it is the lighter.
    pairs = list(sent_pairs(rng, readings, found))
    decided, other_way, least = 0, 0, {SENT_SURE - 1: (1, 1), SENT_SURE: (1, 1)}
    for (left, right), (refusal, _, _, needle) in zip(pairs, needles(command, pairs)):
        p = max(pressure(left), pressure(right))
        (low_l, high_l), (low_r, high_r) = sent_densities(left, p), sent_densities(right, p)
        named = [(n if needle > 0 else -n, d) for n, d in (minus(low_r, high_l), minus(high_r, low_l))]
        decided += abs(needle) >= SENT_SURE
        other_way += abs(needle) == SENT_SURE - 1 and all(n < 0 for n, _ in named)
        if refusal:
            wrong.append(f"sent left {left}, right {right}: no needle, {refusal}")
        if abs(needle) >= SENT_SURE and any(n <= 0 for n, _ in named):
            wrong.append(f"sent left {left}, right {right}: the needle is {needle}, the formula as sent says otherwise")
        if abs(needle) in least:
            least[abs(needle)] = ends([least[abs(needle)], *named])[0]
        for difference in named:
            error = apart(abs(needle), difference)
            largest_needle = error if below(largest_needle, error) else largest_needle
            if below(SENT_NEEDLE, error):
                wrong.append(f"sent left {left}, right {right}: the needle {needle} is over 0.0028 from the formula as sent")
    if below(largest, (13, 10_000)) or below(largest_needle, (215, 100_000)):
        wrong.append("as sent, no error near the largest there is was met")
    if decided <= len(pairs) // 3 or other_way < 20 or below((9, 10_000), least[SENT_SURE]):
        wrong.append("as sent, too few needles were decided, or too few of 2 named the lighter water, or none of 3 came near to it")
    return wrong, (
        f"as sent, {len(found)} readings and {len(pairs)} pairs ({decided} decided by {SENT_SURE} or more): largest error {in_millionths(largest)},"
        f" largest needle error {in_millionths(largest_needle)}; a needle of {SENT_SURE - 1} names the lighter water in {other_way} pairs,"
        f" the difference down to {in_millionths(least[SENT_SURE - 1])}, for one of {SENT_SURE} down to {in_millionths(least[SENT_SURE])}"
    )


# ---- how much carbon dioxide a water will hold

# The handbook's equation (30): with 100/T, alone, with ln(T/100); then with S times (T/100) to the powers 0, 1, 2. It prints one value for it, and no
# table.
BY_COLD, ALONE, BY_LOG, *BY_SALT = (Fraction(c).as_integer_ratio() for c in "93.4517 -60.2409 23.3585 0.023517 -0.023656 0.0047036".split())
CARBON_PRINTED = 35, 25, "-3.5617"
LN3_TERMS, LOG_TERMS = 40, 12  # the panel has 16 and 4
CARBON = 2, 1_000_000  # proved on the grid
SENT_CARBON = 24, 1_000_000  # measured: half a step of temperature is worth 20, one of salinity 3
CARBON_POINTS, CARBON_SENT = 20_000, 2_000


def plus(*some):
    n, d = 0, 1
    for a in some:
        n, d = n * a[1] + a[0] * d, d * a[1]
    return n, d


def times(*some):
    n, d = 1, 1
    for a in some:
        n, d = n * a[0], d * a[1]
    return n, d


def odd_series(x, count):
    """Twice x + x^3/3 + x^5/5 and on, so many terms: the sum, and the sum with twice the next term, which is more than all that are left out where x
    is not over one half."""
    n, d = x
    common = lcm(*range(1, 2 * count, 2))
    top = sum(n ** (2 * k + 1) * d ** (2 * (count - 1 - k)) * (common // (2 * k + 1)) for k in range(count))
    total = 2 * top, d ** (2 * count - 1) * common
    return total, plus(total, (4 * n ** (2 * count + 1), d ** (2 * count + 1) * (2 * count + 1)))


LN3 = odd_series((1, 2), LN3_TERMS)


def by_equation(salinity, temperature):
    """ln K0 at two fractions, with both sums for the logarithm."""
    kelvin = plus(temperature, (27_315, 100))
    hundreds = times(kelvin, (1, 100))
    apart_from_300 = (kelvin[0] - 300 * kelvin[1], kelvin[0] + 300 * kelvin[1])
    salt = times(salinity, plus(BY_SALT[0], times(BY_SALT[1], hundreds), times(BY_SALT[2], hundreds, hundreds)))
    rest = plus(times(BY_COLD, (hundreds[1], hundreds[0])), ALONE, salt)
    return [plus(rest, times(BY_LOG, plus(ln3, series))) for ln3, series in zip(LN3, odd_series(apart_from_300, LOG_TERMS))]


def solubilities(command, readings):
    """The panel's refusal and ln K0 of each reading as sent, deep and surface in turn, with a pressure that is no number."""
    requests = b"".join(b"o" + struct.pack("<I3f", 1 + i % 2, *reading, float("nan")) for i, reading in enumerate(readings))
    answers = subprocess.run(command, input=requests, stdout=subprocess.PIPE, check=True).stdout
    assert len(answers) == 16 * len(readings)
    return list(struct.iter_unpack("<2q", answers))


def carbon_points(rng):
    """Every whole salinity with every whole degree; seeded points, ends and what is next to them more often."""
    edges = [0, 0, 1, 26_849, 26_850, 26_851, 39_999, 40_000]
    yield from product(range(0, 42_001, 1_000), range(0, 40_001, 1_000))
    for _ in range(CARBON_POINTS):
        yield rng.choice([0, 1, 41_999, 42_000] + [rng.randint(0, 42_000)] * 8), rng.choice(edges + [rng.randint(0, 40_000)] * 24)


def carbon_sent(rng):
    """As far as floats come from the grid, near 0 degrees C above all, where half a step is worth most; and any floats."""
    found = []
    for _ in range(CARBON_SENT):
        s, t = rng.choice([0, 1, 42_000, rng.randint(0, 42_000)]), rng.choice([0, 1, rng.randint(0, 100), rng.randint(0, 40_000)])
        found += product(farthest(s, 0), farthest(t, 1))
    found += [(any_float(rng, 0), any_float(rng, 1)) for _ in range(CARBON_SENT)]
    return [(s, t) for s, t in found if t >= 0]


def millionths_apart(shown, a):
    return abs(shown * a[1] - 1_000_000 * a[0]), 1_000_000 * a[1]


def carbon(command, rng):
    """Lines for what is wrong, and what was met."""
    wrong, met = [], []
    s, t, text = CARBON_PRINTED
    if any(rounded(n * 10**4, d) != Fraction(text) * 10**4 for n, d in by_equation((s, 1), (t, 1))):
        wrong.append(f"the handbook prints {text} for ln K0 at {s}, {t}, the equation gives another")

    points, sent = list(dict.fromkeys(carbon_points(rng))), carbon_sent(rng)
    on = [tuple(nearest(x, place) for place, x in enumerate(point)) for point in points]
    for what, readings, at, within in (
        ("on the grid", on, [((s, 1_000), (t, 1_000)) for s, t in points], CARBON),
        ("as sent", sent, [(s.as_integer_ratio(), t.as_integer_ratio()) for s, t in sent], SENT_CARBON),
    ):
        largest = (0, 1)
        for reading, fractions, (refusal, shown) in zip(readings, at, solubilities(command, readings)):
            errors = [millionths_apart(shown, a) for a in by_equation(*fractions)]
            largest = ends([largest, *errors])[1]
            if refusal or any(below(within, error) for error in errors):
                wrong.append(f"ln K0 {what} at {reading}: refused by {refusal}, or {shown} is over {within[0]} millionths from the equation")
        met.append(f"{len(readings)} {what}, largest error {in_millionths(largest)}")
        if below(largest, (1, 2_000_000)) or (what == "as sent" and below(largest, (22, 1_000_000))):
            wrong.append(f"ln K0 {what}: no error near the largest there is was met")
    return wrong, f"ln K0, in 10^-6: {'; '.join(met)}"


def main():
    command = sys.argv[1:]
    if not command:
        sys.exit("give the command that starts the driver")
    held, wrong = held_to_the_papers()

    rng = random.Random(1981)
    readings = sampled(rng)
    saltier = [step(r, 0, SALINITIES[1]) for r in readings]
    deeper = [step(r, 2, PRESSURES[1]) for r in readings]
    pairs = [(r, neighbour(r, rng)) for r in readings] + list(zip(readings, readings[1:])) + list(hard_pairs(rng))
    levels = [level(pair) for pair in pairs]
    every = sorted({*readings, *(r for some in (saltier, deeper, pairs, levels) for pair in some for r in pair)})
    shown = asked(command, every)

    # Each water once: its shown density against the formula at every root.
    densities, largest, at, water = {}, (0, 1), None, None
    for r in every:  # in order, so that one water's pressures follow each other
        density, bulk = shown[r]
        if r[:2] != at:
            at, water = r[:2], Water((r[0], STEPS[0]), (r[1], STEPS[1]))
        densities[r] = water.all_densities((r[2], STEPS[2]))
        for by_formula in densities[r]:
            error = apart(density, by_formula)
            largest = error if below(largest, error) else largest
            if below(DENSITY, error):
                wrong.append(f"at {r} the panel shows {density}, over 0.0006 from the formula")
        if bulk <= r[2]:
            wrong.append(f"at {r} the bulk modulus is not above the pressure")

    # One step saltier or deeper: never lighter as shown. The formula's step is the least between the true roots' ends.
    least, least_shown = {}, {}
    for name, steps in (("saltier", saltier), ("deeper", deeper)):
        assert steps
        for r, s in steps:
            by_panel = shown[s][0] - shown[r][0]
            if by_panel < 0:
                wrong.append(f"from {r} one step {name} the panel shows a lighter water")
            least_shown[name] = min(by_panel, least_shown.get(name, by_panel))
            for a in densities[r][2:]:
                for b in densities[s][2:]:
                    by_formula = minus(b, a)
                    if name not in least or below(by_formula, least[name]):
                        least[name] = by_formula
        if least[name][0] <= 0:
            wrong.append(f"the formula has a step {name} that is not heavier")

    # Pairs, both waters at the greater pressure: a needle of 2 or more agrees with the formula whichever root each water takes; every
    # needle's size does. So it is enough to try the formula's least and its greatest difference.
    decided, by_two, turned, one_is_few, worst = 0, 0, 0, False, (0, 1)
    for (left, right), (l, r), (refusal, *printed, needle) in zip(pairs, levels, needles(command, [tuple(map(on_grid, pair)) for pair in pairs])):
        if refusal or printed != [shown[left][0], shown[right][0]] or needle != shown[r][0] - shown[l][0]:
            wrong.append(f"left {left}, right {right}: not what the panel says of each water alone: {refusal}, {printed}, {needle}")
        decided += abs(needle) >= SURE
        by_two += abs(needle) == 2
        turned += abs(needle) >= SURE and (printed[1] - printed[0]) * needle < 0
        (low_l, high_l), (low_r, high_r) = ends(densities[l]), ends(densities[r])
        for difference in (minus(low_r, high_l), minus(high_r, low_l)):
            if abs(needle) >= SURE and difference[0] * needle <= 0:
                wrong.append(f"left {left}, right {right}: the needle is {needle}, the formula says otherwise")
            one_is_few |= abs(needle) == 1 and difference[0] * needle < 0
            error = apart(needle, difference)
            worst = error if below(worst, error) else worst
            if below(NEEDLE, error):
                wrong.append(f"left {left}, right {right}: the needle {needle} is over 0.0012 from the formula")
    if decided <= len(pairs) // 2 or by_two <= 1_000 or turned <= 10_000 or not one_is_few:
        wrong.append("too few needles of 2 or more were seen, or none of 1 that the formula turns")

    more, told = as_sent(command, rng, readings)
    wrong += more
    more, told_carbon = carbon(command, rng)
    wrong += more
    for line in wrong[:10]:
        print("sampling:", line)
    print(
        f"sampling: {held} printed values held; {len(readings)} readings and their neighbours, {len(every)} waters, {len(pairs)} pairs"
        f" ({decided} decided, {by_two} of them by 2, {turned} against the printed densities); in 10^-6 kg/m3:"
        f" largest error {in_millionths(largest)},"
        f" smallest salinity step {in_millionths(least['saltier'])} (shown {1_000 * least_shown['saltier']}),"
        f" smallest pressure step {in_millionths(least['deeper'])} (shown {1_000 * least_shown['deeper']}),"
        f" largest needle error {in_millionths(worst)}; {told}; {told_carbon}; {len(wrong)} wrong"
    )
    sys.exit(1 if wrong else 0)


main()
