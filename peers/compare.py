"""compare.py DRIVER..: the panel's densities and needles beside Ferret's and GSW's, as tables.

The waters are grid numbers, drawn with a fixed seed. The panel gets them as floats, the peers as doubles; these take pressures in decibars."""
import random
import struct
import subprocess
import sys

import gsw
import numpy
import pyferret

DRIVER = sys.argv[1:]
RATIO = 35.16504 / 35  # reference salinity to practical salinity
SCALE = 1.00024  # IPTS-68 to ITS-90


def waters():
    """name -> grid numbers"""
    draw = random.Random(1980)
    box = lambda n, s, t, p: [(draw.randint(*s), draw.randint(*t), draw.randint(*p)) for _ in range(n)]
    return {
        "the whole grid": box(20000, (0, 42000), (-2000, 40000), (0, 100000))
        + [(s, t, p) for s in (0, 42000) for t in (-2000, 40000) for p in (0, 100000)],
        "sea: 33 to 36, -2 to 30 °C, to 100 bar": box(10000, (33000, 36000), (-2000, 30000), (0, 10000)),
        "brackish: 0 to 10, 0 to 25 °C, to 10 bar": box(10000, (0, 10000), (0, 25000), (0, 1000)),
        "surface: 0 to 42, -2 to 40 °C": box(10000, (0, 42000), (-2000, 40000), (0, 0)),
        "a hatchery's: 10 to 33, 0 to 25 °C, to 20 bar": box(10000, (10000, 33000), (0, 25000), (0, 2000)),
        "0 to 35, 0 to 30 °C, to 100 bar": box(60000, (0, 35000), (0, 30000), (0, 10000)),
    }


def floats_sent():
    """Readings of a hatchery's waters as probes send them: 32-bit floats that are not on the grid."""
    draw = random.Random(1981)
    reading = lambda: [draw.uniform(10, 33), draw.uniform(0, 25), draw.uniform(0, 20)]
    return [struct.unpack("<3f", struct.pack("<3f", *reading())) for _ in range(20000)]


def ask(letter, request, answer, asked):
    """The driver's answers, as columns."""
    sent = b"".join(letter + struct.pack(request, *numbers) for numbers in asked)
    answered = subprocess.run(DRIVER, input=sent, stdout=subprocess.PIPE, check=True).stdout
    return numpy.array(list(struct.iter_unpack(answer, answered))).T


def deep(*water):
    """A deep report of a probe without a number."""
    return (1, 0, *water)


def channels(waters):
    """Of deep reports: refusals, grid numbers, shown densities, bulk moduli, remarks."""
    return ask(b"c", "<IH3f", "<9q", [deep(*water) for water in waters])


def panel(waters):
    """The panel's shown densities of deep reports, which are three columns; in 0.001 kg/m3."""
    refusals, _, _, _, densities, *_ = channels(list(zip(*waters)))
    assert len(densities) == len(waters[0]) and not any(refusals)
    return densities


def panel_needles(left, right):
    """The panel's needles of such reports."""
    refusals, _, _, needles = ask(b"n", "<IH3fIH3f", "<4q", [(*deep(*l), *deep(*r)) for l, r in zip(zip(*left), zip(*right))])
    assert len(needles) == len(left[0]) and not any(refusals)
    return needles


def ferret(s, t, decibars):
    """Ferret's rho_un, through files of plain text; a NaN goes in as Ferret's own mark for a missing value, which comes out as a NaN."""
    rows = ["%r %r %r" % tuple(-1e34 if x != x else float(x) for x in row) for row in zip(s, t, decibars)]
    with open("target/peers/asked.txt", "w") as out:
        out.write("\n".join(rows) + "\n")
    ferret.calls += 1
    axis, grid = "axis%d" % ferret.calls, "grid%d" % ferret.calls
    for command in ("define axis/x=1:%d:1 %s" % (len(rows), axis), "define grid/x=%s %s" % (axis, grid),
                    'file/grid=%s/columns=3/var="salt,temp,pres" "target/peers/asked.txt"' % grid, "let answer = rho_un(salt, temp, pres)",
                    'list/nohead/quiet/clobber/file="target/peers/answered.txt"/format=(E24.16) answer', "cancel data 1"):
        error, message = pyferret.run(command)
        if error != pyferret.FERR_OK:
            sys.exit("Ferret: " + message)
    values = numpy.array([float(line) for line in open("target/peers/answered.txt")])
    assert len(values) == len(rows)
    return numpy.where(values < -1e33, numpy.nan, values)


ferret.calls = 0


def teos(s, t, decibars, exact):
    """TEOS-10 with temperatures taken as ITS-90; its 75-term density, or the Gibbs function itself."""
    absolute = numpy.asarray(s) * RATIO
    if exact:
        return gsw.rho_t_exact(absolute, t, decibars)
    return gsw.rho(absolute, gsw.CT_from_t(absolute, t, decibars), decibars)


PEERS = {
    "Ferret, EOS-80 in doubles": ferret,
    "TEOS-10, 75 terms, same number of degrees": lambda s, t, p: teos(s, t, p, False),
    "TEOS-10, Gibbs function, same number of degrees": lambda s, t, p: teos(s, t, p, True),
    "TEOS-10, Gibbs function, same warmth": lambda s, t, p: teos(s, numpy.asarray(t) / SCALE, p, True),
}


def main():
    pyferret.start(journal=False, quiet=True, unmapped=True)
    sets = waters()
    print("%d waters; GSW %s\n" % (sum(map(len, sets.values())), gsw.__version__))
    print("| waters | peer | mean of peer - panel | largest | at salinity, °C, bar |")
    print("|---|---|---:|---:|---|")
    worst = 0
    for name, grid in sets.items():
        s, t, bar = (numpy.array(column) for column in zip(*grid))
        s, t, bar = s / 1000, t / 1000, bar / 100
        shown = panel((s, t, bar)) / 1000
        for peer, density in PEERS.items():
            off = density(s, t, 10 * bar) - shown
            far = int(numpy.argmax(abs(off)))
            print("| %s | %s | %+.4f | %+.4f | %g, %g, %g |" % (name, peer, off.mean(), off[far], s[far], t[far], bar[far]))
            if density is ferret:
                worst = max(worst, abs(off[far]))

    # each set at three depths: what lies deeper is raised to the depth and compared with what lies above it. Near pairs are one of each, at most
    # five apart by the panel; only needles of 2 or more say which is heavier. And of all such pairs the greatest needle at which a peer names the
    # other water: from the first one of the other part, by the panel, that the peer has at least as heavy
    print("\n| waters | peer | near pairs with a needle of 2 or more | peer names the other water | of all pairs, at a needle of up to |")
    print("|---|---|---:|---:|---:|")

    def heavier(name, s, t, bar, deepest, peers):
        near, other, most = 0, dict.fromkeys(peers, 0), dict.fromkeys(peers, 0)
        for depth in (deepest / 4, deepest / 2, 3 * deepest / 4):
            at = numpy.full(len(bar), depth)
            shown = panel((s, t, at))
            order = numpy.argsort(shown, kind="stable")
            own, shown, low = numpy.array([s, t, numpy.minimum(bar, depth)])[:, order], shown[order], bar[order] >= depth
            light, heavy = numpy.hstack([numpy.flatnonzero(low[k:] != low[:-k]) + [[0], [k]] for k in range(1, 6)])
            needles = panel_needles(own[:, light], own[:, heavy])
            assert (needles == shown[heavy] - shown[light]).all()
            near += (needles >= 2).sum()
            for peer in peers:
                density = PEERS[peer](own[0], own[1], 10 * at)
                other[peer] += ((needles >= 2) & (density[heavy] <= density[light])).sum()
                for part in (low, ~low):
                    first = numpy.searchsorted(numpy.maximum.accumulate(numpy.where(part, density, 0)), density[~part])
                    most[peer] = max(most[peer], (shown[~part] - shown[numpy.minimum(first, len(shown) - 1)]).max())
        for peer in peers:
            print("| %s | %s | %d | %d | %s |" % (name, peer, near, other[peer], most[peer] if most[peer] >= 2 else ""))

    for name, deepest in ((list(sets)[1], 100), (list(sets)[4], 20), (list(sets)[5], 100)):
        s, t, bar = (numpy.array(column) for column in zip(*sets[name]))
        heavier(name, s / 1000, t / 1000, bar / 100, deepest, PEERS)

    # what the rounding of the input adds: the same waters as floats, the peer at the floats themselves
    sent = [numpy.array(column) for column in zip(*floats_sent())]
    first = list(PEERS)[0]
    heavier("a hatchery's, as sent", *sent, 20, [first])
    off = PEERS[first](sent[0], sent[1], 10 * sent[2]) - panel(sent) / 1000
    print("\nA hatchery's waters as sent, %s at the floats: %.6f kg/m3 at most" % (first, abs(off).max()))

    print("\n| asked | panel | Ferret | TEOS-10, 75 terms | TEOS-10, Gibbs function |")
    print("|---|---|---:|---:|---:|")
    nan = float("nan")
    for what, s, t in (("salinity 50, 10 °C", 50.0, 10.0), ("salinity 35, 200 °C", 35.0, 200.0), ("salinity 35, temperature a NaN", 35.0, nan), ("salinity a NaN, 10 °C", nan, 10.0)):
        peers = [density([s], [t], [0.0])[0] for density in list(PEERS.values())[:3]]
        print("| %s | refusal %d | " % (what, channels([(s, t, 0)])[0][0]) + " | ".join("%.3f" % value for value in peers) + " |")

    print("\nFerret's EOS-80 and the panel: %.6f kg/m3 at most" % worst)
    sys.exit(1 if worst > 0.0006 else 0)


main()
