"""Two waters compared, from Python: every call of warpsorrel.py once or more. It prints capi/expected.

python3 example.py [SHARED-LIBRARY]"""
import struct
import sys
from math import exp

from warpsorrel import LINE, PAGE, Kind, Panel, Refusal, Report, Written


def tell(refusal: Refusal) -> None:
    if refusal:
        print(f"  {refusal:d}: {refusal.reason}")


def show_grid(panel: Panel, sigma: int, tau: int, pi: int) -> None:
    refusal, density, bulk = panel.refusal(sigma, tau, pi), panel.density(sigma, tau, pi), panel.bulk(sigma, tau, pi)
    print(f"grid {sigma} {tau} {pi}: refusal {refusal:d}, density {density}, bulk modulus {bulk}")
    tell(refusal)


def show_root(panel: Panel, sigma: int, trials: int) -> None:
    r = panel.root(sigma, trials)
    numbers = f"root {r.root}, trial bit {r.bit}, rest {r.rest}, root so far {r.so_far}"
    print(f"root of {sigma}, trials {trials}: refusal {r.refusal:d}, {numbers}")
    tell(r.refusal)


def show_channel(panel: Panel, name: str, report: Report) -> None:
    c = panel.channel(report)
    numbers = f"grid {c.sigma} {c.tau} {c.pi}, density {c.density}, bulk modulus {c.bulk}"
    remarks = " ".join(map(str, c.remarks)) if c.remarks else "none none none"
    print(f"{name}: refusal {c.refusal:d}, {numbers}, remarks {remarks}")
    tell(c.refusal)


def show_co2(panel: Panel, name: str, report: Report) -> None:
    c = panel.co2(report)
    print(f"co2 of {name}: refusal {c.refusal:d}, ln K0 {c.value}")
    print(f"  {c.refusal:d}: {c.refusal.reason}" if c.refusal else f"  K0 is {exp(c.value / 1e6):.6f} mol/(kg atm)")


def show_needle(panel: Panel, left_name: str, left: Report, right_name: str, right: Report) -> None:
    n = panel.needle(left, right)
    print(f"needle of {left_name}, {right_name}: refusal {n.refusal:d}, densities {n.left} {n.right}, needle {n.value}")
    tell(n.refusal)


def show_recorder(panel: Panel, shown: int) -> None:
    value = panel.recorder(shown)
    print(f"recorder {shown}: {value:.3f}, bits {struct.pack('>f', value).hex()}")


def show_written(what: str, room: int, written: Written) -> None:
    print(f"{what} in a room of {room}: refusal {written.refusal:d}, {len(written.text)} bytes")
    print(written.text, end="")
    tell(written.refusal)


def show_pair(panel: Panel, stream: bytes, before: int) -> None:
    pair = panel.pair(stream, before)
    if pair is None:
        print(f"pair with {before} before it: none")
        return
    left, right = (f"{side.refusal:d} {side.density} {side.bulk}" for side in (pair.left, pair.right))
    print(f"pair with {before} before it: left {left}, right {right}, needle {pair.needle_refusal:d} {pair.needle}")
    tell(pair.needle_refusal)


def show_stream(panel: Panel, stream: bytes) -> None:
    pairs = panel.pairs(stream)
    print(f"stream of {len(stream)} bytes: {pairs} pairs")
    for before in range(pairs + 1):
        show_pair(panel, stream, before)
    show_written("page", PAGE, panel.page(stream, PAGE))


def main(panel: Panel) -> None:
    print(f"version {panel.version}")
    show_grid(panel, 35_000, 25_000, 100_000)
    show_grid(panel, 42_001, 25_000, 100_000)
    last = len(panel.root_lines(35_000)) - 1  # the trials that its search takes
    for sigma, trials in ((35_000, 0), (35_000, 1), (35_000, last), (12_345, 16), (0, 0), (42_001, 16)):
        show_root(panel, sigma, trials)

    fjord = ("fjord", Report.surface(28.5, 12.25))
    deep = ("deep", Report.deep(34.25, 7.5, 4))
    shallow = ("shallow", Report.deep(34.25, 7.5, 0.4))  # the deep one's water
    brine = ("brine", Report.deep(42.25, 7.5, 4))
    none = ("none", Report.missing())
    broken = ("broken", Report.surface(float("nan"), 7.5))
    hot = ("hot", Report.surface(34.25, 40.5))
    abyss = ("abyss", Report.deep(34.25, 7.5, 1_000.5))
    frost = ("frost", Report.surface(34.25, -1))
    blind = ("blind", Report.deep(34.25, 7.5, float("nan")))  # the deep one's water, its depth not known
    # Off the grid: no 32-bit float is just 5.1, 33.9 or -1.1, and 0.004 bar goes to 0.00. A surface's pressure is not read: it is on.
    bench = ("bench", Report.deep(35, 5.1, 0.004))
    winter = ("winter", Report(Kind.SURFACE, 33.9, -1.1, float("nan")))
    # Numbered probes: the fjord's water and the deep one's again, whose channels do not depend on the number; probe 17 in the other's place as well;
    # and probe 17 does not answer. A record that carries the number has a kind of its own, which says the same.
    upper = ("upper", Report.surface(28.5, 12.25, probe=17))
    lower = ("lower", Report.deep(34.25, 7.5, 4, probe=18))
    twice = ("twice", Report(Kind.NUMBERED_DEEP, 34.25, 7.5, 4, probe=17))
    lost = ("lost", Report.missing(probe=17))
    # Records that gave no reading have a channel, and a place on a line, too.
    cut, unknown, length = ("cut", Report(Kind.CUT)), ("unknown", Report(Kind.UNKNOWN)), ("length", Report(Kind.LENGTH))
    every = fjord, deep, none, broken, brine, hot, abyss, frost, blind, bench, winter, upper, lower, twice, lost, cut, unknown, length
    for each in every:
        show_channel(panel, *each)
    # The frost has a density and no ln K0; the abyss and the blind one, whose pressures are refused, have the deep one's ln K0 and no density.
    for each in every:
        show_co2(panel, *each)
    for left, right in ((fjord, deep), (deep, fjord), (shallow, deep), (fjord, brine), (none, deep)):
        show_needle(panel, *left, *right)
    # Two probes, and one in both sockets: no needle, and both densities all the same. A side that is refused comes first.
    for left, right in ((upper, lower), (upper, twice), (lost, twice)):
        show_needle(panel, *left, *right)
    show_recorder(panel, panel.channel(deep[1]).density)
    show_recorder(panel, 16_384_000)

    lines = (1, fjord, deep, LINE), (9_999, deep, fjord, LINE), (2, fjord, cut, LINE), (3, length, deep, LINE), (4, unknown, none, LINE)
    numbered = (5, upper, lower, LINE), (6, upper, twice, LINE)
    refused = (1, fjord, deep, LINE - 1), (10_000, fjord, deep, LINE), (0, fjord, deep, LINE)
    for number, left, right, room in lines + numbered + refused:
        show_written(f"line {number} of {left[0]}, {right[0]}", room, panel.line(number, left[1], right[1], room))

    stream = bytes.fromhex("08000200000000000000A0400800020000000C420000A0400000030008000200000000000000A040")
    show_stream(panel, stream)
    show_written("page", PAGE - 1, panel.page(stream, PAGE - 1))

    # Records with a probe's number: 513 in both sockets, then 513 and 514, then 513 missing.
    same = "0A0012000102000000000000A0400A001200010200000C420000A040"
    different = "0A0012000102000000000000A0400A001200020200000C420000A040"
    missing = "0200130001020E001100020200000C420000A0400000C842"
    show_stream(panel, bytes.fromhex(same + different + missing))


if __name__ == "__main__":
    main(Panel(*sys.argv[1:2]))
