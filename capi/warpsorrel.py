"""Warpsorrel's panel: which of two waters is heavier, and by how much; and how much carbon dioxide a water will hold.

    from warpsorrel import Panel, Report

    panel = Panel()
    needle = panel.needle(Report.surface(28.5, 12.25), Report.deep(34.25, 7.5, 4))
    if needle.refusal:
        print("no needle:", needle.refusal.reason)
    else:
        print("right minus left:", needle.value / 1000, "kg/m3")

    co2 = panel.co2(Report.surface(28.5, 12.25))
    if co2.refusal:
        print("no K0:", co2.refusal.reason)
    else:
        print("K0:", math.exp(co2.value / 1e6), "mol/(kg atm)")

The module loads libwarpsorrel.so, which capi/build makes, and needs Python 3.9 or later and nothing else. Every call answers every value: bad
input is refused by number (Refusal), so that nothing has to be checked first. An exception is a fault of the program: a value that is no
number or no bytes (TypeError), a whole number that its C type does not hold (OverflowError; nothing comes round).

A reading is practical salinity, temperature in degrees C and pressure in bar above the atmosphere. Its floats go to the panel as 32-bit ones, as
a probe sends them: the nearest, and one too large for that becomes an infinity. The panel then puts them on a grid of whole numbers:

    sigma    salinity in 0.001                              0 to 42,000
    tau      temperature in 0.001 degrees C                 -2,000 to 40,000
    pi       pressure above the atmosphere in 0.01 bar      0 to 100,000
    density  in 0.001 kg/m3, at that pressure
    bulk     secant bulk modulus in 0.01 bar, rounded down

Each float of an accepted reading has a Remark: whether the 32-bit float, not Python's own, lies below, on or above its grid point. Only multiples of
1/8 can be on it, of a pressure multiples of 1/4: 35 is, and the 32-bit float nearest to 5.1 lies below.

A report may carry the number of its probe, 1 to 65,535, so that one probe in both sockets is noticed. The needle is refused then, and both densities
are given all the same; nothing else depends on the number:

    same = panel.needle(Report.surface(28.5, 12.25, probe=17), Report.deep(34.25, 7.5, 4, probe=17))
    print(same.left, same.right, same.refusal.reason)    # 1021502 1026941 both sides have the same probe number, other than 0

Threads may share a Panel: it keeps nothing between calls.
"""
from __future__ import annotations

import ctypes
import os
import platform
from ctypes import POINTER, c_char_p, c_float, c_int64, c_size_t, c_uint16, c_uint32, c_uint64
from enum import IntEnum
from operator import index
from pathlib import Path
from types import SimpleNamespace
from typing import Any, NamedTuple, Optional, SupportsIndex, Union

__all__ = [
    "VERSION", "LINE", "PAGE", "Stream", "Kind", "Refusal", "Co2Refusal", "Root", "Report", "Remark", "Remarks", "Channel", "Co2", "Needle",
    "Side", "Pair", "Written", "LibraryError", "Panel",
]

VERSION = 4
"""The version of the C ABI that this module was written for."""

LINE = 32
"""The least room for a line, in bytes."""

PAGE = 118_916
"""The least room for a page, and the longest page there is, in bytes."""

Stream = Union[bytes, bytearray, memoryview]
"""A probe's records, as docs/FORMAT.md has them."""


class Kind(IntEnum):
    """What a report is. A numbered kind is that of a record which carries its probe's number; to the panel it means the same as the kind without
    NUMBERED, since the number stands in the report. The last three stand for a record that gave no reading; no record has them."""

    DEEP = 1  # salinity, temperature and pressure
    SURFACE = 2  # salinity and temperature; the pressure is taken as 0
    MISSING = 3  # the probe is missing
    NUMBERED_DEEP = 17  # the probe's number, and what DEEP has
    NUMBERED_SURFACE = 18  # the probe's number, and what SURFACE has
    NUMBERED_MISSING = 19  # the probe's number alone
    CUT = 65_542  # refused by 6
    UNKNOWN = 65_543  # refused by 7, as is every kind that is not listed here
    LENGTH = 65_544  # refused by 8


class Refusal(IntEnum):
    """Why something is refused: the number that the panel answers, and its words in `reason`. NONE is false, every other one is true.

    Of several the first of 6, 7, 8, 1, 2, 3, 4, 5 is answered. A needle's number is 100 plus the left's or, if only the right is refused,
    200 plus the right's or, if neither is, SAME_PROBE where both have the same probe number, other than 0. ROOM and PAIR_NUMBER are for a line or a
    page that is not written.
    """

    NONE = 0
    MISSING = 1
    NOT_FINITE = 2
    SALINITY = 3
    TEMPERATURE = 4
    PRESSURE = 5
    CUT = 6
    KIND = 7
    LENGTH = 8
    ROOM = 30
    PAIR_NUMBER = 31
    SAME_PROBE = 32
    LEFT_MISSING = 101
    LEFT_NOT_FINITE = 102
    LEFT_SALINITY = 103
    LEFT_TEMPERATURE = 104
    LEFT_PRESSURE = 105
    LEFT_CUT = 106
    LEFT_KIND = 107
    LEFT_LENGTH = 108
    RIGHT_MISSING = 201
    RIGHT_NOT_FINITE = 202
    RIGHT_SALINITY = 203
    RIGHT_TEMPERATURE = 204
    RIGHT_PRESSURE = 205
    RIGHT_CUT = 206
    RIGHT_KIND = 207
    RIGHT_LENGTH = 208

    @property
    def side(self) -> Optional[str]:
        """The side that refuses a needle, "left" or "right"; None for SAME_PROBE, where neither does, and for a refusal that is not a needle's."""
        return {1: "left", 2: "right"}.get(self // 100)

    @property
    def cause(self) -> Refusal:
        """What that side's own channel answers, such as SALINITY for RIGHT_SALINITY; itself for a refusal that has no side."""
        return Refusal(self % 100)

    @property
    def reason(self) -> str:
        """The refusal in words, such as "missing" or "left: missing"."""
        words = _REASONS[self.cause]
        return f"{self.side}: {words}" if self.side else words


_REASONS = {
    Refusal.NONE: "not refused",
    Refusal.MISSING: "missing",
    Refusal.NOT_FINITE: "a NaN or an infinity",
    Refusal.SALINITY: "the salinity is not from 0 to 42",
    Refusal.TEMPERATURE: "the temperature is not from -2 to 40 degrees C",
    Refusal.PRESSURE: "the pressure is not from 0 to 1,000 bar",
    Refusal.CUT: "the record is cut short",
    Refusal.KIND: "the kind is none of 1, 2, 3, 17, 18, 19",
    Refusal.LENGTH: "the length is not the kind's own",
    Refusal.ROOM: "the room is too small",
    Refusal.PAIR_NUMBER: "the pair number is not from 1 to 9,999",
    Refusal.SAME_PROBE: "both sides have the same probe number, other than 0",
}


class Co2Refusal(IntEnum):
    """Why a ln K0 is refused: Refusal's numbers, and its words but for TEMPERATURE, whose range is another one here. The pressure is not read, so
    that it refuses nothing."""

    NONE = 0
    MISSING = 1
    NOT_FINITE = 2
    SALINITY = 3
    TEMPERATURE = 4
    CUT = 6
    KIND = 7
    LENGTH = 8

    @property
    def reason(self) -> str:
        """The refusal in words."""
        return "the temperature is not from 0 to 40 degrees C" if self is Co2Refusal.TEMPERATURE else Refusal(self).reason


class Root(NamedTuple):
    """The root that every density of a salinity uses, and a line of its search on paper (docs/ROOT.md). Every number is 0 if it is refused.

    root    the greatest whole number whose square is at most sigma times 100,000, whatever the line
    bit     the line's trial bit; 0 where the search is over
    rest    the line's rest
    so_far  the line's root so far, which is `root` where the search is over
    """

    refusal: Refusal
    root: int
    bit: int
    rest: int
    so_far: int


class Report(NamedTuple):
    """What a probe says, or what stands for a record that gave no reading: `Report(Kind.CUT)`.

    kind         a Kind; every other number is refused by 7
    salinity     practical salinity, accepted from 0 to 42
    temperature  degrees C, accepted from -2 to 40; by Panel.co2 from 0 to 40
    pressure     bar above the atmosphere, accepted from 0 to 1,000; read where the kind is DEEP or NUMBERED_DEEP, and not by Panel.co2
    probe        the probe's number, 0 to 65,535; 0 for a probe without one. It counts whichever kind the report has: DEEP with 17 here and
                 NUMBERED_DEEP with it are the same to the panel
    """

    kind: int
    salinity: float = 0.0
    temperature: float = 0.0
    pressure: float = 0.0
    probe: int = 0

    @classmethod
    def deep(cls, salinity: float, temperature: float, pressure: float, *, probe: int = 0) -> Report:
        """A reading of practical salinity, temperature in degrees C and pressure in bar above the atmosphere."""
        return cls(Kind.DEEP, salinity, temperature, pressure, probe)

    @classmethod
    def surface(cls, salinity: float, temperature: float, *, probe: int = 0) -> Report:
        """A reading of practical salinity and temperature in degrees C, at a pressure of 0 bar above the atmosphere."""
        return cls(Kind.SURFACE, salinity, temperature, probe=probe)

    @classmethod
    def missing(cls, *, probe: int = 0) -> Report:
        """No reading: the probe is missing."""
        return cls(Kind.MISSING, probe=probe)


class Remark(IntEnum):
    """Where the exact value of a 32-bit float lies, seen from its grid point. It prints as its word; its number is the C ABI's. A float halfway between
    two grid points goes to the upper one, so that it is BELOW; minus zero is ON. Of two floats with one grid number, the greater remark is the greater
    float's."""

    BELOW = 1
    ON = 2
    ABOVE = 3

    @property
    def word(self) -> str:
        """The remark as a word: "below", "on" or "above"."""
        return self.name.lower()

    def __str__(self) -> str:
        return self.word

    def __format__(self, how: str) -> str:
        return format(int(self) if how.endswith("d") else self.word, how)


class Remarks(NamedTuple):
    """The remarks of an accepted reading. A surface reading's pressure is always ON: its float is not read."""

    salinity: Remark
    temperature: Remark
    pressure: Remark


class Channel(NamedTuple):
    """One water. Every number is 0 if it is refused, and it has no remarks.

    sigma, tau, pi  the reading as it was put on the grid: salinity in 0.001, temperature in 0.001 degrees C, pressure in 0.01 bar
    density         in 0.001 kg/m3; within 0.0014 kg/m3 of the published formula at the floats as sent, 0.0006 on the grid
    bulk            secant bulk modulus in 0.01 bar, rounded down
    remarks         whether the 32-bit floats of salinity, temperature and pressure lie below, on or above sigma, tau and pi; None if refused
    """

    refusal: Refusal
    sigma: int
    tau: int
    pi: int
    density: int
    bulk: int
    remarks: Optional[Remarks]


class Co2(NamedTuple):
    """How much carbon dioxide a water will hold.

    value  ln K0 of Weiss (1974) in millionths, within 2 of the published equation at sigma and tau; K0, in mol/(kg atm), is
           math.exp(value / 1e6). 0 if refused
    """

    refusal: Co2Refusal
    value: int


class Needle(NamedTuple):
    """Two waters compared.

    refusal      NONE, a side's, or SAME_PROBE where one probe is on both sides
    left, right  their densities in 0.001 kg/m3, each at its own pressure; 0 for one that is refused. At SAME_PROBE both are given
    value        right minus left in 0.001 kg/m3, both waters at the greater of the two pressures, plus where the right is heavier; 0 if refused.
                 3 or more, either way, names the heavier of the two waters as they were sent (2 does so on the grid); below that take them for
                 alike. Where the pressures differ, it need not be the difference of `left` and `right`
    """

    refusal: Refusal
    left: int
    right: int
    value: int


class Side(NamedTuple):
    """One water of a pair: density in 0.001 kg/m3, secant bulk modulus in 0.01 bar, rounded down; both 0 if it is refused."""

    refusal: Refusal
    density: int
    bulk: int


class Pair(NamedTuple):
    """A pair of a stream, each side at its own pressure; `needle` is right minus left in 0.001 kg/m3, both waters at the greater of the two
    pressures, plus where the right is heavier, and 0 if it is refused. Where SAME_PROBE refuses it, both sides are given."""

    left: Side
    right: Side
    needle_refusal: Refusal
    needle: int


class Written(NamedTuple):
    """A line or a page; the text is empty if it is refused."""

    refusal: Refusal
    text: str


class LibraryError(Exception):
    """The shared library is missing, cannot be loaded, or is of another version than this module."""


# What each call answers, then what it takes: capi/warpsorrel.h.
_FLOATS = (c_float, c_float, c_float)
_REPORT = (c_uint32, c_uint16, *_FLOATS)
_BYTES = (c_char_p, c_size_t)
_CALLS: dict[str, tuple[Any, ...]] = {
    "version": (c_uint32,),
    "refusal": (c_uint32, c_int64, c_int64, c_int64),
    "density": (c_uint32, c_int64, c_int64, c_int64),
    "bulk": (c_uint32, c_int64, c_int64, c_int64),
    "root": (c_uint32, c_int64, c_uint32, POINTER(c_uint64 * 4)),
    "channel": (c_uint32, *_REPORT, POINTER(c_int64 * 8)),
    "co2": (c_uint32, c_uint32, *_FLOATS, POINTER(c_int64)),
    "needle": (c_uint32, *_REPORT, *_REPORT, POINTER(c_int64 * 3)),
    "recorder": (c_float, c_uint32),
    "line": (c_uint32, c_uint32, *_REPORT, *_REPORT, *_BYTES, POINTER(c_size_t)),
    "pairs": (c_size_t, *_BYTES),
    "pair": (c_uint32, *_BYTES, c_size_t, POINTER(c_int64 * 8)),
    "page": (c_uint32, *_BYTES, *_BYTES, POINTER(c_size_t)),
}


def _found(path: Union[str, os.PathLike[str], None]) -> str:
    """The file of the shared library, with its folders, so that the system looks for it nowhere else."""
    name, here = "libwarpsorrel.so", Path(__file__).resolve().parent
    named = os.environ.get("WARPSORREL_LIBRARY")
    if path is not None:
        places, by = [Path(path)], ", as Panel was told"
    elif named:
        places, by = [Path(named)], ", as WARPSORREL_LIBRARY says"
    else:
        places, by = [here / name, here.parent / "target" / "capi" / name], ""
    for place in places:
        if place.is_file():
            return os.path.abspath(place)
    raise LibraryError(
        f"no shared library at {' or '.join(map(str, places))}{by}: capi/build makes one;"
        " for one in another place set WARPSORREL_LIBRARY or give its path to Panel"
    )


def _loaded(place: str) -> SimpleNamespace:
    """The calls of the shared library, if it is of this module's version."""
    try:
        library = ctypes.CDLL(place)
    except OSError as error:
        machine = platform.machine()
        why = "" if machine in ("x86_64", "AMD64") else f"; the library's code is x86-64's, and this machine is {machine}"
        raise LibraryError(f"cannot load {place}: {error}{why}") from error
    calls = SimpleNamespace()
    for name, (result, *arguments) in _CALLS.items():
        try:
            call = library[f"warpsorrel_{name}"]
        except AttributeError:
            raise LibraryError(
                f"{place} has no call warpsorrel_{name}: it is older than this module, which was written for version {VERSION}, or not Warpsorrel's"
            ) from None
        call.restype, call.argtypes = result, arguments
        setattr(calls, name, call)
        if name == "version" and call() != VERSION:  # the first of them, before anything else is taken for granted
            raise LibraryError(f"{place} is of version {call()}, and this module was written for version {VERSION}: take both from one copy")
    return calls


def _whole(what: str, value: SupportsIndex, least: int, most: int) -> int:
    """A whole number that its C type holds: ctypes would cut off what does not fit."""
    number = index(value)
    if not least <= number <= most:
        raise OverflowError(f"{what} is {number}, and the panel takes {least} to {most}")
    return number


def _signed(what: str, value: SupportsIndex) -> int:
    return _whole(what, value, -(2**63), 2**63 - 1)


def _unsigned(what: str, value: SupportsIndex) -> int:
    return _whole(what, value, 0, 2**32 - 1)


def _parts(report: Report) -> tuple[int, int, c_float, c_float, c_float]:
    kind, salinity, temperature, pressure, probe = report
    return _unsigned("kind", kind), _whole("probe", probe, 0, 2**16 - 1), c_float(salinity), c_float(temperature), c_float(pressure)


def _bytes(stream: Stream) -> bytes:
    return stream if isinstance(stream, bytes) else memoryview(stream).tobytes()


class Panel:
    """The panel, in the shared library at `path` or, without one, at WARPSORREL_LIBRARY of the environment or, where that is not set, next to
    this module or in target/capi, where capi/build leaves it.

    path     the file that was loaded
    version  the version that it answers, which is this module's VERSION

    LibraryError says what is wrong with a library that is missing, cannot be loaded or is of another version.
    """

    path: str
    version: int

    def __init__(self, path: Union[str, os.PathLike[str], None] = None) -> None:
        self.path = _found(path)
        self._calls = _loaded(self.path)
        self.version = int(self._calls.version())

    # ---- grid numbers

    def refusal(self, sigma: SupportsIndex, tau: SupportsIndex, pi: SupportsIndex) -> Refusal:
        """NONE, SALINITY, TEMPERATURE or PRESSURE, of salinity in 0.001, temperature in 0.001 degrees C, pressure in 0.01 bar."""
        return Refusal(self._calls.refusal(_signed("sigma", sigma), _signed("tau", tau), _signed("pi", pi)))

    def density(self, sigma: SupportsIndex, tau: SupportsIndex, pi: SupportsIndex) -> int:
        """The density in 0.001 kg/m3, of salinity in 0.001, temperature in 0.001 degrees C, pressure in 0.01 bar; 0 if refused."""
        return int(self._calls.density(_signed("sigma", sigma), _signed("tau", tau), _signed("pi", pi)))

    def bulk(self, sigma: SupportsIndex, tau: SupportsIndex, pi: SupportsIndex) -> int:
        """The secant bulk modulus in 0.01 bar, rounded down, of the same three numbers as `density`; 0 if refused."""
        return int(self._calls.bulk(_signed("sigma", sigma), _signed("tau", tau), _signed("pi", pi)))

    def root(self, sigma: SupportsIndex, trials: SupportsIndex) -> Root:
        """The root of salinity in 0.001, and the line of its search after so many trials. Refused by SALINITY alone. 16 trials are enough for every
        salinity, and more change nothing."""
        out = (c_uint64 * 4)()
        refusal = self._calls.root(_signed("sigma", sigma), _unsigned("trials", trials), out)
        return Root(Refusal(refusal), *out)

    def root_lines(self, sigma: SupportsIndex) -> list[Root]:
        """The lines of that search, one after the other: the first one, then one for each trial, up to the one whose trial bit is 0. So line i is
        `root(sigma, i)`. No line if refused, and `root` says why; a salinity that is not refused has at least one, and at most 17."""
        lines = [self.root(sigma, 0)]
        while lines[-1].bit:
            lines.append(self.root(sigma, len(lines)))
        return [] if lines[0].refusal else lines

    # ---- reports

    def channel(self, report: Report) -> Channel:
        """What the panel makes of one report; the same for every probe number."""
        out = (c_int64 * 8)()
        refusal = self._calls.channel(*_parts(report), out)
        return Channel(Refusal(refusal), *out[:5], None if refusal else Remarks(*map(Remark, out[5:])))

    def co2(self, report: Report) -> Co2:
        """How much carbon dioxide the water of one report will hold. Its pressure is not read, and its probe's number changes nothing."""
        out = c_int64()
        kind, _, *floats = _parts(report)
        refusal = self._calls.co2(kind, *floats, ctypes.byref(out))
        return Co2(Co2Refusal(refusal), out.value)

    def needle(self, left: Report, right: Report) -> Needle:
        """Two reports compared: right minus left in 0.001 kg/m3, both waters at the greater of the two pressures. Refused by a side's refusal, or by
        SAME_PROBE where both have the same probe number, other than 0."""
        out = (c_int64 * 3)()
        refusal = self._calls.needle(*_parts(left), *_parts(right), out)
        return Needle(Refusal(refusal), *out)

    def recorder(self, shown: SupportsIndex) -> float:
        """The recorder's 32-bit float in kg/m3 of a density in 0.001 kg/m3: shown / 1000 below 16,384,000, else 0."""
        return float(self._calls.recorder(_unsigned("shown", shown)))

    def line(self, number: SupportsIndex, left: Report, right: Report, room: int = LINE) -> Written:
        """The sheet's line of two reports: pair number, both densities and the needle in 0.001 kg/m3, as `needle` gives them, a line feed. A
        refused place shows R and its number. Refused itself by ROOM for a room under LINE bytes, then by PAIR_NUMBER for a number that is not
        from 1 to 9,999."""
        room = _whole("room", room, 0, 2**63 - 1)
        out, count = ctypes.create_string_buffer(room), c_size_t()
        refusal = self._calls.line(_unsigned("number", number), *_parts(left), *_parts(right), out, room, ctypes.byref(count))
        return Written(Refusal(refusal), out.raw[: count.value].decode("ascii"))

    # ---- streams

    def pairs(self, stream: Stream) -> int:
        """How many pairs a stream has."""
        stream = _bytes(stream)
        return int(self._calls.pairs(stream, len(stream)))

    def pair(self, stream: Stream, before: SupportsIndex) -> Optional[Pair]:
        """The pair of a stream with so many pairs before it (0 for the sheet's pair 1); None where the stream has no such pair."""
        stream, out = _bytes(stream), (c_int64 * 8)()
        if not self._calls.pair(stream, len(stream), _whole("before", before, 0, 2**64 - 1), out):
            return None
        left, right = (Side(Refusal(out[at]), out[at + 1], out[at + 2]) for at in (0, 3))
        return Pair(left, right, Refusal(out[6]), out[7])

    def page(self, stream: Stream, room: int = PAGE) -> Written:
        """The page of a stream: a header and a line for each pair, as the program sheet prints it; "too long" for one over 60,000 bytes.
        Refused by ROOM for a room under PAGE bytes."""
        stream = _bytes(stream)
        room = _whole("room", room, 0, 2**63 - 1)
        out, count = ctypes.create_string_buffer(room), c_size_t()
        refusal = self._calls.page(stream, len(stream), out, room, ctypes.byref(count))
        return Written(Refusal(refusal), out.raw[: count.value].decode("ascii"))
