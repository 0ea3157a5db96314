"""seeds.py FOLDER: the streams that the fuzzer starts from: SPEC's example, each kind of record, each refusal of one, each remark, probe numbers."""
import os
import struct
import sys


def record(kind, body=b"", length=None):
    return struct.pack("<HH", len(body) if length is None else length, kind) + body


def deep(*floats, probe=None):
    return record(1, struct.pack("<3f", *floats)) if probe is None else record(17, struct.pack("<H3f", probe, *floats))


def surface(*floats, probe=None):
    return record(2, struct.pack("<2f", *floats)) if probe is None else record(18, struct.pack("<H2f", probe, *floats))


def missing(probe):
    return record(19, struct.pack("<H", probe))


MISSING = record(3)
SEEDS = {
    "empty": b"",
    "example": surface(0, 5) + surface(35, 5) + MISSING + surface(0, 5),
    "deep": deep(35, 5, 1000) + deep(0, 25, 0),
    "depths": deep(35, 5, 9) + deep(35, 5, 0.4) + surface(35, 5) + deep(0, 25, 9),
    "half-steps": deep(41.5695, 39.9095, 0.4) + deep(41.5465, 39.8685, 5) + deep(41.9575, 39.9585, 0.595) + surface(41.9935, 39.9025),
    # on the grid; below and above; halves; next to zero
    "remarks": deep(35.125, -1.125, 0.25) + deep(33.92, 7.64, 4.03) + deep(0.0625, -0.0625, 0.125) + deep(1e-45, -1e-45, 1e-45),
    "surface": surface(35, 25) + surface(0, 25),
    "missing": MISSING + MISSING,
    "not-a-number": deep(35, float("nan"), 10) + surface(float("inf"), 5),
    "outside": deep(43, 5, 10) + deep(35, 41, 10) + deep(35, 5, 1001) + surface(-1, 5),
    "ends": deep(42, -2, 0) + deep(0, 40, 1000),
    "cold": surface(35, -1) + deep(35, -0.0, 10) + surface(35, -0.0004) + deep(42, 40, 0),
    "no-depth": deep(35, 25, float("nan")) + deep(35, 25, float("inf")) + deep(35, 5, 1001) + deep(35, -1, -1),
    # where ln K0 hangs on the last term of ln 3, the last of the series, a half, a product rounded down
    "last-units": surface(13.767, 33.361) + surface(1.124, 1.754) + surface(11.97, 30.581) + surface(26.487, 25.447),
    "no-such-kind": record(4, b"abcd") + surface(35, 5),
    "wrong-length": record(1, b"abcd") + record(3, b"a"),
    "cut-head": surface(35, 5) + b"\x08\x00",
    "cut-body": surface(35, 5) + record(1, b"abcd", 12),
    "odd": surface(35, 5),
    # one probe on both sides, and swapped; two that differ in a byte, or in its place; no number on both sides, and on one
    "one-probe": deep(35, 5, 100, probe=513) + surface(0, 25, probe=513) + surface(0, 25, probe=513) + deep(35, 5, 100, probe=513),
    "two-probes": surface(35, 5, probe=513) + surface(35, 25, probe=258) + surface(35, 5, probe=1) + surface(35, 25, probe=257),
    "high-bytes": surface(35, 5, probe=256) + surface(35, 25, probe=512) + surface(35, 5, probe=65535) + surface(35, 25, probe=65535),
    "no-numbers": surface(35, 5, probe=0) + surface(35, 25, probe=0) + surface(35, 5, probe=513) + surface(35, 25),
    # of one probe a side is missing or refused
    "one-refused": missing(513) + surface(35, 5, probe=513) + deep(35, 5, 100, probe=513) + surface(35, 41, probe=513) + missing(513) + missing(513),
    # each numbered kind with the length of its old one, and the other way round
    "lengths": b"".join(record(kind, b"abcdefghijklmn"[:n]) for kind, n in ((17, 12), (18, 8), (19, 0), (1, 14), (2, 10), (3, 2))),
    "kinds-beside": b"".join(record(kind, b"ab") for kind in (16, 20, 33, 273)),
    "cut-number": surface(35, 5, probe=513) + record(19, b"a", 2),
}

folder = sys.argv[1]
os.makedirs(folder, exist_ok=True)
for name, stream in SEEDS.items():
    with open(os.path.join(folder, name), "wb") as out:
        out.write(stream)
