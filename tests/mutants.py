#!/usr/bin/env python3
"""Holds tests/calls.py to its task: each fault of tests/mutants.c has to be found, and none where there is none.

    python3 tests/mutants.py COMMAND ...    the command that starts the driver linked with tests/mutants.c

A part of the calls is enough for this. The whole of them with one fault: tests/calls.py COMMAND ... FAULT.
"""
import random
import re
import resource
import sys
from concurrent.futures import ThreadPoolExecutor
from pathlib import Path

from calls import (ENTRIES, channel_calls, co2_calls, differences, kind_calls, line_calls, long_streams, mode_calls, mode_reports, probe_calls,
                   root_calls, stream_calls)
from streams import KINDS, LONGEST, SHORT_LENGTHS, depths, filling, hard_streams, made, probes

WORKERS = 2


def some_batches():
    """For a driver each, so that the rest is not asked once a fault is found."""
    rng = random.Random(60)
    short = [stream for stream in dict.fromkeys(hard_streams()) if len(stream) < 2_000]
    some = rng.sample(short, 60) + [*depths(), LONGEST, LONGEST + b"\0"] + list(long_streams(rng))[-10:]
    some += [*list(probes())[:20], b"".join(made(k, filling(k, n)) for k in KINDS for n in SHORT_LENGTHS)]
    kinds = list(kind_calls(rng))
    yield list(channel_calls(rng))
    yield [*rng.sample(list(probe_calls(rng)), 20_000), *kinds[:2_000], *rng.sample(kinds, 5_000)]
    yield list(stream_calls(some))
    yield list(line_calls(ENTRIES[::2] + ENTRIES[-8:]))
    yield list(co2_calls(rng))
    yield list(root_calls(rng))
    yield from mode_calls(rng.sample(list(mode_reports(rng)), 400))


def main():
    command = sys.argv[1:]
    if not command:
        sys.exit("give the command that starts the driver with its faults")
    source = Path(__file__).with_name("mutants.c").read_text()
    faults = re.findall(r'has\("(.+?)"\)', source)
    for written, calls in (("slips", ("needle", "line", "pair", "page")), ("misreads", ("pair", "page"))):
        faults += [f"{call}: {name}" for name in re.findall(rf'{written}\(call, "(.+?)"\)', source) for call in calls]
    assert len(faults) == len(set(faults)) >= 30
    batches = list(some_batches())
    resource.setrlimit(resource.RLIMIT_CORE, (0, resource.getrlimit(resource.RLIMIT_CORE)[1]))  # some faults crash, as they should

    has = [{call.what for call in calls} for calls in batches]

    def found(fault):
        """By those first that have the call which the fault is in."""
        order = sorted(range(len(batches)), key=lambda i: fault.split(":")[0] not in has[i])
        return next((told for i in order if (told := differences([*command, fault], batches[i], 1))), [])

    unfounded = found("")
    with ThreadPoolExecutor(WORKERS) as pool:
        missed = [fault for fault, told in zip(faults, pool.map(found, faults)) if not told]
    for text in unfounded[:3]:
        print("mutants: without a fault:", text)
    for fault in missed:
        print("mutants: not found:", fault)
    print(f"mutants: {len(faults) - len(missed)} of {len(faults)} faults found, {len(unfounded)} where there is none")
    sys.exit(1 if missed or unfounded else 0)


main()
