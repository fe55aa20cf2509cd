#!/usr/bin/env python3
"""Flips each single bit of the program counter and of each register at each tick of a round, by `run`.

    tests/compiled/single_bits.py PATH_TO_STAB [--every N]

The source is examples/seven.job, which makes its location 7 in each round. For each time from 0 to the round bound and each bit of the program counter and of x1 to x31 there is one job with
that fault alone and one round behind it. The trace must show the fault, then an `anchor` line within the anchor bound, and the last line before the end must be a `round` line with 7. With
`--every N` only each Nth of these jobs is run. Exits with 1 at the first that differs.
"""

import argparse
import os
import sys
from concurrent.futures import ThreadPoolExecutor

sys.dont_write_bytecode = True

from named import Differs, Machine, asked
from traces import Fault, Start, run_lines

HERE = os.path.dirname(os.path.abspath(__file__))
SEVEN = os.path.join(HERE, "..", "..", "examples", "seven.job")
JOBS_AT_ONCE = 4


def faults(last):
    """Each single bit of the program counter and of each register at each time."""
    for time in range(last + 1):
        for bit in range(32):
            yield Fault(time, "pc", 1 << bit)
            for register in range(1, 32):
                yield Fault(time, "reg", register, 1 << bit)


def recovered(machine, fault):
    """The ticks from the fault to the anchor line behind it."""
    job = machine.source + run_lines(Start(), [fault], 1)
    status, text = asked(machine.stab, "run", job)
    lines = text[len(machine.report.text):].split("\n")
    struck = "fault %s" % fault
    if status or struck not in lines:
        raise Differs("run answers %d to\n%s%s" % (status, job, text))
    behind = lines[lines.index(struck) + 1:]
    kind, time = behind[0].split(" ")[:2]
    ticks = int(time) - fault.time
    if kind != "anchor" or ticks > machine.report.anchor:
        raise Differs("behind the fault stands %r in\n%s" % (behind[0], job))
    last = behind[-3]
    if not last.startswith("round ") or not last.endswith(" x=7") or not behind[-2].startswith("end "):
        raise Differs("the trace ends with %r in\n%s" % (behind[-3:], job))
    return ticks


def main():
    asking = argparse.ArgumentParser()
    asking.add_argument("stab")
    asking.add_argument("--every", type=int, default=1)
    said = asking.parse_args()
    try:
        machine = Machine(said.stab, "seven", open(SEVEN).read())
        chosen = list(faults(machine.report.round))[::said.every]
        with ThreadPoolExecutor(JOBS_AT_ONCE) as jobs:
            longest = max(jobs.map(lambda fault: recovered(machine, fault), chosen, chunksize=64))
    except Differs as difference:
        print(difference)
        return 1
    print("%d single bits, each anchored: after at most %d of %d ticks" % (len(chosen), longest, machine.report.anchor))
    return 0


if __name__ == "__main__":
    sys.exit(main())
