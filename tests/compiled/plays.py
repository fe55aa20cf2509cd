#!/usr/bin/env python3
"""Compares the traces of `run` with plays of the same images on the hart of this folder.

    tests/compiled/plays.py PATH_TO_STAB [--plays N] [--seed N]

Each example that is a source is played from noise, from one word all over RAM and from the loop head, with readings and under faults at any place of the hart. Each line of the trace
must be the one that docs/FORMATS.md asks for, to the byte. Prints a line for each source. Exits with 1 at the first difference.
"""

import argparse
import glob
import os
import random
import re
import sys

sys.dont_write_bytecode = True

from hart import RAM, RAM_BYTES, ROM_BYTES
from named import Differs, Machine, asked
from traces import Fault, Start, run_lines, trace

HERE = os.path.dirname(os.path.abspath(__file__))
EXAMPLES = os.path.join(HERE, "..", "..", "examples", "*.job")


def sources():
    """The examples that are sources, without their sections `%run`: name and text."""
    found = {}
    for path in sorted(glob.glob(EXAMPLES)):
        text = open(path).read()
        if re.match(r"%source\n", text) and re.search(r"^machine ", text, re.MULTILINE):
            source = text.split("\n%", 1)[0].rstrip("\n") + "\n"
            name = os.path.basename(path)[:-len(".job")]
            found.setdefault(re.search(r"^machine (\w+)", source, re.MULTILINE)[1], (name, source))
    return found.values()


def any_start(rng, report):
    kind = rng.randrange(4)
    if kind == 0:
        return Start()
    if kind == 1:
        return Start(fill=rng.choice([0xFFFFFFFF, rng.getrandbits(32)]), counter=4 * rng.randrange(len(report.words)))
    registers = [(rng.randrange(1, 32), rng.getrandbits(32)) for _ in range(rng.randrange(4))]
    words = [(RAM + 4 * rng.randrange(RAM_BYTES // 4), rng.getrandbits(32)) for _ in range(rng.randrange(4))]
    counter = rng.choice([None, rng.getrandbits(32), 4 * rng.randrange(ROM_BYTES // 4)])
    return Start(seed=rng.getrandbits(32), counter=counter, registers=registers, words=words)


def any_fault(rng, report, time):
    """A fault somewhere on the hart: of few bits or of a whole word, in words that the image uses or beside them."""
    mask = rng.choice([1 << rng.randrange(32), rng.getrandbits(32), 0xFFFFFFFF])
    kind = rng.choice(["pc", "reg", "ram", "ram", "set", "set"])
    if kind == "pc":
        return Fault(time, "pc", rng.choice([mask, 4 * rng.randrange(2 * len(report.words)), ROM_BYTES, RAM, 2]))
    if kind == "reg":
        return Fault(time, "reg", rng.randrange(1, 32), mask)
    return Fault(time, kind, RAM + 4 * rng.choice([rng.randrange(report.ram // 4), rng.randrange(RAM_BYTES // 4)]), mask)


def any_faults(rng, report):
    time, faults = 0, []
    for _ in range(rng.randrange(12)):
        time += rng.choice([0, 1, rng.randrange(report.round), rng.randrange(2 * report.anchor)])
        faults.append(any_fault(rng, report, time))
    return faults


def played(machine, rng, count):
    """Plays a machine so often, and answers the number of lines that agreed."""
    agreed = 0
    for _ in range(count):
        start, faults, rounds = any_start(rng, machine.report), any_faults(rng, machine.report), rng.randrange(1, 5)
        readings = [rng.getrandbits(32) >> rng.choice([0, 24, 28]) for _ in range(rng.randrange(40) if machine.report.inputs else 0)]
        job = machine.source + run_lines(start, faults, rounds, readings)
        status, text = asked(machine.stab, "run", job)
        if status or not text.startswith(machine.report.text):
            raise Differs("run answers %d, and not the report and a trace, to\n%s" % (status, job))
        given = text[len(machine.report.text):].split("\n")[:-1]
        expected = list(trace(machine.report, start, faults, rounds, readings, machine.shown))
        if given != expected:
            pairs = zip(given + [None], expected + [None])
            raise Differs("run writes %r in place of %r to\n%s" % (*next(pair for pair in pairs if pair[0] != pair[1]), job))
        agreed += len(given)
    return agreed


def main():
    asking = argparse.ArgumentParser()
    asking.add_argument("stab")
    asking.add_argument("--plays", type=int, default=25, help="plays of each source")
    asking.add_argument("--seed", type=int, default=1)
    said = asking.parse_args()
    for name, source in sources():
        try:
            machine = Machine(said.stab, name, source)
            agreed = played(machine, random.Random("%d %s" % (said.seed, name)), said.plays)
        except Differs as difference:
            print("%s: %s" % (name, difference))
            return 1
        print("%s: %d plays, %d lines agree" % (name, said.plays, agreed), flush=True)
    return 0


if __name__ == "__main__":
    sys.exit(main())
