#!/usr/bin/env python3
"""Has faults strike the images of sources at random ticks, and measures how they recover.

    bench/faults.py [PATH_TO_STAB] [--faults N] [--seed N]

The sources are those of the examples, and one whose image is mostly its table. The faults are of every kind of place: program counters in the code, in the tables, behind the image, past ROM, in RAM and
odd ones; the words of RAM with the state, staged values, flags, kept inputs, the clash mark, the counter and the binders' slots; registers. Behind each fault the trace of `run` must come to the loop head within
the anchor bound, each round must end within the round bound, and its states must be those of `model` from the anchor's state on, with the same readings. All inputs of a job read one number in all its rounds, so
that it is known what a round read; tests/compiled/plays.py has readings at random. Prints the longest of both for each source over its bound. Exits with 1 where a source differs, and where 100,000
faults take longer than a minute, more of them in proportion.
"""

import argparse
import os
import random
import sys
import time
from concurrent.futures import ProcessPoolExecutor

sys.dont_write_bytecode = True

TOP = os.path.join(os.path.dirname(os.path.abspath(__file__)), "..")
sys.path.insert(0, os.path.join(TOP, "tests", "compiled"))

from hart import RAM, RAM_BYTES, ROM_BYTES  # noqa: E402
from named import Differs, Machine, asked  # noqa: E402
from plays import sources  # noqa: E402
from traces import Fault, Start, run_lines  # noqa: E402

JOBS_AT_ONCE = 4
MOST_TICKS = 10_000_000
# A round takes at least the frame's ticks, so that so many readings last.
MOST_READINGS = 40_000
LEAST_ROUND = 50
# The bar: 100,000 faults, or fewer, in a minute.
BAR_FAULTS = 100_000
BAR_SECONDS = 60
TABLES = "tables"
# The instruction that stands in a table for the index i is `lui x0, i`, which no other code has.
TABLE_MASK = 0xFFF
TABLE_WORD = 0x37


def table_source():
    """A source whose image is mostly its table: in each round its location goes to the next place of a ring of 300."""
    ring = " , ".join(str((7 * place + 1) % 300) for place in range(300))
    return "%%source\nmachine tables\ndomain I = 0 to 299\nstatic next ( I ) : I = [ %s ]\ncontrolled x : I\nrule x := next ( x )\n" % ring


def table_masks(words):
    """The masks that lead a program counter from any word of the code into a table: each block of addresses of the code's size, a power of two, that lies in the tables."""
    places = [number for number, word in enumerate(words) if word & TABLE_MASK == TABLE_WORD]
    if not places:
        return []
    block = 1 << (places[0] - 1).bit_length()
    first, last = -(-places[0] // block) * block, (places[-1] + 1) // block * block
    return range(4 * first, 4 * last, 4)


def place(rng, report, kind):
    """A program counter, or an address in RAM, of such a kind."""
    written = 4 * len(report.words)
    return {
        "code": lambda: 4 * rng.randrange(len(report.words)),
        "behind": lambda: rng.randrange(written, ROM_BYTES) & ~3,
        "odd": lambda: rng.randrange(written) | rng.randrange(1, 4),
        "past": lambda: rng.choice([ROM_BYTES, 0x20000000, 0x20001000, rng.getrandbits(32)]),
        "data": lambda: RAM + rng.randrange(RAM_BYTES),
        "used": lambda: RAM + 4 * rng.randrange(report.ram // 4),
    }[kind]()


def any_fault(rng, report, masks, now):
    """A fault at a time; the masks are those that lead into a table. Any other mask of the program counter is near one that leads to the place, since the counter then is mostly in the code."""
    kinds = ["code", "behind", "odd", "past", "data", "used", "used", "used", "used", "register", "register"]
    kind = rng.choice(kinds + (["table"] * 3 if masks else []))
    bits = rng.choice([1 << rng.randrange(32), 1 << rng.randrange(8), rng.getrandbits(32)])
    if kind == "register":
        return Fault(now, "reg", rng.choice([rng.randrange(1, 32), rng.randrange(5, 23)]), bits)
    if kind == "used":
        return Fault(now, rng.choice(["ram", "set"]), place(rng, report, kind), bits)
    return Fault(now, "pc", rng.choice(masks) if kind == "table" else place(rng, report, kind))


def script(rng, report, masks, most, ticks):
    """So many faults, or as many as there is time for: some in one round, and most far enough from the next that the hart comes back between."""
    now, faults = 0, []
    for _ in range(most):
        gap = rng.choice([rng.randrange(report.round), report.anchor + rng.randrange(3 * report.round), report.anchor + rng.randrange(report.round)])
        if now + gap > ticks:
            break
        now += gap
        faults.append(any_fault(rng, report, masks, now))
    return faults


def stretches(lines):
    """The head lines between faults: the time at which each stretch begins, its lines as word, time and fields, and the time at which it is over."""
    since, heads = 0, []
    for line in lines:
        word, rest = line.split(" ", 1)
        if word in ("anchor", "round"):
            now, _, fields = rest.partition(" ")
            heads.append((word, int(now), " " + fields if fields else ""))
            continue
        now = int(rest.split(" ")[0])
        yield since, heads, now
        since, heads = now, []


def unmarked(fields):
    """The fields of a state without its mark."""
    return "".join(" " + field for field in fields.split() if "=" in field)


class Struck:
    """A source under faults, with the longest way to the head and the longest round."""

    def __init__(self, stab, name, source):
        self.machine = Machine(stab, name, source)
        self.masks = table_masks(self.machine.report.words)
        if name == TABLES and not self.masks:
            raise Differs("no block of the code's size lies in the table")
        self.anchor = self.round = self.faults = self.rounds = 0

    def judge(self, since, heads, until, reading):
        """Checks a stretch between two faults."""
        report = self.machine.report
        if not heads:
            if until - since > report.anchor:
                raise Differs("no head from %d to %d" % (since, until))
            return
        kinds, times, fields = zip(*heads)
        ways = [now - before for before, now in zip(times, times[1:])]
        if kinds != ("anchor",) + ("round",) * len(ways) or times[0] - since > report.anchor or max(ways, default=0) > report.round:
            raise Differs("from %d to %d stand %r" % (since, until, heads))
        if until - times[-1] > report.round:
            raise Differs("no head from %d to %d" % (times[-1], until))
        self.anchor = max(self.anchor, times[0] - since)
        self.round = max([self.round, *ways])
        self.rounds += len(ways)
        self.steps(fields, reading)

    def steps(self, fields, reading):
        """Checks that each state but the first is what `model` makes of the one before it, with that reading at each input."""
        after = self.machine.after
        for number, (before, then) in enumerate(zip(fields, fields[1:])):
            if (before, reading) not in after:
                left = len(fields) - 1 - number
                shown = self.machine.modelled(unmarked(before), [reading] * len(self.machine.report.inputs) * left, left)
                if shown[0] != before:
                    raise Differs("the trace shows%s, and model%s" % (before, shown[0]))
                after.update({(one, reading): next for one, next in zip(shown, shown[1:])})
            if after[before, reading] != then:
                raise Differs("behind%s comes%s, and by model%s" % (before, then, after[before, reading]))

    def play(self, rng, most):
        """Plays one job with at most so many faults."""
        report, inputs = self.machine.report, len(self.machine.report.inputs)
        ticks = min(MOST_TICKS - report.anchor - 4 * report.round, MOST_READINGS * LEAST_ROUND // max(inputs, 1) if inputs else MOST_TICKS)
        faults = script(rng, report, self.masks, most, ticks)
        reading = rng.getrandbits(32) >> rng.choice([0, 24, 31])
        start = Start(seed=rng.getrandbits(32))
        job = self.machine.source + run_lines(start, faults, 3, [reading] * MOST_READINGS if inputs else [])
        status, text = asked(self.machine.stab, "run", job)
        if status or not text.startswith(report.text):
            raise Differs("run answers %d" % status)
        lines = text[len(report.text):].split("\n")[:-1]
        if sum(line.startswith("fault ") for line in lines) != len(faults):
            raise Differs("a fault is missing in the trace")
        for stretch in stretches(lines):
            self.judge(*stretch, reading)
        self.faults += len(faults)


def struck(stab, name, source, count, seed):
    """Has so many faults strike a source, and says what was measured."""
    rng = random.Random("%d %s" % (seed, name))
    try:
        machine = Struck(stab, name, source)
        while machine.faults < count:
            machine.play(rng, min(1000, count - machine.faults))
    except Differs as difference:
        return False, "%s: %s" % (name, difference)
    report = machine.machine.report
    return True, "%s: %d faults, %d rounds; the longest anchor %d of %d, the longest round %d of %d" % (
        name, machine.faults, machine.rounds, machine.anchor, report.anchor, machine.round, report.round
    )


def main():
    asking = argparse.ArgumentParser()
    asking.add_argument("stab", nargs="?", default=os.path.join(TOP, "crates", "stab_cli", "out", "stab_cli"))
    asking.add_argument("--faults", type=int, default=100_000)
    asking.add_argument("--seed", type=int, default=1)
    said = asking.parse_args()
    chosen = [*sources(), (TABLES, table_source())]
    share = -(-said.faults // len(chosen))
    began = time.monotonic()
    with ProcessPoolExecutor(JOBS_AT_ONCE) as jobs:
        ended = [jobs.submit(struck, said.stab, name, source, share, said.seed) for name, source in chosen]
        answers = [it.result() for it in ended]
    for _, text in answers:
        print(text)
    seconds, most = time.monotonic() - began, BAR_SECONDS * max(1, said.faults / BAR_FAULTS)
    print("%d faults in %.1f s, of at most %.0f s" % (share * len(chosen), seconds, most))
    return 0 if all(holds for holds, _ in answers) and seconds <= most else 1


if __name__ == "__main__":
    sys.exit(main())
