#!/usr/bin/env python3
"""Runs compiled images on a hart of its own, and compares each round with the step that `model` makes.

    tests/compiled/run.py PATH_TO_STAB [--starts N] [--random N] [--seed N]

It takes the examples that compile, sources at the machine's limits, and sources at random. Of a source at random the whole report but its words is
compared with the one that follows from the rules. Each image is started from many program counters (written words, odd ones, in RAM, in
padding, past ROM), with registers and RAM of zeros, of ones and of noise. From each start the head must come within the anchor bound, and then each of three
rounds must come within the round bound, without a trap, with one reading from each input port in order, with the outputs of the new state sent in order,
without a change above the RAM that the report says, and with the state that `model` shows. Prints a line for each source. Exits with 1 at the first difference.
"""

import argparse
import glob
import os
import random
import re
import sys

sys.dont_write_bytecode = True

from hart import RAM, ROM_BYTES, Hart, Report
from named import Differs, asked, enumerators
from sources import Source, at_random, large

HERE = os.path.dirname(os.path.abspath(__file__))
EXAMPLES = os.path.join(HERE, "..", "..", "examples", "*.job")
ROUNDS = 3


def term_of(text):
    """A value as a term."""
    return "( 0 - %s )" % text[1:] if text.startswith("-") else text


def place_of(location):
    """A location as it is updated."""
    name, _, args = location.partition("(")
    return name + (" ( %s )" % " , ".join(map(term_of, args[:-1].split(","))) if args else "")


def starts(rng, report, count):
    """Program counters with the kind of noise in registers and RAM."""
    written = 4 * len(report.words)
    counters = [0, 4, written - 4, written, written + 4, ROM_BYTES - 4, ROM_BYTES, RAM, RAM + 2, 0x20000000, 0x20001000, 0xFFFFFFFC, 0xFFFFFFFF]
    counters += [rng.randrange(0, written) for _ in range(6)] + [rng.randrange(written, ROM_BYTES + 1) & ~3 for _ in range(3)]
    words = list(range(0, written, 4))
    counters += words if len(words) <= count else rng.sample(words, count)
    for number, counter in enumerate(counters):
        yield counter, ("zeros", "noise", "ones", "noise")[number % 4]


def disturb(hart, rng, counter, kind, ram):
    """Puts a hart there, with such noise in registers and RAM."""
    front = min(ram + 64, len(hart.ram))
    noise = {"zeros": lambda count: bytes(count), "ones": lambda count: b"\xff" * count, "noise": rng.randbytes}[kind]
    hart.ram[:front] = noise(front)
    registers = noise(4 * 31)
    hart.x = [0] + [int.from_bytes(registers[4 * number:4 * number + 4], "little") for number in range(31)]
    # Addresses of RAM and of ports in registers do more harm than other noise.
    if kind == "noise":
        for number in rng.sample(range(1, 32), 8):
            hart.x[number] = rng.choice([RAM, 0x20000000, 0x20001000, 0]) + 4 * rng.randrange(0, 256)
    hart.pc = counter


class Refused(Exception):
    """A source that isn't a program: one at random may step a counter where a guard around it leaves it no room."""


class Image:
    """An image on a hart, with what its rounds are compared with."""

    def __init__(self, stab, source):
        self.stab, self.source = stab, source
        status, canonical = asked(stab, "check", source.job())
        if status:
            raise Refused(canonical) if canonical.startswith("refused 207 ") else Differs("check answers %d: %s" % (status, canonical))
        status, text = asked(stab, "compile", source.job())
        if status:
            raise Differs("compile answers %d: %s" % (status, text))
        self.report = Report(text)
        if source.head is not None and self.report.head != source.head:
            pairs = zip(self.report.head + [None], source.head + [None])
            raise Differs("the report says %r, and should say %r" % next(pair for pair in pairs if pair[0] != pair[1]))
        if len(self.report.words) > self.report.rom:
            raise Differs("more words than the bound")
        self.names = enumerators(canonical)
        self.hart = Hart(self.report.words)
        self.longest_anchor = self.longest_round = 0

    def spelled(self, location, value):
        names = self.names.get(location.partition("(")[0])
        return names[value] if names else str(value)

    def line(self, state):
        """The locations with their values, as in a line of `model`."""
        return "".join(" %s=%s" % (location, self.spelled(location, value)) for location, value in state.items())

    def modelled(self, state, readings):
        """The lines of the states that follow this one, by `model`: its first step sets the state."""
        updates = "".join(
            " ; %s := %s" % (place_of(location), term_of(self.spelled(location, value))) for location, value in state.items()
        )
        source = Source(
            self.source.name,
            self.source.declarations + "\ndomain Zq = 0 to 1\ncontrolled zq : Zq",
            "if ( zq = 0 ) then par zq := 1%s end else %s end" % (updates, self.source.rule),
        )
        inputs = [0] * len(self.report.inputs) + readings
        run = "%%run\nrounds %d\n%s" % (1 + ROUNDS, "".join("in %x\n" % reading for reading in inputs))
        status, text = asked(self.stab, "model", source.job() + run)
        if status:
            raise Differs("model answers %d: %s" % (status, text))
        return [line.split(" ", 2)[2] for line in text.split("\n")[1:2 + ROUNDS]]

    def one_round(self, state, feed):
        """Makes a round, and answers the new state."""
        hart, report = self.hart, self.report
        hart.reading = lambda: next(feed)
        above = bytes(hart.ram[report.ram:report.ram + 64])
        ticks = hart.round(report.round)
        if ticks is None:
            raise Differs("a round takes more than %d ticks" % report.round)
        self.longest_round = max(self.longest_round, ticks)
        if hart.traps:
            raise Differs("a round traps")
        if hart.taken != list(range(len(report.inputs))):
            raise Differs("a round reads the ports %s" % hart.taken)
        new = report.state(hart.ram)
        sent = [(port, new[location] & 0xFFFFFFFF) for port, location in enumerate(report.outputs)]
        if hart.sent != sent:
            raise Differs("a round sends %s in place of %s" % (hart.sent, sent))
        if hart.ram[report.ram:report.ram + 64] != above:
            raise Differs("a round changes RAM above %d bytes" % report.ram)
        return new

    def started(self, rng, counter, kind):
        """Starts the hart, and follows it for three rounds."""
        hart, report = self.hart, self.report
        disturb(hart, rng, counter, kind, report.ram)
        hart.reading = lambda: rng.getrandbits(32)
        ticks = hart.to_head(report.anchor)
        if ticks is None:
            raise Differs("the head isn't there after %d ticks" % report.anchor)
        self.longest_anchor = max(self.longest_anchor, ticks)
        readings = [rng.getrandbits(32) >> rng.choice([0, 0, 16, 28]) for _ in range(ROUNDS * len(report.inputs))]
        feed = iter(readings)
        states = [report.state(hart.ram)]
        for _ in range(ROUNDS):
            states.append(self.one_round(states[-1], feed))
        for number, (state, line) in enumerate(zip(states, self.modelled(states[0], readings))):
            if (self.line(state) + " zq=1")[1:] != line:
                raise Differs("after %d rounds from%s RAM holds%s, and model says %s" % (number, self.line(states[0]), self.line(state), line))


def examples():
    """The examples that are sources to be compiled, taken apart at the words `machine`, `legal` and `rule`."""
    for path in sorted(glob.glob(EXAMPLES)):
        text = open(path).read()
        if not re.match(r"%source\n", text) or "\n%" in text or "machine" not in text:
            continue
        text = re.sub(r"//.*", "", text)
        name = re.search(r"\bmachine\s+(\w+)", text)
        before, rule = re.split(r"\brule\b", text, maxsplit=1)
        declarations = re.split(r"\blegal\b", before[name.end():], maxsplit=1)[0]
        yield Source(name[1], declarations.strip(), rule.strip())


def tried(stab, source, what, seed, count):
    """Whether the image of a source does what it should."""
    rng = random.Random(seed)
    start = None
    try:
        image = Image(stab, source)
        number = 0
        for start in starts(rng, image.report, count):
            image.started(rng, *start)
            number += 1
    except Refused as refusal:
        print("%s: passed over, %s" % (what, str(refusal).strip()))
        return True
    except Differs as difference:
        print("%s: %s" % (what, difference))
        if start is not None:
            print("from pc %x, %s" % start)
        print(source.job() if len(source.job()) < 20000 else source.job()[:20000] + "..")
        return False
    report = image.report
    print(
        "%s: %d words of at most %d, %d starts, head after at most %d of %d ticks, rounds of at most %d of %d"
        % (what, len(report.words), report.rom, number, image.longest_anchor, report.anchor, image.longest_round, report.round),
        flush=True,
    )
    return True


def main():
    asking = argparse.ArgumentParser()
    asking.add_argument("stab")
    asking.add_argument("--starts", type=int, default=300, help="written words from which an image is started")
    asking.add_argument("--random", type=int, default=100, help="sources at random")
    asking.add_argument("--seed", type=int, default=1)
    said = asking.parse_args()
    for source in examples():
        if not tried(said.stab, source, source.name, said.seed, said.starts):
            return 1
    for number in range(said.random):
        seed = said.seed * 1000003 + number
        if not tried(said.stab, at_random(seed), "at random, seed %d" % seed, seed, said.starts // 5):
            return 1
    for source in large():
        if not tried(said.stab, source, "%s, large" % source.name, said.seed, said.starts // 20):
            return 1
    return 0


if __name__ == "__main__":
    sys.exit(main())
