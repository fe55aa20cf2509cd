"""Plays of images under faults on the hart of this folder, and the traces that docs/FORMATS.md makes of them."""

from hart import MASK, RAM, Hart


class Start:
    """What a hart holds before its first tick."""

    def __init__(self, fill=0, seed=None, counter=None, registers=(), words=()):
        self.fill, self.seed, self.counter, self.registers, self.words = fill, seed, counter, registers, words

    def lines(self):
        """The lines of `%run` that say so."""
        first = "fill %x" % self.fill if self.seed is None else "seed %x" % self.seed
        lines = [first] + ["reg %d %x" % pair for pair in self.registers] + ["ram %x %x" % pair for pair in self.words]
        return lines + ([] if self.counter is None else ["pc %x" % self.counter])

    def put(self, hart):
        """Has a hart hold it."""
        count = len(hart.ram) // 4
        if self.seed is None:
            hart.ram[:] = self.fill.to_bytes(4, "little") * count
            hart.x, hart.pc = [0] * 32, 0
        else:
            drawn = drawn_from(self.seed)
            hart.ram[:] = b"".join(next(drawn).to_bytes(4, "little") for _ in range(count))
            hart.x = [0] + [next(drawn) for _ in range(31)]
            hart.pc = next(drawn)
        for register, word in self.registers:
            hart.x[register] = word
        for address, word in self.words:
            put_word(hart, address, word)
        if self.counter is not None:
            hart.pc = self.counter


def drawn_from(seed):
    """The words that follow a seed."""
    while True:
        seed = (1664525 * seed + 1013904223) & MASK
        yield seed


def word_at(hart, address):
    return int.from_bytes(hart.ram[address - RAM:address - RAM + 4], "little")


def put_word(hart, address, word):
    hart.ram[address - RAM:address - RAM + 4] = word.to_bytes(4, "little")


class Fault:
    """What happens after so many ticks: `reg R H`, `pc H`, `ram H H` or `set H H`, by its kind and its numbers."""

    def __init__(self, time, kind, *numbers):
        self.time, self.kind, self.numbers = time, kind, numbers

    def __str__(self):
        """The line of a script behind `at`, and of a trace behind `fault`, with its numbers in full."""
        shown = ["%08x" % number for number in self.numbers]
        if self.kind == "reg":
            shown[0] = "%d" % self.numbers[0]
        return "%d %s %s" % (self.time, self.kind, " ".join(shown))

    def strike(self, hart):
        if self.kind == "reg":
            hart.x[self.numbers[0]] ^= self.numbers[1]
        elif self.kind == "pc":
            hart.pc ^= self.numbers[0]
        elif self.kind == "ram":
            put_word(hart, self.numbers[0], word_at(hart, self.numbers[0]) ^ self.numbers[1])
        else:
            put_word(hart, *self.numbers)


def run_lines(start, faults, rounds, readings=()):
    """The section `%run` of such a play."""
    lines = ["%run", "rounds %d" % rounds] + start.lines() + ["in %x" % reading for reading in readings] + ["at %s" % fault for fault in faults]
    return "\n".join(lines) + "\n"


def trace(report, start, faults, rounds, readings, shown):
    """The lines of a play of a report's image. `shown` gives a state's fields and its mark, each behind a blank."""
    hart = Hart(report.words)
    start.put(hart)
    feed = iter(readings)
    hart.reading = lambda: next(feed, 0)
    time, left, is_anchored, made = 0, list(faults), False, 0
    at_head = hart.pc == 0
    while True:
        if at_head:
            yield "%s %d%s" % ("round" if is_anchored else "anchor", time, shown(report.state(hart.ram)))
            made += is_anchored
            is_anchored = True
        while left and left[0].time == time:
            fault = left.pop(0)
            fault.strike(hart)
            yield "fault %s" % fault
            is_anchored, made = False, 0
        if not left and is_anchored and made == rounds:
            yield "end %d" % time
            return
        hart.tick()
        time += 1
        at_head = hart.pc == 0
