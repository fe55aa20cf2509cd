#!/usr/bin/env python3
"""Measures the longest round of the image of Dijkstra's ring of 64 nodes, beside the bound that its report prints.

    bench/rounds.py [PATH_TO_STAB]

The image runs on the hart of tests/compiled, from keys that are all the same, that are all different, and that are at random. Exits with 1 where a round takes half
of the bound or more.
"""

import os
import random
import subprocess
import sys

sys.dont_write_bytecode = True

TOP = os.path.join(os.path.dirname(os.path.abspath(__file__)), "..")
sys.path.insert(0, os.path.join(TOP, "tests", "compiled"))

from hart import Hart, Report  # noqa: E402
from sources import ring  # noqa: E402

NODES = 64


def main():
    stab = sys.argv[1] if len(sys.argv) > 1 else os.path.join(TOP, "crates", "stab_cli", "out", "stab_cli")
    compiled = subprocess.run([stab, "compile"], input=ring(NODES, NODES).job().encode(), capture_output=True)
    if compiled.returncode:
        print("compile answers %d: %s" % (compiled.returncode, compiled.stdout.decode()))
        return 1
    report = Report(compiled.stdout.decode())
    hart = Hart(report.words)
    rng = random.Random(1)
    starts = [[key] * NODES for key in (0, 1, NODES - 1)] + [list(range(NODES))]
    starts += [[rng.randrange(NODES) for _ in range(NODES)] for _ in range(16)]
    longest, rounds = 0, 0
    for keys in starts:
        for (_, offset, width, _, _), key in zip(report.places, keys):
            hart.ram[offset:offset + width] = key.to_bytes(width, "little")
        hart.pc = 0
        for _ in range(8):
            ticks = hart.round(report.round)
            if ticks is None:
                print("a round takes more than %d ticks" % report.round)
                return 1
            longest, rounds = max(longest, ticks), rounds + 1
    print(
        "ring of %d nodes, %d words of at most %d: the longest of %d rounds takes %d ticks of at most %d, %.1f %%"
        % (NODES, len(report.words), report.rom, rounds, longest, report.round, 100 * longest / report.round)
    )
    return 0 if 2 * longest < report.round else 1


if __name__ == "__main__":
    sys.exit(main())
