#!/usr/bin/env python3
"""Prints a script of several mutators and markers: crowd.py OPERATIONS MUTATORS MARKERS CYCLES.

The operations are shared out among the mutators, in turns of a mix over 16,384 objects in a table of 64 segments of 256 entries:
a turn makes an object with a cell, loads, stores and exchanges through it, and drops it; every eighth object is linked into a chain
that hangs from its mutator's global. Half of them stand inside the cycles, each of which has one phase.
"""
import sys

TURN = ["new a", "init a 0 0f {value}", "load a 0 0f", "load a 0 17", "store a 0 0f {value}", "swap a 0 0f {value}", "load a 0 0f", "drop a"]
CHAINED = ["new a", "init a 0 0f {value}", "getg b {g}", "link a 0 b", "setg {g} a", "load a 0 0f", "load b 0 0f", "swap a 0 0f {value}"]


def operations(mutator, count):
    turn = 0
    while True:
        for line in CHAINED if turn % 8 == 0 else TURN:
            if count == 0:
                return
            count -= 1
            yield f"m{mutator} " + line.format(value=f"{turn:012x}", g=mutator)
        turn += 1


def main():
    count, mutators, markers, cycles = (int(word) for word in sys.argv[1:5])
    lines = [f"ept 1 seg=256 ext=64 tru=1 objects=16384 mutators={mutators} markers={markers}"]
    phases = 2 * cycles + 1
    own = [list(operations(mutator, count // mutators)) for mutator in range(mutators)]
    for phase in range(phases):
        for mine in own:
            lines.extend(mine[phase * len(mine) // phases:(phase + 1) * len(mine) // phases])
        if phase + 1 < phases:
            lines.append("finish" if phase % 2 else "start auto")
    lines.append("end")
    print("\n".join(lines))


main()
