#!/usr/bin/env python3
"""Prints a script of one mutator with collection cycles: mix.py OPERATIONS MEETS PLAIN|never|always|auto.

The operations are a mix over 16,384 objects in a table of 64 segments of 256 entries: each turn makes an object with a cell,
loads, stores and exchanges through it, and drops it; every eighth object is linked into one of 16 chains, which hang from the
globals. Half of the meets are starts with that policy and half of them finishes, in turn; with PLAIN all are plain. Objects and
cells run out in the course of the script, as those of a program do.
"""
import sys

TURN = ["new a", "init a 0 0f {value}", "load a 0 0f", "load a 0 17", "store a 0 0f {value}", "swap a 0 0f {value}", "load a 0 0f", "drop a"]
CHAINED = ["new a", "init a 0 0f {value}", "getg b {g}", "link a 0 b", "setg {g} a", "load a 0 0f", "load b 0 0f", "swap a 0 0f {value}"]


def operations(count):
    turn = 0
    while True:
        for line in CHAINED if turn % 8 == 0 else TURN:
            if count == 0:
                return
            count -= 1
            yield "m0 " + line.format(value=f"{turn:012x}", g=turn // 8 % 16)
        turn += 1


def main():
    count, meets, policy = int(sys.argv[1]), int(sys.argv[2]), sys.argv[3]
    lines = ["ept 1 seg=256 ext=64 tru=1 objects=16384 mutators=1 markers=0"]
    done = 0
    for number, line in enumerate(operations(count)):
        lines.append(line)
        while done < meets and (number + 1) * meets >= (done + 1) * count:
            if policy == "PLAIN":
                lines.append("meet")
            else:
                lines.append("finish" if done % 2 else f"start {policy}")
            done += 1
    lines.append("end")
    print("\n".join(lines))


main()
