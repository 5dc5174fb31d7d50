#!/usr/bin/env python3
"""Prints the least processor time of some runs of each program, in milliseconds: least.py RUNS SCRIPT WORD PROGRAM..

The programs take turns, so that other work on the machine slows each of them alike. The time is that of the whole process,
by the user and the system together, as `wait4` tells it. SCRIPT is its standard input, and its standard output is dropped.
It fails where a run ends with another status than 0.
"""
import os
import sys


def processor_time(script, word, program):
    actions = [
        (os.POSIX_SPAWN_OPEN, 0, script, os.O_RDONLY, 0),
        (os.POSIX_SPAWN_OPEN, 1, "/dev/null", os.O_WRONLY, 0),
    ]
    child = os.posix_spawn(program, [program, word], os.environ, file_actions=actions)
    _, status, usage = os.wait4(child, 0)
    if status != 0:
        sys.exit(f"least.py: {program} {word} ended with the wait status {status}")
    return usage.ru_utime + usage.ru_stime


def main():
    runs, script, word, programs = int(sys.argv[1]), sys.argv[2], sys.argv[3], sys.argv[4:]
    times = [[processor_time(script, word, program) for program in programs] for _ in range(runs)]
    print(*(f"{1000 * min(column):.1f}" for column in zip(*times)))


main()
