#!/usr/bin/env python3
"""Times the solver: for each class of systems in `stdin`, the mean and the worst processor time of one least point.

usage: python3 times.py [CLASS..]   in crates/ch_solve, once `rt run` has built out/ch_solve

Each system is solved once and then many times in runs of the program on it alone, and the difference of the two times is
divided by the number of the solutions between them, so that the start of the process falls away. The least of three is taken.
"""
import os
import resource
import subprocess
import sys

HERE = os.path.dirname(os.path.abspath(__file__))
PROGRAM = os.path.join(HERE, "out", "ch_solve")
LONG_ENOUGH = 0.02  # seconds


def seconds(line, repeats):
    """The processor time of a run that solves the line's system so many times."""
    before = resource.getrusage(resource.RUSAGE_CHILDREN)
    subprocess.run([PROGRAM, str(repeats)], input=line, stdout=subprocess.DEVNULL, check=True, text=True)
    after = resource.getrusage(resource.RUSAGE_CHILDREN)
    return after.ru_utime + after.ru_stime - before.ru_utime - before.ru_stime


def microseconds(line):
    """The time of one solution."""
    more = 1
    while True:
        once = min(seconds(line, 1) for _ in range(3))
        often = min(seconds(line, 1 + more) for _ in range(3))
        if often - once > LONG_ENOUGH or more >= 100000:
            return max(often - once, 0) / more * 1e6
        more *= 10


def main():
    wanted = sys.argv[1:]
    with open(os.path.join(HERE, "stdin")) as text:
        lines = text.read().splitlines()
    classes = {}
    for line in lines:
        name = line.split(" ", 1)[0]
        if not wanted or name in wanted:
            classes.setdefault(name, []).append(microseconds(line + "\n"))
    print("| class | systems | mean | worst |\n|---|---|---|---|")
    for name, times in classes.items():
        print(f"| {name} | {len(times)} | {sum(times) / len(times):.2f} | {max(times):.1f} |")


main()
