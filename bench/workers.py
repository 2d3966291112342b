#!/usr/bin/env python3
"""How much faster the program is with several workers.

    bench/workers.py [--workers "1,2,4"] [--groups "D 6,A 7"] [--runs N] [PROGRAM]
                        the program of this repository, if none is named

- `lrcells` of a finite group: all rows, which the workers share, and then the cells, by one thread.
- `pol e w` in E 6, where w is the longest element but for its last letter: one row, with those that it needs.

The numbers of workers run in turn. Each figure is the least of five runs: seconds of the clock, how many times faster that is than with the
first number of workers, and seconds of processor time of all threads. What is printed has to be the same for each number of workers. On a
machine that does other work the clock tells little; as root, `chrt -r 1 bench/workers.py` lets the program go first.

The last column tells what the machine has to give at the time: as many runs with one worker as the greatest number says, side by side, and
how much longer that takes than one of them alone. With so many whole processors it is 1.00.
"""
import argparse
import os
import resource
import subprocess
import sys
import time

from intervals import TOP
from rows import elements

GROUPS = [("D", 6), ("A", 7), ("B", 6), ("E", 6)]


def run(words, script):
    """The output of a run, its seconds of the clock, and its seconds of processor time."""
    before = resource.getrusage(resource.RUSAGE_CHILDREN)
    start = time.perf_counter()
    ran = subprocess.run(words, input=script.encode(), stdout=subprocess.PIPE)
    seconds = time.perf_counter() - start
    after = resource.getrusage(resource.RUSAGE_CHILDREN)
    if ran.returncode != 0:
        sys.exit(f"{words} ended with status {ran.returncode}")
    return ran.stdout, seconds, after.ru_utime + after.ru_stime - before.ru_utime - before.ru_stime


def cases(program, groups):
    """The rows of the table: a name and the script."""
    for letter, rank in groups:
        yield f"lrcells of {letter} {rank}", f"type {letter} {rank}\nlrcells\n"
    group, words = elements(program, "E", 6)
    yield "a row of E 6", f"{group}\npol e {words[-1][:-1]}\n"


def side_by_side(program, script, count):
    """The seconds of the clock of so many runs with one worker at once."""
    start = time.perf_counter()
    running = [subprocess.Popen([program, "--workers", "1"], stdin=subprocess.PIPE, stdout=subprocess.DEVNULL) for _ in range(count)]
    for process in running:
        process.stdin.write(script.encode())
        process.stdin.close()
    for process in running:
        process.wait()
    return time.perf_counter() - start


def measured(program, script, numbers, runs):
    """For each number of workers the least seconds of the clock and of processor time, of runs in turn; and the least seconds of runs at
    once."""
    best = {number: (float("inf"), float("inf")) for number in numbers}
    at_once = float("inf")
    texts = set()
    for _ in range(runs):
        for number in numbers:
            text, clock, used = run([program, "--workers", str(number)], script)
            texts.add(text)
            best[number] = (min(best[number][0], clock), min(best[number][1], used))
        at_once = min(at_once, side_by_side(program, script, max(numbers)))
    if len(texts) > 1:
        sys.exit(f"the text depends on the number of workers:\n{script}")
    return [best[number] for number in numbers], at_once


def main():
    """Prints the table."""
    parser = argparse.ArgumentParser(description=__doc__.splitlines()[0])
    parser.add_argument("--workers", default="1,2,4")
    parser.add_argument("--groups")
    parser.add_argument("--runs", type=int, default=5)
    parser.add_argument("program", nargs="?", default=os.path.join(TOP, "crates", "coxeter", "out", "coxeter"))
    given = parser.parse_args()
    program = os.path.abspath(given.program)
    numbers = [int(number) for number in given.workers.split(",")]
    groups = [(g.split()[0], int(g.split()[1])) for g in given.groups.split(",")] if given.groups else GROUPS
    print("| what | " + " | ".join(f"s {n} | times | processor {n}" for n in numbers) + f" | {max(numbers)} runs at once |")
    print("|---|" + "---|---|---|" * len(numbers) + "---|")
    for name, script in cases(program, groups):
        figures, at_once = measured(program, script, numbers, given.runs)
        first = figures[0][0]
        columns = [f"{clock:.3f} | {first / clock:.2f} | {used:.3f}" for clock, used in figures]
        print(f"| {name} | " + " | ".join(columns) + f" | {at_once / first:.2f} |", flush=True)


if __name__ == "__main__":
    main()
