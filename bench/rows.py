#!/usr/bin/env python3
"""How long rows of Kazhdan-Lusztig polynomials take, and how much memory.

    bench/rows.py [--native FILE] [--instructions] [--groups "A 6,D 5"] [PROGRAM [PROGRAM]]
                        the program of this repository, if none is named; two programs run in turn

- All rows of a group: `mu e w` for the longest element w, so that the context is the whole group, and then for each w in ShortLex order.
  The time of a run that asks `length w` in place of these is taken off.
- `klbasis` of 123 repeated 20 times in the affine group of A 2.
- `pol e w` of many elements w, one after the other: 300 scattered ones of E 6 at random, rising and falling in ShortLex order, all of D 5
  and B 5 rising and falling, and the first 3,000 below 1234 repeated eight times in the affine group of A 3, rising. What is kept grows
  with each of them.

`--native FILE` names a program that makes the same rows, as bench/native/rows.rs does (called as FILE LETTER N, which writes a line `rows TIME`
to standard error); it runs in turn with the others. Each figure is the least of five runs, of sixty where a run takes less than a tenth of a second, or of one
where it takes more than ten seconds. Memory is the peak of the whole run, as the kernel tells it. With `--instructions` each row has
millions of instructions in place of times, counted by valgrind's callgrind.
"""
import argparse
import os
import random
import re
import subprocess
import sys

from intervals import TOP, instructions

RUNS = 5
SHORT_RUNS = 60
SHORT = 0.1
LONG = 10.0
GROUPS = [("A", 6), ("D", 5), ("F", 4), ("B", 5), ("D", 6), ("E", 6)]
AFFINE_A2 = "matrix 3 3 3 3"
AFFINE_A3 = "matrix 4 3 2 3 3 2 3"


def run(words, script):
    """The standard error of a run, its seconds of processor time, and its peak of memory in MiB. What it prints goes to /dev/null."""
    command = ["/usr/bin/env", "python3", "-c", MEASURED] + words
    ran = subprocess.run(command, input=script.encode(), stdout=subprocess.DEVNULL, stderr=subprocess.PIPE)
    if ran.returncode != 0:
        sys.exit(f"{words[0]} ended with status {ran.returncode}: {ran.stderr.decode()[-400:]}")
    *told, figures = ran.stderr.decode().rstrip("\n").split("\n")
    seconds, kib = figures.split()
    return "\n".join(told), float(seconds), int(kib) / 1024


# Runs a program with this one's streams, and tells its processor time and its peak of memory, which a parent would hide behind its own.
MEASURED = """
import resource, subprocess, sys
ran = subprocess.run(sys.argv[1:])
used = resource.getrusage(resource.RUSAGE_CHILDREN)
print(used.ru_utime + used.ru_stime, used.ru_maxrss, file=sys.stderr)
sys.exit(ran.returncode)
"""


def elements(program, letter, rank):
    """All elements of a finite group in ShortLex order, by the interval of its longest element, which is found letter by letter."""
    group = f"type {letter} {rank}"
    word = "e"
    while True:
        asked = f"{group}\ndescent {word}\n"
        right = subprocess.run([program], input=asked.encode(), stdout=subprocess.PIPE).stdout.decode().split()[3]
        missing = [str(s) for s in range(1, rank + 1) if str(s) not in right]
        if not missing:
            break
        word = ("" if word == "e" else word) + missing[0]
    listed = subprocess.run([program], input=f"{group}\ninterval e {word}\n".encode(), stdout=subprocess.PIPE).stdout.decode().split("\n")
    return group, listed[1:-1]


def runs_of(seconds):
    """How many runs are made where one takes so many seconds."""
    return 1 if seconds > LONG else RUNS if seconds > SHORT else SHORT_RUNS


def least(words, script, empty):
    """The least time of several runs beyond that of the empty script, in seconds, and the peak of memory in MiB."""
    first = run(words, script)
    times, peaks = [first[1]], [first[2]]
    for _ in range(runs_of(first[1]) - 1):
        again = run(words, script)
        times.append(again[1])
        peaks.append(again[2])
    base = min(run(words, empty)[1] for _ in range(runs_of(first[1]))) if empty else 0.0
    return min(times) - base, min(peaks)


def native(program, letter, rank):
    """The native program's own time for its rows, in seconds, the least of several, and its peak of memory."""
    best, peak, made, wanted = None, None, 0, 1
    while made < wanted:
        told, seconds, memory = run([program, letter, str(rank)], "")
        made, wanted = made + 1, max(wanted, runs_of(seconds))
        found = re.search(r"rows ([0-9.]+)(µs|ms|s)", told)
        value = float(found.group(1)) * {"µs": 1e-6, "ms": 1e-3, "s": 1.0}[found.group(2)]
        best = value if best is None else min(best, value)
        peak = memory if peak is None else min(peak, memory)
    return best, peak


def cases(program, groups):
    """The rows of the table: a name, the script, the script to be taken off, and the group for the native program, if it makes these
    rows."""
    for letter, rank in groups:
        group, words = elements(program, letter, rank)
        order = [words[-1]] + words
        yield (f"all rows of {letter} {rank}", group + "\n" + "".join(f"mu e {w}\n" for w in order),
               group + "\n" + "".join(f"length {w}\n" for w in order), (letter, rank))
    yield "klbasis of 123 20 times, affine A 2", f"{AFFINE_A2}\nklbasis {'123' * 20}\n", f"{AFFINE_A2}\nlength {'123' * 20}\n", None
    for name, group, words in orders(program):
        yield (f"pol of {name}", group + "\n" + "".join(f"pol e {w}\n" for w in words),
               group + "\n" + "".join(f"length {w}\n" for w in words), None)


def orders(program):
    """Elements that are asked for one after the other: a name, the line that sets the group, and their words."""
    group, words = elements(program, "E", 6)
    scattered = random.Random(6).sample(words, 300)
    yield "300 elements of E 6, at random", group, scattered
    place = {word: number for number, word in enumerate(words)}
    scattered.sort(key=place.get)
    named = [("300 elements of E 6", group, scattered)] + [(f"all of {it} 5", *elements(program, it, 5)) for it in "DB"]
    for name, group, rising in named:
        yield f"{name}, rising", group, rising
        yield f"{name}, falling", group, rising[::-1]
    asked = f"{AFFINE_A3}\ninterval e {'1234' * 8}\n"
    listed = subprocess.run([program], input=asked.encode(), stdout=subprocess.PIPE).stdout.decode().split("\n")
    yield "3,000 elements of affine A 3, rising", AFFINE_A3, listed[1:3001]


def main():
    """Prints the table."""
    parser = argparse.ArgumentParser(description=__doc__.splitlines()[0])
    parser.add_argument("--native")
    parser.add_argument("--instructions", action="store_true")
    parser.add_argument("--groups")
    parser.add_argument("programs", nargs="*")
    given = parser.parse_args()
    programs = [os.path.abspath(p) for p in given.programs] or [os.path.join(TOP, "crates", "coxeter", "out", "coxeter")]
    groups = [(g.split()[0], int(g.split()[1])) for g in given.groups.split(",")] if given.groups else GROUPS
    unit = "10^6 instructions" if given.instructions else "s"
    heads = [f"{unit} {k + 1} | MiB {k + 1}" for k in range(len(programs))] + (["s native | MiB native"] if given.native else [])
    print("| what | " + " | ".join(heads) + " |")
    print("|---|" + "---|---|" * len(heads))
    for name, script, empty, group in cases(programs[0], groups):
        figures = []
        for program in programs:
            seconds, peak = least([program], script, empty)
            if given.instructions:
                seconds = (instructions(program, script) - instructions(program, empty)) / 1e6
            figures.append(f"{seconds:.4f} | {peak:.1f}")
        if given.native:
            figures.append("{:.4f} | {:.1f}".format(*native(given.native, *group)) if group else " | ")
        print(f"| {name} | " + " | ".join(figures) + " |", flush=True)


if __name__ == "__main__":
    main()
