#!/usr/bin/env python3
"""How long inverse Kazhdan-Lusztig polynomials take, and how much memory.

    bench/inverse.py [--native FILE] [--groups "B 5,D 6"] [PROGRAM [PROGRAM]]
                        the program of this repository, if none is named; two programs run in turn

All Q(x,w0) of a group, for its longest element w0: one script with a line `invpol x w0` for each x in ShortLex order. The time of a run
that asks `length x` in place of these is taken off. The rows of the group are made on the way. And by the sums, where the rows are not all
of a group: `invpol e w` in the affine group of A 2.

`--native FILE` names a program that makes the same polynomials by the sums, as bench/native/inverse.rs (called as FILE LETTER N, which writes
`rows TIME` and `all Q(x,w): TIME`); it runs in turn with the others, and both times count. Each figure is the least of five runs, of sixty where a run
takes less than a tenth of a second, or of one where it takes more than ten seconds. Memory is the peak of the whole run, as the kernel
tells it.
"""
import argparse
import os
import re
import subprocess
import sys

from intervals import TOP
from rows import AFFINE_A2, MEASURED, elements, least, runs_of

GROUPS = [("B", 5), ("D", 6), ("E", 6)]
UNITS = {"µs": 1e-6, "ms": 1e-3, "s": 1.0}


def native(program, letter, rank):
    """The native program's own time for rows and inverse polynomials, in seconds, the least of several, and its peak of memory."""
    best, peak, made, wanted = None, None, 0, 1
    while made < wanted:
        command = ["/usr/bin/env", "python3", "-c", MEASURED, program, letter, str(rank)]
        ran = subprocess.run(command, capture_output=True)
        if ran.returncode != 0:
            sys.exit(f"{program} ended with status {ran.returncode}: {ran.stderr.decode()[-400:]}")
        seconds, kib = map(float, ran.stderr.decode().split("\n")[-2].split())
        found = re.findall(r"(?:rows|all Q\(x,w\):) ([0-9.]+)(µs|ms|s)", ran.stdout.decode())
        value = sum(float(number) * UNITS[unit] for number, unit in found)
        best = value if best is None else min(best, value)
        peak = kib / 1024 if peak is None else min(peak, kib / 1024)
        made, wanted = made + 1, max(wanted, runs_of(seconds))
    return best, peak


def cases(program, groups):
    """The rows of the table: a name, the script, the script to be taken off, and the group for the native program, if it makes these
    polynomials."""
    for letter, rank in groups:
        group, words = elements(program, letter, rank)
        yield (f"all Q(x,w0) of {letter} {rank}", group + "\n" + "".join(f"invpol {x} {words[-1]}\n" for x in words),
               group + "\n" + "".join(f"length {x}\n" for x in words), (letter, rank))
    for times in (4, 6, 8):
        word = "123" * times
        yield f"Q(e,w) for 123 {times} times, affine A 2", f"{AFFINE_A2}\ninvpol e {word}\n", f"{AFFINE_A2}\nlength {word}\n", None


def main():
    """Prints the table."""
    parser = argparse.ArgumentParser(description=__doc__.splitlines()[0])
    parser.add_argument("--native")
    parser.add_argument("--groups")
    parser.add_argument("programs", nargs="*")
    given = parser.parse_args()
    programs = [os.path.abspath(p) for p in given.programs] or [os.path.join(TOP, "crates", "coxeter", "out", "coxeter")]
    groups = [(g.split()[0], int(g.split()[1])) for g in given.groups.split(",")] if given.groups else GROUPS
    heads = [f"s {k + 1} | MiB {k + 1}" for k in range(len(programs))] + (["s native | MiB native"] if given.native else [])
    print("| what | " + " | ".join(heads) + " |")
    print("|---|" + "---|---|" * len(heads))
    for name, script, empty, group in cases(programs[0], groups):
        figures = ["{:.4f} | {:.1f}".format(*least([program], script, empty)) for program in programs]
        if given.native:
            figures.append("{:.4f} | {:.1f}".format(*native(given.native, *group)) if group else " | ")
        print(f"| {name} | " + " | ".join(figures) + " |", flush=True)


if __name__ == "__main__":
    main()
