#!/usr/bin/env python3
"""How long cells of whole groups take, and how much memory; and generated work.

    bench/cells.py [--native FILE] [--instructions] [--groups "A 6,D 6"] [PROGRAM [PROGRAM]]
                        the program of this repository, if none is named; two programs run in turn

- `lrcells` of a finite group: all rows, and then the cells. What is printed goes to /dev/null.
- `lcells`, and `module` of the largest left cell, of A 7, B 6 and E 6, or of those of `--groups` among them.
- `work 7 100000` in A 4.

`--native FILE` names a program that does the same, as bench/native/cells.rs (called as FILE LETTER N); it runs in turn with the others, and its
whole time counts.
Each figure is the least of five runs, or of one where a run takes more than ten seconds. Memory is the peak of the whole run, as the kernel
tells it. With `--instructions` each row has millions of instructions in place of times, counted by valgrind's callgrind.
"""
import argparse
import os
import subprocess

from intervals import TOP, instructions
from rows import least

GROUPS = [("A", 6), ("D", 6), ("A", 7), ("B", 6), ("E", 6), ("A", 8), ("D", 7)]
MODULES = [("A", 7), ("B", 6), ("E", 6)]


def largest_cell(program, group):
    """An element of the largest left cell."""
    ran = subprocess.run([program], input=f"{group}\nlcells\n", capture_output=True, text=True, check=True)
    return max(ran.stdout.splitlines()[1:], key=lambda cell: cell.count(" ")).split(" ")[0]


def cases(groups, program):
    """The rows of the table: a name, the script, and the group for the native program, if it does the same."""
    for letter, rank in groups:
        yield f"lrcells of {letter} {rank}", f"type {letter} {rank}\nlrcells\n", [letter, str(rank)]
    for letter, rank in MODULES:
        if (letter, rank) in groups:
            group = f"type {letter} {rank}"
            yield f"lcells of {letter} {rank}", f"{group}\nlcells\n", None
            yield "module of the largest of them", f"{group}\nmodule {largest_cell(program, group)}\n", None
    yield "work 7 100000 in A 4", "type A 4\nwork 7 100000\n", None


def main():
    """Prints the table."""
    parser = argparse.ArgumentParser(description=__doc__.splitlines()[0])
    parser.add_argument("--native")
    parser.add_argument("--instructions", action="store_true")
    parser.add_argument("--groups")
    parser.add_argument("programs", nargs="*")
    given = parser.parse_args()
    programs = [os.path.abspath(p) for p in given.programs] or [os.path.join(TOP, "crates", "coxeter", "out", "coxeter")]
    groups = [(g.split()[0], int(g.split()[1])) for g in given.groups.split(",")] if given.groups else GROUPS
    unit = "10^6 instructions" if given.instructions else "s"
    heads = [f"{unit} {k + 1} | MiB {k + 1}" for k in range(len(programs))] + (["s native | MiB native"] if given.native else [])
    print("| what | " + " | ".join(heads) + " |")
    print("|---|" + "---|---|" * len(heads))
    for name, script, group in cases(groups, programs[0]):
        figures = []
        for program in programs:
            seconds, peak = least([program], script, None)
            if given.instructions:
                seconds = instructions(program, script) / 1e6
            figures.append(f"{seconds:.3f} | {peak:.1f}")
        if given.native:
            figures.append("{:.3f} | {:.1f}".format(*least([given.native] + group, "", None)) if group else " | ")
        print(f"| {name} | " + " | ".join(figures) + " |", flush=True)


if __name__ == "__main__":
    main()
