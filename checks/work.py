#!/usr/bin/env python3
"""Counts the work that scripts cost, and compares it with the figures of checks/work.csv.

    checks/work.py [--only TEXT] [PROGRAM]
    checks/work.py --write [PROGRAM]

No clause says how much a session costs: a body that makes a row anew which was there, asks no workers, or takes no symmetry answers the same
bytes. So each of some scripts is run under valgrind's callgrind, with one worker or with four. Counted are the millions of instructions of
all threads, the rows that are made by adding up (calls of `RowPlan::finish`), and the rows that workers publish (`RowStore::publish`).

- *One row*, and all rows of a group: the recursion, symmetries, what workers share.
- *Sessions*: elements of a finite group, of an infinite one, in falling order, and two commands in turn: what is kept is used.
- *Lists*: rows are made ahead for all blocks at once, or for one after another where they have little in common.

A figure differs where it is more than a tenth above or below that of the file. With four workers it depends on which thread comes first:
rows that are made are then allowed a fifth. With `--write` the figures are put there, of a program that is known to be right. The names of
functions are read off the program, which has to be built as the gate builds it.

The last line has counts, and the exit status is 1 where something differs. It needs Python 3 and valgrind, takes a few minutes, and is no
part of the gate.
"""
import argparse
import csv
import os
import random
import re
import subprocess
import sys
import tempfile

from common import TOP, Count, program

FIGURES = os.path.join(TOP, "checks", "work.csv")
HEAD = ["script", "workers", "million_instructions", "rows_made", "rows_published"]
# How much more or less than the figure is taken for the same.
TENTH, FIFTH = 0.1, 0.2


def words(rank, lengths, seed):
    """Words of these lengths, of letters at random."""
    chance = random.Random(seed)
    return ["".join(str(chance.randint(1, rank)) for _ in range(length)) for length in lengths]


def session(group, lines):
    return "\n".join([group, *lines]) + "\n"


def asked(name, given):
    """A question `pol e w`, `invpol e w` or `mu e w` for each of these words."""
    return [f"{name} e {word}" for word in given]


def in_turn(*lists):
    """The first of each list, then the second, and so on."""
    return [line for lines in zip(*lists) for line in lines]


def jobs(blocks):
    """A list of blocks of lines."""
    return ["jobs", *"\nnext\n".join("\n".join(block) for block in blocks).split("\n"), "end"]


E6_ROW = "1342543165423413542316542345"
E8_WORD = "134254316542"
RISING = [1 + k // 12 for k in range(240)]
# The scripts by name, each with the numbers of workers that it is run with.
SCRIPTS = {
    "one row of E 6": ((1, 4), session("type E 6", [f"pol e {E6_ROW}"])),
    "all rows of D 5": ((1, 4), session("type D 5", ["lrcells"])),
    "all rows of D 4 asked again": ((1,), session("type D 4", ["lcells", "rcells", "invpol e 12", "lrcells", "invpol e 21", "wgraph"])),
    "B 5 rising": ((1, 4), session("type B 5", asked("pol", words(5, RISING, 1)))),
    "B 5 falling": ((1,), session("type B 5", asked("pol", words(5, RISING[::-1], 2)))),
    "affine A 2 rising": ((1, 4), session("type a 2", asked("pol", words(3, RISING, 3)))),
    "affine A 3 falling": ((1,), session("type a 3", asked("mu", words(4, RISING[::-1], 4)))),
    "B 4, pol and invpol in turn": ((1,), session("type B 4", in_turn(asked("pol", words(4, RISING[:100], 5)), asked("invpol", words(4, RISING[:100], 6))))),
    "D 4, mu and lcells in turn": ((1,), session("type D 4", in_turn(asked("mu", words(4, RISING[:60], 7)), ["lcells"] * 60))),
    "B 4, klbasis and betti in turn": ((1,), session("type B 4", in_turn([f"klbasis {it}" for it in words(4, RISING[:60], 8)], [f"betti {it}" for it in words(4, RISING[:60], 9)]))),
    "E 8, cert and its row": ((1,), session("type E 8", [f"cert {E8_WORD}", f"extremals {E8_WORD}", f"cert {E8_WORD}", f"coatoms {E8_WORD}"])),
    "a list in D 5, a word a block": ((1, 4), session("type D 5", jobs([[f"pol e {it}", f"ihbetti {it}"] for it in words(5, RISING[::16], 10)]))),
    "a list in B 4 with cert": ((1, 4), session("type B 4", jobs([[f"cert {it}"] * 3 for it in words(4, RISING[::16], 11)]))),
    "a list on all of D 4": ((1, 4), session("type D 4", jobs([["lcells"], ["rcells"], ["invpol e 1234"], ["pol e 2342"]]))),
    "a list in affine A 2": ((1, 4), session("type a 2", jobs([asked("pol", words(3, RISING[k::40], 12 + k)) for k in range(8)]))),
    "work in B 5": ((1, 4), session("type B 5", ["work 7 60"])),
    "a module of D 4": ((1,), session("type D 4", ["module 2", "module 2", "module 12"])),
}


def counted(tool, name):
    """How often the functions of this name were called, by callgrind's file."""
    known, calls, is_called = {}, 0, False
    for line in tool:
        named = re.match(r"(c?fn)=\((\d+)\)(?: (.*))?", line)
        if named:
            known[named[2]] = named[3] or known.get(named[2], "")
            is_called = named[1] == "cfn" and name in known[named[2]]
        elif line.startswith("calls=") and is_called:
            calls, is_called = calls + int(line.split()[0].removeprefix("calls=")), False
    return calls


def work(coxeter, script, workers):
    """The millions of instructions, the rows made and the rows published of one run."""
    with tempfile.TemporaryDirectory() as folder:
        # (some runs leave a file for each thread, others one for all)
        out = os.path.join(folder, "out")
        words = ["valgrind", "--tool=callgrind", f"--callgrind-out-file={out}", coxeter, "--workers", str(workers)]
        ran = subprocess.run(words, input=script.encode(), stdout=subprocess.DEVNULL, stderr=subprocess.PIPE)
        total = re.search(rb"Collected : (\d+)", ran.stderr)
        if ran.returncode not in (0, 1) or not total:
            sys.exit(f"callgrind counts nothing: {ran.stderr.decode(errors='replace')[-400:]}")
        with open(out, encoding="utf-8", errors="replace") as tool:
            lines = tool.readlines()
    return [round(int(total[1]) / 1e6, 1), counted(lines, "RowPlan::finish"), counted(lines, "RowStore::publish")]


def is_near(figure, wanted, share):
    """Whether a figure is the wanted one, but for this share of it."""
    return abs(figure - wanted) <= max(share * wanted, 1)


def main():
    parser = argparse.ArgumentParser(description=__doc__, formatter_class=argparse.RawDescriptionHelpFormatter)
    parser.add_argument("--write", action="store_true", help="put the figures into checks/work.csv")
    parser.add_argument("--only", default="", metavar="TEXT", help="the scripts with this text in their names")
    parser.add_argument("program", nargs="*", metavar="PROGRAM")
    given = parser.parse_args()
    if given.write and given.only:
        parser.error("--write takes all scripts")
    coxeter, count = program(given.program), Count()
    rows = []
    wanted = {}
    if not given.write:
        with open(FIGURES, encoding="utf-8") as figures:
            wanted = {(row["script"], row["workers"]): [float(row[name]) for name in HEAD[2:]] for row in csv.DictReader(figures)}
    for name, (numbers, script) in SCRIPTS.items():
        for workers in numbers if given.only in name else ():
            found = work(coxeter, script, workers)
            rows.append([name, workers, *found])
            print(f"{name}, {workers} workers: {found[0]} million instructions, {found[1]} rows made, {found[2]} published", flush=True)
            figures = wanted.get((name, str(workers)))
            for column, figure, aim in zip(HEAD[2:], found, figures or found):
                share = FIFTH if workers > 1 and column != HEAD[2] else TENTH
                count.check(f"{name}, {workers} workers, {column}", figure if not is_near(figure, aim, share) else aim, aim)
            if not given.write:
                count.check(f"{name}, {workers} workers, in checks/work.csv", figures is not None, True)
    if given.write:
        with open(FIGURES, "w", encoding="utf-8", newline="") as out:
            csv.writer(out, lineterminator="\n").writerows([HEAD, *rows])
    count.end("figures")


if __name__ == "__main__":
    main()
