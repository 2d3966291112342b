#!/usr/bin/env python3
"""How long normal forms and Bruhat order of long words take: 1,000 random words in each group, and 1,000 pairs.

    bench/words.py [--letters N] [--instructions] [PROGRAM [PROGRAM]]
                        the program of this repository, if none is named; two programs run in turn

The words have 255 letters (or N), drawn at random with no letter twice in a row; the first word of a pair for `inorder` is some letters of
the second, in order. Each row has milliseconds of processor time, the least of five runs; a run that sets the group alone is taken off.
With `--instructions` each row has millions of instructions in their place, counted by valgrind's callgrind.
"""
import argparse
import os
import random
import resource
import subprocess
import sys

from intervals import TOP, instructions

COUNT = 1000
RUNS = 5
AFFINE_A8 = "matrix 9 " + " ".join(
    "3" if t == s + 1 or (s, t) == (1, 9) else "2" for s in range(1, 10) for t in range(s + 1, 10))
GROUPS = [
    ("E 8", "type E 8", 8),
    ("affine A 8", AFFINE_A8, 9),
    ("labels 4 4 4", "matrix 3 4 4 4", 3),
    ("labels 0 0 0", "matrix 3 0 0 0", 3),
    ("rank 9, labels 0", "matrix 9 " + " ".join(["0"] * 36), 9),
]


def drawn(draw, rank, count):
    """So many letters at random, from 0, no letter twice in a row."""
    letters = [draw.randrange(rank)]
    while len(letters) < count:
        letters.append((letters[-1] + draw.randrange(1, rank)) % rank)
    return letters


def text(letters):
    """Letters as a word."""
    return "".join(str(letter + 1) for letter in letters) or "e"


def scripts(group, rank, letters):
    """The two scripts of a group: normal forms, and comparisons."""
    draw = random.Random(rank * letters)
    words = [drawn(draw, rank, letters) for _ in range(COUNT)]
    forms = [f"compute {text(word)}" for word in words]
    pairs = [f"inorder {text([a for a in word if draw.random() < 0.5])} {text(word)}" for word in words]
    return [("normal forms", "\n".join([group] + forms) + "\n"), ("inorder", "\n".join([group] + pairs) + "\n")]


def run(program, script):
    """The output of a run, and its seconds of processor time."""
    before = resource.getrusage(resource.RUSAGE_CHILDREN)
    ran = subprocess.run([program], input=script.encode(), stdout=subprocess.PIPE)
    after = resource.getrusage(resource.RUSAGE_CHILDREN)
    if ran.returncode != 0:
        sys.exit(f"the program ended with status {ran.returncode} on:\n{script[:400]}")
    return ran.stdout, after.ru_utime + after.ru_stime - before.ru_utime - before.ru_stime


def measure(programs, empty, script, counted):
    """For each program what it takes beyond a run that sets the group, in milliseconds or millions of instructions; and whether all answer
    alike."""
    outputs = {run(program, script)[0] for program in programs}
    if counted:
        return [(instructions(program, script) - instructions(program, empty)) / 1e6 for program in programs], len(outputs) == 1
    rounds = [[(run(program, script)[1], run(program, empty)[1]) for program in programs] for _ in range(RUNS)]
    return [1000 * (min(r[k][0] for r in rounds) - min(r[k][1] for r in rounds)) for k in range(len(programs))], len(outputs) == 1


def main():
    """Prints the table."""
    parser = argparse.ArgumentParser(description=__doc__.splitlines()[0])
    parser.add_argument("--letters", type=int, default=255)
    parser.add_argument("--instructions", action="store_true")
    parser.add_argument("programs", nargs="*")
    given = parser.parse_args()
    programs = [os.path.abspath(p) for p in given.programs] or [os.path.join(TOP, "crates", "coxeter", "out", "coxeter")]
    unit = "10^6 instructions" if given.instructions else "ms"
    print(f"| group | what | " + " | ".join(f"{unit} {k + 1}" for k in range(len(programs))) + " | same answers |")
    print("|---|---|" + "---|" * len(programs) + "---|")
    for name, group, rank in GROUPS:
        for what, script in scripts(group, rank, given.letters):
            values, alike = measure(programs, f"{group}\nlength e\n", script, given.instructions)
            print(f"| {name} | {what} | " + " | ".join(f"{value:.1f}" for value in values) + f" | {'yes' if alike else 'no'} |", flush=True)


if __name__ == "__main__":
    main()
