#!/usr/bin/env python3
"""Inverse Kazhdan-Lusztig polynomials that the built program prints, by what they have to be.

    checks/inverse.py [PROGRAM]

- In A 4, B 3, D 4 and F 4, for all pairs x, w: Q(x,w) = P(w0 w, w0 x) for the longest element w0 (Kazhdan and Lusztig 1979, theorem
  3.1), by the lines that `klbasis` prints; in A 5 and B 4 for 200 pairs at random. In F 4 the rows of the whole group are made first, so
  that the program reads off each polynomial; in the others w rises, so that it sums them up until the last.
- In the affine group of A 2, for all pairs of elements of up to 8 letters, and in A 3 and B 3: by the definitions (checks/definitions.py).

It prints what differs, and a last line with counts; the exit status is 1 where something differs. It needs Python 3 alone, and is no part
of the gate.
"""
import random
import subprocess
import sys

from answers import Answers, polynomial_text, terms_of
from common import Count, program
from definitions import finite_group, labels_of

# The type and the rank, whether all rows are made first, and how many pairs are asked for, at random; all pairs where there is no number.
FINITE = [("A", 4, False, None), ("B", 3, False, None), ("D", 4, False, None), ("F", 4, True, None)]
FINITE += [("A", 5, False, 200), ("B", 4, False, 200)]
# How many lines one run is given at most: the input of a run has a limit.
LINES = 200_000
# The line that sets the group, its rank, its labels above the diagonal, and the most letters.
DEFINED = [
    ("matrix 3 3 3 3", 3, (3, 3, 3), 8),
    ("type A 3", 3, labels_of("A", 3), None),
    ("type B 3", 3, labels_of("B", 3), None),
]


def ask(built, script):
    """The lines that the program answers."""
    return subprocess.run([built], input=script.encode(), capture_output=True, timeout=600).stdout.decode().splitlines()


def longest(built, line, rank):
    """The longest element, letter by letter."""
    word = ""
    while True:
        [descents] = ask(built, f"{line}\ndescent {word or 'e'}\n")
        missing = [s for s in map(str, range(1, rank + 1)) if s not in descents.split()[3]]
        if not missing:
            return word
        word += missing[0]


def rows(built, line, elements):
    """P(x,w) for all x <= w, by the pair of words, as the program writes it."""
    found, answers = {}, iter(ask(built, line + "\n" + "".join(f"klbasis {w}\n" for w in elements)))
    for w in elements:
        for _ in range(int(next(answers))):
            x, _, polynomial = next(answers).partition(":")
            found[x, w] = polynomial
    return found


def inverses(built, line, pairs, first=None):
    """Q(x,w) for these pairs. If a first pair is given, each run is asked for that before all others, and its answer is left out."""
    begin = [first] if first else []
    for at in range(0, len(pairs), LINES):
        asked = begin + pairs[at : at + LINES]
        answers = ask(built, line + "\n" + "".join(f"invpol {x} {w}\n" for x, w in asked))
        assert len(answers) == len(asked), f"{len(answers)} answers to {len(asked)} lines"
        yield from answers[len(begin) :]


def check_finite(count, built, kind, rank, whole, number):
    """All pairs of a finite group, or some, against the row of the other element."""
    line = f"type {kind} {rank}"
    top = longest(built, line, rank)
    elements = ask(built, f"{line}\ninterval e {top}\n")[1:]
    script = line + "\n" + "".join(f"compute {top}{'' if x == 'e' else x}\n" for x in elements)
    turned = dict(zip(elements, ask(built, script), strict=True))
    polynomials = rows(built, line, elements)
    pairs = [(x, w) for w in elements for x in elements]
    if number:
        pairs = random.Random(rank).sample(pairs, number)
    answers = inverses(built, line, pairs, ("e", top) if whole else None)
    for (x, w), answer in zip(pairs, answers, strict=True):
        count.check(f"Q({x},{w}) in {kind} {rank}", answer, polynomials.get((turned[w], turned[x]), "0"))


def check_defined(count, built, line, rank, labels, most):
    """All pairs against the definition."""
    group = finite_group(rank, labels, most)
    names = [Answers(group).name(i) for i in range(group.size)]
    answers = iter(inverses(built, line, [(x, w) for w in names for x in names]))
    for w in range(group.size):
        row = group.inverse_row(w)
        for x in range(group.size):
            count.check(f"Q({names[x]},{names[w]}) in {line}", next(answers, None), polynomial_text(terms_of(row.get(x, 0))))


def main():
    count, built = Count(), program(sys.argv[1:])
    for case in FINITE:
        check_finite(count, built, *case)
    for case in DEFINED:
        check_defined(count, built, *case)
    count.end("inverse polynomials")


main()
