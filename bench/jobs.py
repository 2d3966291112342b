#!/usr/bin/env python3
"""How much faster lists of jobs are with several workers, and what a list costs with one.

    bench/jobs.py [--workers "1,4"] [--runs N] [--only NAME] [PROGRAM]
                        the program of this repository, if none is named

Each row is a list of 16 blocks with lines of the same kind:

- `rows`: `klbasis w` of an element of E 6 with 28 letters in each block,
- `work`: 100,000 words of `work` in A 4,
- `rpol`: R(e,w) of 4 elements of E 8 with 39 letters, powers of Coxeter elements,
- `intervals`: `betti w` of an element of D 7, with some 100,000 elements below it.

`lines` is a run of the same lines without `jobs`, with one worker. It and the numbers of workers run in turn, and each figure is the least
of all runs: seconds of the clock, and how many times faster that is than the list with the first number of workers. The texts have to be the
same each time. The last column tells what the machine has to give at the time: as many runs of the list with one worker as the greatest number
says, side by side, and how much longer that takes than one of them alone.
"""
import argparse
import os
import random
import sys

from intervals import TOP
from rows import elements
from workers import run, side_by_side

BLOCKS = 16
LETTERS_OF_ROWS = 28
LETTERS_OF_RPOL = 39
WORDS = 100_000
BELOW = 100_000


def longest(program, letter, rank):
    """A reduced word of the longest element."""
    return elements(program, letter, rank)[1][-1]


def rows(program):
    """Rows of E 6."""
    group, words = elements(program, "E", 6)
    chosen = random.Random(1).sample([word for word in words if len(word) == LETTERS_OF_ROWS], BLOCKS)
    return group, [[f"klbasis {word}"] for word in chosen]


def work(_program):
    """Sums over generated words of A 4."""
    return "type A 4", [[f"work {start} {WORDS}"] for start in range(1, BLOCKS + 1)]


def rpol(_program):
    """R-polynomials in E 8. The letters in some order, again and again, are a reduced word up to the longest element."""
    chance = random.Random(1)

    def line():
        return "rpol e " + ("".join(chance.sample("12345678", 8)) * 5)[:LETTERS_OF_RPOL]

    return "type E 8", [[line() for _ in range(4)] for _ in range(BLOCKS)]


def intervals(program):
    """Intervals of D 7: factors of a reduced word of its longest element, which are reduced too."""
    word = longest(program, "D", 7)
    for length in range(len(word) // 2, len(word)):
        text, _, _ = run([program], f"type D 7\nbetti {word[:length]}\n")
        if sum(map(int, text.split())) >= BELOW:
            break
    starts = [k % (len(word) - length + 1) for k in range(BLOCKS)]
    return "type D 7", [[f"betti {word[start:start + length]}"] for start in starts]


CASES = {"rows": rows, "work": work, "rpol": rpol, "intervals": intervals}


def main():
    """Prints the table."""
    parser = argparse.ArgumentParser(description=__doc__.splitlines()[0])
    parser.add_argument("--workers", default="1,4")
    parser.add_argument("--runs", type=int, default=5)
    parser.add_argument("--only", choices=CASES)
    parser.add_argument("program", nargs="?", default=os.path.join(TOP, "crates", "coxeter", "out", "coxeter"))
    given = parser.parse_args()
    program = os.path.abspath(given.program)
    numbers = [int(number) for number in given.workers.split(",")]
    print("| what | lines | " + " | ".join(f"s {n} | times" for n in numbers) + f" | {max(numbers)} runs at once |")
    print("|---|---|" + "---|---|" * len(numbers) + "---|")
    for name in [given.only] if given.only else CASES:
        group, blocks = CASES[name](program)
        texts_of_blocks = ["\n".join(lines) for lines in blocks]
        plain = "\n".join([group, *texts_of_blocks]) + "\n"
        listed = group + "\njobs\n" + "\nnext\n".join(texts_of_blocks) + "\nend\n"
        alone, at_once = float("inf"), float("inf")
        best = {number: float("inf") for number in numbers}
        texts = set()
        for _ in range(given.runs):
            text, clock, _ = run([program], plain)
            texts.add(text)
            alone = min(alone, clock)
            for number in numbers:
                text, clock, _ = run([program, "--workers", str(number)], listed)
                texts.add(text)
                best[number] = min(best[number], clock)
            at_once = min(at_once, side_by_side(program, listed, max(numbers)))
        if len(texts) > 1:
            sys.exit(f"the text depends on the number of workers, or on the list: {name}")
        first = best[numbers[0]]
        columns = [f"{best[number]:.3f} | {first / best[number]:.2f}" for number in numbers]
        print(f"| {name} | {alone:.3f} | " + " | ".join(columns) + f" | {at_once / first:.2f} |", flush=True)


if __name__ == "__main__":
    main()
