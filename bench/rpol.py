#!/usr/bin/env python3
"""How long `rpol` takes, and how much memory: words of up to 39 letters in groups where many elements lie below them.

    bench/rpol.py [PROGRAM [PROGRAM]]   the program of this repository, if none is named; two programs run in turn

Each row is `rpol y w` of one pair of elements: seconds of processor time, the least of three runs, and the peak of one run's memory in MiB,
as the kernel keeps it (VmHWM), so this script runs on Linux alone. A run that sets the group alone is taken off both.
"""
import os
import random
import resource
import subprocess
import sys

from intervals import peak

HERE = os.path.dirname(os.path.abspath(__file__))
TOP = os.path.dirname(HERE)
LETTERS = 39
RUNS = 3

INFINITE = "matrix 9 " + " ".join(["0"] * 36)
THREES = "matrix 9 " + " ".join(["3"] * 36)
AFFINE_A8 = "matrix 9 " + " ".join(
    "3" if t == s + 1 or (s, t) == (1, 9) else "2" for s in range(1, 10) for t in range(s + 1, 10))
GROUPS = [("labels 0", INFINITE, 9), ("labels 3", THREES, 9), ("affine A 8", AFFINE_A8, 9), ("E 8", "type E 8", 8)]


def repeated(rank):
    """123.. again and again."""
    return "".join(str(k % rank + 1) for k in range(LETTERS))


def palindrome():
    """A word that reads the same from both ends, no letter twice in a row: its first half has 2^19 subwords, and most of their elements
    differ."""
    half = repeated(9)[:LETTERS // 2]
    return half + "5" + half[::-1]


def chosen(rank, seed):
    """Letters at random, no letter twice in a row: more than are wanted, since the word need not be reduced."""
    draw = random.Random(seed)
    letters = [draw.randrange(rank)]
    while len(letters) < LETTERS:
        letters.append((letters[-1] + draw.randrange(1, rank)) % rank)
    return "".join(str(letter + 1) for letter in letters)


def cases():
    """The rows: a name, the line that sets the group, and the two words."""
    for name, group, rank in GROUPS:
        yield f"{name}, 12..{rank}12..", group, "e", repeated(rank)
    for name, group, rank in GROUPS:
        yield f"{name}, a random word", group, "e", chosen(rank, 1)
    for name, group, _ in GROUPS[:3]:
        yield f"{name}, a palindrome", group, "e", palindrome()


def run(program, script):
    """The output of a run, and the seconds of processor time that it took."""
    before = resource.getrusage(resource.RUSAGE_CHILDREN)
    ran = subprocess.run([program], input=script.encode(), stdout=subprocess.PIPE)
    after = resource.getrusage(resource.RUSAGE_CHILDREN)
    if ran.returncode != 0:
        sys.exit(f"the program ended with status {ran.returncode} on:\n{script}")
    seconds = after.ru_utime + after.ru_stime - before.ru_utime - before.ru_stime
    return ran.stdout.decode(), seconds


def measure(program, group, y, w):
    """The polynomial, and what one `rpol` takes beyond a run that sets the group alone: seconds and MiB."""
    empty, script = f"{group}\nlength e\n", f"{group}\nrpol {y} {w}\n"
    runs = [run(program, script) for _ in range(RUNS)]
    idle = min(run(program, empty)[1] for _ in range(RUNS))
    seconds = max(0.0, min(seconds for _, seconds in runs) - idle)
    memory = max(0.0, peak(program, script, 1) - peak(program, empty, 1))
    return runs[0][0].strip(), seconds, memory


def main():
    """Prints the table."""
    programs = [os.path.abspath(word) for word in sys.argv[1:]] or [os.path.join(TOP, "crates", "coxeter", "out", "coxeter")]
    print("| w, y = e | " + " | ".join(f"seconds {k + 1} | MiB {k + 1}" for k in range(len(programs))) + " | polynomial |")
    print("|---|" + "---|---|" * len(programs) + "---|")
    for name, group, y, w in cases():
        rows = [measure(program, group, y, w) for program in programs]
        texts = {text for text, _, _ in rows}
        text = texts.pop() if len(texts) == 1 else "they differ"
        columns = " | ".join(f"{seconds:.2f} | {memory:.1f}" for _, seconds, memory in rows)
        print(f"| {name} | {columns} | {text[:40]} |", flush=True)


if __name__ == "__main__":
    main()
