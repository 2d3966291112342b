#!/usr/bin/env python3
"""How long certificates take, and how much memory: the checker, and with --cert the program that makes them.

    bench/cert.py [--native FILE] [--cert] [PROGRAM CHECKER]
                        the programs of this repository, if none are named

Each row is a certificate, most of them of nearly 4,096 elements or of an element of nearly 39 letters. The program makes it once, and the
checker reads it, which has to say yes. `--native FILE` names a program that checks the same, not verified, as bench/native/cert.rs (called as FILE t, with
the certificate as its input); it runs in turn with the checker. `--cert` measures `cert w` beside `klbasis w` in its place; the time of a run
that asks `length w` is taken off.

Each figure is the least of five runs, of sixty where a run takes less than a tenth of a second, or of one where it takes more than ten
seconds: seconds of processor time, and the peak of memory of the whole run, as the kernel tells it (bench/measure.c, which is built by cc).
"""
import argparse
import os
import subprocess
import sys
import tempfile

from intervals import TOP
from rows import AFFINE_A2, AFFINE_A3, runs_of

# The name, the line that sets the group, and the element.
CASES = [
    ("A 5, longest", "type A 5", "121321432154321"),
    ("D 5, longest", "type D 5", "12345" * 4),
    ("B 5, longest", "type B 5", "12345" * 5),
    ("E 6", "type E 6", "4542314354654231"),
    ("E 8", "type E 8", "425423167654234"),
    ("affine A 2", AFFINE_A2, "123" * 13),
    ("affine A 3", AFFINE_A3, "41232141232141232141232"),
    ("affine A 11", "type a 11", "1.4.6.5.7.8.7.6.5.4.9.8.7.11"),
    ("a triangle of labels 4", "matrix 3 4 4 4", "31212321313212323132"),
    ("rank 16, labels infinity", "matrix 16 " + " ".join(["0"] * 120), "9.8.10.6.15.1.7.13.14.3.2.16"),
    ("three dihedral groups", "matrix 6 0 2 2 2 2 2 2 2 2 0 2 2 2 2 0", "12" + "34" * 4 + "3" + "56" * 14),
]


def certificate(program, group, word):
    """The certificate as the program writes it."""
    ran = subprocess.run([program], input=f"{group}\ncert {word}\n".encode(), stdout=subprocess.PIPE)
    if ran.returncode != 0:
        sys.exit(f"{program} refuses cert {word} in {group}")
    return ran.stdout.decode()


def built_measure(folder):
    """The program of bench/measure.c, built in a folder."""
    measure = os.path.join(folder, "measure")
    subprocess.run(["cc", "-O2", "-o", measure, os.path.join(TOP, "bench", "measure.c")], check=True)
    return measure


def run(measure, words, text, fine=(0,)):
    """The seconds of processor time and the peak of memory in MiB of a run, which ends with one of these statuses. What it writes goes
    nowhere."""
    ran = subprocess.run([measure, *words], input=text.encode(), stdout=subprocess.DEVNULL, stderr=subprocess.PIPE)
    if ran.returncode not in fine:
        sys.exit(f"{words[0]} ended with status {ran.returncode}: {ran.stderr.decode()[-400:]}")
    seconds, kib = ran.stderr.decode().split()[-2:]
    return float(seconds), int(kib) / 1024


def in_turn(measure, runs, run=run, rounds=max):
    """The least of each figure of each run, a command and its input; each is made once in each round. Seconds are the first figure. How
    many rounds there are is chosen from what each run asks for, the most if nothing is said."""
    best = [run(measure, *it) for it in runs]
    for _ in range(rounds(runs_of(seconds) for seconds, *_ in best) - 1):
        best = [tuple(map(min, old, run(measure, *it))) for old, it in zip(best, runs)]
    return best


def figures(measure, given, program, checker, case):
    """The certificate of a case, and what is measured of it."""
    _, group, word = case
    text = certificate(program, group, word)
    if given.cert:
        *found, (empty, _) = in_turn(measure, [([program], f"{group}\n{command} {word}\n") for command in ("cert", "klbasis", "length")])
        return text, [(seconds - empty, peak) for seconds, peak in found]
    return text, in_turn(measure, [(words, text) for words in [[checker]] + ([[given.native, "t"]] if given.native else [])])


def main():
    """Prints the table."""
    parser = argparse.ArgumentParser(description=__doc__.splitlines()[0])
    parser.add_argument("--native")
    parser.add_argument("--cert", action="store_true")
    parser.add_argument("programs", nargs="*")
    given = parser.parse_args()
    built = [os.path.join(TOP, "crates", name, "out", name) for name in ("coxeter", "coxcheck")]
    program, checker = [os.path.abspath(p) for p in given.programs] or built
    names = ["cert", "klbasis"] if given.cert else ["coxcheck", "native"][: 2 if given.native else 1]
    print("| row | letters | elements | KB | " + " | ".join(f"s {it} | MiB {it}" for it in names) + " |")
    print("|---|---|---|---|" + "---|---|" * len(names))
    with tempfile.TemporaryDirectory() as folder:
        measure = built_measure(folder)
        for case in CASES:
            text, found = figures(measure, given, program, checker, case)
            lines = text.splitlines()
            element = lines[1].split(" ")[1]
            letters = element.count(".") + 1 if "." in element else len(element)
            shown = " | ".join("{:.4f} | {:.1f}".format(*it) for it in found)
            print(f"| {case[0]} | {letters} | {len(lines) - 4} | {len(text) / 1000:.0f} | {shown} |", flush=True)


if __name__ == "__main__":
    main()
