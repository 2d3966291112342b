#!/usr/bin/env python3
"""Asks the built programs large questions, with a small stack, and where several workers wait for
one another.

    checks/large.py [PROGRAM CHECKER]

No clause speaks of the stack, and want of memory may always be answered. So a body that uses much
stack, or gives up where much is asked for, would be proved. Here each run has a stack of 128 KiB,
for each thread too, and has to end by status 0 with the whole answer:

- `lcells` of A 6, E 6 and D 7 with 1, 2 and 4 workers, several times each, also as jobs; a run that
  does not end in time differs.
- `work` over 1,000,000 words; intervals of 645,120 and 967,680 members; an answer of more than 20
  MB; the W-graph of a group of 103,680 elements; two intervals of more than 5,000 elements in one
  session; the module of a left cell of 90 elements; R of 39 letters; inverse polynomials Q(z,w) of
  252 elements z; a certificate of 4,096 entries with polynomials other than 1, and its check.
- Each command in D 5, and in a list of jobs, with 1, 2, 4 and 16 workers.

What is expected is counted by the degrees of the groups (Humphreys, "Reflection Groups and Coxeter
Groups", 3.15), is in the literature, as the numbers of left cells (Geck and Pfeiffer), or meets
equations: the relations of modules, the inversion of polynomials. It prints what differs, and a
last line with counts; the exit status is 1 where something differs. It needs Python 3 and Linux
alone, takes some minutes, and is no part of the gate.
"""
import os
import resource
import subprocess
import sys
import time
from itertools import combinations

import believed
from common import TOP, Count, program
from answers import polynomial_text, terms_of
from counts import betti, powers, staircase, text
from definitions import finite_group, labels_of
from modules import braids, quadratic, read_module

STACK = 128 << 10
SECONDS = 600
COUNT = Count()
SHARED = [[], ["--workers", "2"], ["--workers", "4"]]


def small_stack():
    resource.setrlimit(resource.RLIMIT_STACK, (STACK, STACK))


def run(built, script, arguments=(), seconds=SECONDS):
    """The status, the standard output, and the standard error of a run with a small stack."""
    try:
        ran = subprocess.run(
            [built, *arguments],
            input=script,
            capture_output=True,
            timeout=seconds,
            preexec_fn=small_stack,
        )
    except subprocess.TimeoutExpired:
        return f"none in {seconds} seconds", b"", b""
    return ran.returncode, ran.stdout, ran.stderr


def answer(what, built, script, arguments=(), seconds=SECONDS):
    """The lines of an answer, which has to be whole."""
    status, out, error = run(built, script.encode(), arguments, seconds)
    COUNT.check(f"{what}: how it ends", (status, error), (0, b""))
    return out.decode().splitlines()


def part(function):
    """Says how long a part of this script takes."""

    def timed(*words):
        begun = time.monotonic()
        function(*words)
        print(f"{function.__name__}: {time.monotonic() - begun:.1f} s", flush=True)

    return timed


# The group, how many left cells it has, where that is published, its order, and how often it is
# asked for.
CELLS = [("A 6", 232, 5_040, 20), ("E 6", 652, 51_840, 4), ("D 7", None, 322_560, 1)]


def same(what, got, wanted):
    """Compares how a run ended, and then what it wrote, without showing all of that."""
    COUNT.check(f"{what}: how it ends", (got[0], got[2]), (0, b""))
    COUNT.check(f"{what}: the same text", got[1] == wanted, True)


@part
def cells(built):
    """Left cells, and how many elements they have; the same with workers, over and over."""
    for group, left, order, times in CELLS:
        script = f"type {group}\nlcells\n".encode()
        status, wanted, error = run(built, script)
        lines = wanted.split(b"\n")
        size = sum(line.count(b" ") + 1 for line in lines[1:-1])
        COUNT.check(f"lcells of {group}: how it ends", (status, error), (0, b""))
        COUNT.check(f"elements of the left cells of {group}", size, order)
        COUNT.check(f"left cells of {group}", int(lines[0] or 0), left or len(lines) - 2)
        for workers in SHARED[1:]:
            for _ in range(times):
                same(f"lcells of {group} {workers}", run(built, script, workers), wanted)
            if group != "D 7":
                jobs = f"type {group}\njobs\nlcells\nnext\nlcells\nnext\nlength e\n".encode()
                same(f"{group} as jobs {workers}", run(built, jobs, workers), wanted * 2 + b"0\n")


@part
def generated(built):
    """In A 1 each word has 12 letters 1, and so is the identity, whose row has one polynomial,
    1."""
    for workers in SHARED:
        got = answer(f"work in A 1 {workers}", built, "type A 1\nwork 7 1000000\n", workers)
        COUNT.check(
            f"work in A 1 {workers}", got, ["words 1000000 entries 1000000 degree 0 sum 1000000"],
        )


@part
def intervals(built):
    """The numbers of elements by length, and lists of them, in B 7 and below a product of A 7 and A
    3 in A 16."""
    seven = betti(range(2, 15, 2))
    got = answer("betti in B 7", built, f"type B 7\nbetti {text(powers(7, 7), 7)}\n")
    COUNT.check("betti in B 7", got, [" ".join(map(str, seven))])
    both = betti([*range(2, 9), *range(2, 5)])
    top = text(staircase(1, 7) + staircase(9, 11), 16)
    lines = answer(
        "interval in A 16", built, f"type A 16\nbetti {top}\ncompute {top}\ninterval e {top}\n",
    )
    COUNT.check("betti in A 16", lines[:1], [" ".join(map(str, both))])
    size = sum(both)
    COUNT.check("how many elements in A 16", lines[2:4] + [len(lines) - 3], [str(size), "e", size])
    COUNT.check("the last element in A 16", lines[-1:], lines[1:2])
    COUNT.check("different elements in A 16", len(set(lines[3:])), size)
    letters = sum(k * number for k, number in enumerate(both))
    COUNT.check(
        "letters of all elements in A 16", sum(line.count(".") + 1 for line in lines[4:]), letters
    )
    COUNT.check("more than 20 MB", sum(len(line) + 1 for line in lines) > 20_000_000, True)


@part
def graph(built):
    """E 6 with a letter that commutes with all others: its W-graph is two of that of E 6, and an
    edge from each element to its other half; its left cells are twice as many."""
    six = {(1, 3), (3, 4), (4, 5), (5, 6), (2, 4)}
    labels = ["3" if pair in six else "2" for pair in combinations(range(1, 8), 2)]
    group = f"matrix 7 {' '.join(labels)}\n"
    small = answer("the W-graph of E 6", built, "type E 6\nlwgraph\n", SHARED[2])
    large = answer("the W-graph of E 6 by A 1", built, group + "lwgraph\n", SHARED[2])
    counts = [(lines[0], len(lines) - 1) for lines in (small, large)]
    COUNT.check("vertices", counts, [("51840", 51_840), ("103680", 103_680)])
    ends = [sum(line.count(":") for line in lines) for lines in (small, large)]
    COUNT.check("ends of edges", ends[1], 2 * ends[0] + 2 * 51_840)
    lines = answer("cells of E 6 by A 1", built, group + "lcells\n", SHARED[2])
    COUNT.check("left cells of E 6 by A 1", (lines[0], len(lines)), ("1304", 1_305))


@part
def sessions(built):
    """Two rows of D 6, of elements with more than 5,000 below them, of which neither is below the
    other: one by one, and in one session."""
    group, words = "type D 6\n", [text(powers(6, 4)[:22], 6), text(powers(6, 4)[:22][::-1], 6)]
    sizes = answer("two intervals of D 6", built, group + "".join(f"betti {w}\n" for w in words))
    COUNT.check(
        "more than 5,000 elements",
        [sum(map(int, it.split())) > 5_000 for it in sizes],
        [True, True],
    )
    orders = answer(
        "two elements of D 6",
        built,
        group + f"inorder {words[0]} {words[1]}\ninorder {words[1]} {words[0]}\n",
    )
    COUNT.check("neither is below the other", orders, ["false", "false"])
    alone = [answer("a row of D 6", built, f"{group}klbasis {w}\n") for w in words]
    for workers in SHARED:
        got = answer(
            f"two rows of D 6 {workers}",
            built,
            group + "".join(f"klbasis {w}\n" for w in words * 2),
            workers,
        )
        COUNT.check(f"two rows of D 6 {workers}", got == (alone[0] + alone[1]) * 2, True)


@part
def module(built):
    """The largest left cells of A 7 have 90 elements, as many as the greatest degree of the
    symmetric group on 8 letters."""
    cells = answer("left cells of A 7", built, "type A 7\nlcells\n")[1:]
    largest = max(cells, key=lambda cell: cell.count(" ")).split(" ")
    COUNT.check("the largest left cell of A 7", len(largest), 90)
    lines = answer("a module of A 7", built, f"type A 7\nmodule {largest[-1]}\n")
    members, operators, used = read_module(lines, 7, 7)
    labels = {(s, s + 1): 3 for s in range(1, 7)}
    COUNT.check("its members", (members, used), (largest, len(lines)))
    COUNT.check(
        "its relations", (quadratic(operators, 90, 7), braids(operators, 90, labels)), (True, True),
    )


def coefficients(polynomial):
    """The coefficients of a polynomial, by degree."""
    found = {}
    terms = polynomial.replace("-", "+-").removeprefix("+").split("+")
    for term in terms if polynomial != "0" else []:
        number, q, degree = term.partition("q")
        power = int(degree[1:] or 1) if q else 0
        found[power] = int(number + "1" if number in ("", "-") else number)
    return found


@part
def inverses(built):
    """In affine A 2, with 252 elements z up to w: the sum of (-1)^l(z) P(e,z) Q(z,w) is 0."""
    group, top = "matrix 3 3 3 3\n", "123" * 6
    elements = answer("an interval of affine A 2", built, f"{group}interval e {top}\n")[1:]
    COUNT.check("elements of affine A 2", len(elements), 252)
    lines = answer(
        "P and Q in affine A 2",
        built,
        group + "".join(f"pol e {z}\ninvpol {z} {top}\n" for z in elements),
    )
    COUNT.check("as many as are asked for", len(lines), 2 * 252)
    total = {}
    for z, p, q in zip(elements, lines[::2], lines[1::2]):
        sign = -1 if z != "e" and len(z) % 2 else 1
        for k, c in coefficients(p).items():
            for j, d in coefficients(q).items():
                total[k + j] = total.get(k + j, 0) + sign * c * d
    COUNT.check("the sum of (-1)^l(z) P(e,z) Q(z,w)", {k: c for k, c in total.items() if c}, {})


@part
def r_polynomials(built):
    """R(e,w) of 39 letters: its degree is 39, and turned round it is itself, with the sign
    (-1)^39."""
    labels = " ".join(
        "3"
        if t == s + 1 or (s, t) == (1, 9) else "2"
        for s in range(1, 10)
        for t in range(s + 1, 10)
    )
    [line] = answer(
        "R in affine A 8", built, f"matrix 9 {labels}\nrpol e {('123456789' * 5)[:39]}\n",
    )
    found = coefficients(line)
    COUNT.check("R in affine A 8", {39 - k: -c for k, c in found.items()}, found)
    COUNT.check(
        "its leading coefficient and its value at 1", (found.get(39), sum(found.values())), (1, 0),
    )


@part
def certificates(built, checker):
    """A row of exactly 4,096 elements: D 4 has one of 64 in which some polynomials are not 1, and
    six letters more commute with that."""
    four = finite_group(4, labels_of("D", 4))
    labels = dict(zip(combinations(range(1, 5), 2), labels_of("D", 4)))
    pairs = combinations(range(1, 11), 2)
    group = "matrix 10 " + " ".join(str(labels.get(pair, 2)) for pair in pairs) + "\n"
    w = [1, 2, 3, 2, 1, 4, 2]
    row = four.row(four.element(w)).values()
    lines = answer(
        "a certificate of 4,096 entries", built, f"{group}cert {text(w + [5, 6, 7, 8, 9, 10], 10)}\n",
    )
    rows = [line.split(":")[1] for line in lines if ":" in line]
    wanted = sorted(polynomial_text(terms_of(p)) for p in row for _ in range(64))
    COUNT.check(
        "its polynomials",
        (len(rows), sorted(rows) == wanted, set(rows) > {"1"}),
        (4_096, True, True),
    )
    verdict = run(checker, "".join(f"{line}\n" for line in lines).encode())
    COUNT.check("its check", verdict, (0, b"yes\n", b""))
    place = next(
        place for place, line in enumerate(lines) if ":" in line and not line.endswith(":1")
    )
    spoiled = [*lines[:place], lines[place].split(":")[0] + ":1", *lines[place + 1 :]]
    status, out, _ = run(checker, "".join(f"{line}\n" for line in spoiled).encode())
    COUNT.check("the check of another one", (status, out), (1, b"no 5\n"))


COMMANDS = [
    "compute",
    "length",
    "inverse",
    "descent",
    "coatoms",
    "betti",
    "klbasis",
    "ihbetti",
    "extremals",
    "cert",
    "module",
]
COMMANDS += ["inorder 13", "interval 13", "rpol 13", "pol 13", "invpol 13", "mu 13"]
OF_GROUP = ["lwgraph", "rwgraph", "lcells", "rcells", "lrcells", "work 7 200"]


@part
def commands(built):
    """Each command in D 5 gives with a small stack what it gives with a large one, whatever the
    number of workers, also in a list."""
    crates = os.path.join(TOP, "crates")
    files = believed.specs([os.path.join(crates, it) for it in os.listdir(crates)])
    asked = [it.split()[0] for it in COMMANDS + OF_GROUP]
    COUNT.check("each command is asked", sorted(asked), sorted(believed.commands(files)))
    lines = [
        f"{command} {w}"
        for command in COMMANDS
        for w in ("e", "1321435", text(powers(5, 4)[:18], 5))
    ] + OF_GROUP
    script = "type D 5\n" + "".join(f"{line}\n" for line in lines)
    listed = "type D 5\njobs\n" + "next\n".join(
        f"{line}\n" for line in lines[:15]
    ) + "".join(f"{line}\n" for line in lines[15:])
    ran = subprocess.run([built], input=script.encode(), capture_output=True, timeout=SECONDS)
    wanted = ran.returncode, ran.stdout, b""
    for workers in (1, 2, 4, 16):
        words = ["--workers", str(workers)]
        COUNT.check(
            f"each command with {workers} workers",
            run(built, script.encode(), words) == wanted,
            True,
        )
        COUNT.check(
            f"each command in a list with {workers} workers",
            run(built, listed.encode(), words) == wanted,
            True,
        )


def main():
    built, checker = program(sys.argv[1:2]), program(sys.argv[2:], "coxcheck")
    for it in (
        commands, generated, intervals, graph, sessions, module, inverses, r_polynomials, cells,
    ):
        it(built)
    certificates(built, checker)
    COUNT.end("large answers")


if __name__ == "__main__":
    main()
