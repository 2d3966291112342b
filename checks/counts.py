#!/usr/bin/env python3
"""Counts from the literature, asked of the built program.

    checks/counts.py [PROGRAM]

Orders of finite groups, as the sum of the Betti numbers of a longest element, which is given by its word; the degrees of the group give
both its order and these numbers (Humphreys, "Reflection Groups and Coxeter Groups", 1.11 and 3.15). And the numbers of small roots: with
one less for `--roots` the group is refused by 21. A finite group has as many as reflections, affine A n has n(n+1) (Brink and Howlett
1993). And numbers of cells: the left cells of A n are as many as involutions (Kazhdan and Lusztig 1979), the cells of both sides as many as
families of characters (Lusztig 1984); those of other types are in Geck and Pfeiffer's book. In A 3 the 6 pairs y <= w with P(y,w) other
than 1 are those of Kazhdan and Lusztig's two singular Schubert varieties; and the numbers of `ihbetti w` are palindromes (Poincare
duality). It prints what differs, and a last line with counts; the exit status is 1 where something differs. It needs Python 3 alone, and is
no part of the gate.
"""
import subprocess
import sys

from common import Count, program


def staircase(first, last):
    """The longest element of the symmetric group on the letters from first to last."""
    return [letter for top in range(first, last + 1) for letter in range(top, first - 1, -1)]


def powers(rank, times):
    """123.. again and again: in B n, and in D n for even Coxeter numbers, half the Coxeter number makes the longest element."""
    return list(range(1, rank + 1)) * times


# the line that sets the group, its rank, a longest element, and the degrees
GROUPS = [
    ("type A 4", 4, staircase(1, 4), [2, 3, 4, 5]),
    ("type A 8", 8, staircase(1, 8), list(range(2, 10))),
    ("type D 7", 7, powers(7, 6), [2, 4, 6, 7, 8, 10, 12]),
    ("type B 7", 7, powers(7, 7), list(range(2, 15, 2))),
    ("type F 4", 4, powers(4, 6), [2, 6, 8, 12]),
    ("type A 16", 16, staircase(3, 9), list(range(2, 9))),
]

# the line that sets the group, and the number of its small roots
AFFINE_A8 = "matrix 9 " + " ".join("3" if t == s + 1 or (s, t) == (1, 9) else "2" for s in range(1, 10) for t in range(s + 1, 10))
SMALL_ROOTS = [
    ("type A 9", 45), ("type A 16", 136), ("type B 5", 25), ("type B 16", 256), ("type D 6", 30), ("type D 16", 240), ("type E 6", 36),
    ("type E 7", 63), ("type E 8", 120), ("type F 4", 24), ("type G 2", 6), ("type a 8", 72), (AFFINE_A8, 72), ("type a 15", 240),
    ("matrix 2 0", 2),
]


# the line that sets the group, and the numbers of its left cells and of its cells of both sides, where they are published
CELLS = [
    ("type A 3", 10, 5), ("type A 4", 26, 7), ("type A 5", 76, 11), ("type A 6", 232, 15), ("type B 2", 4, 3), ("type B 3", 14, 6),
    ("type B 4", 50, None), ("type B 5", None, 16), ("type B 6", None, 26), ("type G 2", 4, 3), ("type D 4", 36, 11), ("type D 5", 126, 14),
    ("type D 6", None, 27), ("type F 4", 72, 11), ("type E 6", None, 17),
]

# groups in which each element is asked for `ihbetti`: the line that sets it, its rank and a longest element
DUAL = [("type A 4", 4, staircase(1, 4)), ("type B 3", 3, powers(3, 3)), ("type D 4", 4, powers(4, 3))]


def text(letters, rank):
    """A word as it is written in a group of this rank."""
    return ("." if rank > 9 else "").join(map(str, letters))


def betti(degrees):
    """The numbers of elements by length: the product of 1 + q + .. + q^(d-1)."""
    counts = [1]
    for degree in degrees:
        counts = [sum(counts[max(0, k - degree + 1) : k + 1]) for k in range(len(counts) + degree - 1)]
    return counts


def ask(built, arguments, script):
    """The lines that the program answers."""
    ran = subprocess.run([built] + arguments, input=script.encode(), capture_output=True, timeout=120)
    return ran.stdout.decode().splitlines()


def main():
    count, built = Count(), program(sys.argv[1:])
    for group, rank, letters, degrees in GROUPS:
        wanted = [" ".join(map(str, betti(degrees)))]
        count.check(f"betti in {group}", ask(built, [], f"{group}\nbetti {text(letters, rank)}\n"), wanted)
    for group, roots in SMALL_ROOTS:
        for limit, wanted in ((roots - 1, ["error 21"]), (roots, [])):
            count.check(f"{group} with --roots {limit}", ask(built, ["--roots", str(limit)], f"{group}\n"), wanted)
    for group, left, both in CELLS:
        for command, wanted in (("lcells", left), ("rcells", left), ("lrcells", both)):
            if wanted is not None:
                count.check(f"{command} in {group}", ask(built, [], f"{group}\n{command}\n")[:1], [str(wanted)])
    for group, rank, letters in DUAL:
        elements = ask(built, [], f"{group}\ninterval e {text(letters, rank)}\n")[1:]
        for element, answer in zip(elements, ask(built, [], f"{group}\n" + "".join(f"ihbetti {w}\n" for w in elements)), strict=True):
            count.check(f"ihbetti {element} in {group}", answer.split(), answer.split()[::-1])
    elements = ask(built, [], f"type A 3\ninterval e {text(staircase(1, 3), 3)}\n")[1:]
    rows = ask(built, [], "type A 3\n" + "".join(f"klbasis {w}\n" for w in elements))
    others = sum(1 for line in rows if ":" in line and not line.endswith(":1"))
    count.check("pairs in A 3 with P other than 1", [str(others)], ["6"])
    count.end("counts")


if __name__ == "__main__":
    main()
