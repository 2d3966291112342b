#!/usr/bin/env python3
"""Left cell modules that the built program prints, tried without its arithmetic.

    checks/modules.py [PROGRAM]

- In A 3, B 3, G 2, D 4 and F 4, for each left cell: the operators t(s) at v = 7 meet (t(s) + 1)(t(s) - v^2) = 0, and the braid relation of
  any two letters; the sizes of the cells add up to the order of the group.
- In A 4 at v = 1, where the relations are those of the symmetric group on 5 letters: the character of each left cell is irreducible, and
  that of the cell of an involution w is the one of the shape that Robinson and Schensted's algorithm gives to w (Kazhdan and Lusztig 1979,
  theorem 1.4), by Murnaghan and Nakayama's rule.
- Without its edges a module of A 2 meets the quadratic relations alone, so that the braid relations say more.

It prints what differs, and a last line with counts; the exit status is 1 where something differs. It needs Python 3 alone, and is no part
of the gate.
"""
import re
import subprocess
import sys
from itertools import combinations
from math import factorial

from common import Count, program

# the name, the rank, the labels other than 2, and the order of the group
GROUPS = [
    ("A 3", 3, {(1, 2): 3, (2, 3): 3}, 24),
    ("B 3", 3, {(1, 2): 4, (2, 3): 3}, 48),
    ("G 2", 2, {(1, 2): 6}, 12),
    ("D 4", 4, {(1, 3): 3, (2, 3): 3, (3, 4): 3}, 192),
    ("F 4", 4, {(1, 2): 3, (2, 3): 4, (3, 4): 3}, 1152),
]


def matrix_line(rank, labels):
    """The line that sets the group with these labels."""
    return f"matrix {rank} " + " ".join(str(labels.get(pair, 2)) for pair in combinations(range(1, rank + 1), 2))


def ask(built, script):
    """The lines that the program answers."""
    return subprocess.run([built], input=script.encode(), capture_output=True, timeout=600).stdout.decode().splitlines()


def entry(text, v):
    """The value of a coefficient: -1, v^2, or a multiple of v."""
    if text in ("-1", "v^2"):
        return -1 if text == "-1" else v * v
    found = re.fullmatch(r"(-?)([1-9][0-9]*)?v", text)
    if not found or found.group(2) == "1":
        raise ValueError(f"no coefficient: {text!r}")
    return int(found.group(1) + (found.group(2) or "1")) * v


def read_module(lines, rank, v):
    """The members of the cell, and for each letter the images of the members, each as a dict from places to numbers; and how many lines it
    took."""
    size = int(lines[0])
    members = lines[1].split(" ")
    if len(members) != size or len(set(members)) != size:
        raise ValueError("the members are not as many as the first line says")
    place, at, operators = {x: k for k, x in enumerate(members)}, 2, {}
    for s in range(1, rank + 1):
        operators[s] = []
        for x in members:
            head, _, terms = lines[at].partition(":")
            if head != f"{s} {x}":
                raise ValueError(f"{head!r} stands where {s} {x} should")
            pairs = [term.split("=") for term in terms.split(" ")[1:]]
            places = [place[y] for y, _ in pairs]
            if places != sorted(set(places)):
                raise ValueError(f"the elements of {lines[at]!r} are not in order")
            operators[s].append({place[y]: entry(coefficient, v) for y, coefficient in pairs})
            at += 1
    return members, operators, at


def apply(images, vector):
    """The image of a vector, a dict from places to numbers without zeros."""
    found = {}
    for k, c in vector.items():
        for j, d in images[k].items():
            found[j] = found.get(j, 0) + c * d
    return {j: c for j, c in found.items() if c}


def plus(vector, c, other):
    """A vector and c times another one."""
    found = {j: vector.get(j, 0) + c * other.get(j, 0) for j in {*vector, *other}}
    return {j: d for j, d in found.items() if d}


def alternating(operators, s, t, m, vector):
    """t(s) t(t) t(s) .., m factors, at a vector."""
    for k in reversed(range(m)):
        vector = apply(operators[t if k % 2 else s], vector)
    return vector


def quadratic(operators, size, v):
    """Whether (t(s) + 1)(t(s) - v^2) = 0 for each s."""
    for images in operators.values():
        for k in range(size):
            less = plus(apply(images, {k: 1}), -v * v, {k: 1})
            if plus(apply(images, less), 1, less):
                return False
    return True


def braids(operators, size, labels):
    """Whether the braid relations hold."""
    for s, t in combinations(operators, 2):
        m = labels.get((s, t), 2)
        if any(alternating(operators, s, t, m, {k: 1}) != alternating(operators, t, s, m, {k: 1}) for k in range(size)):
            return False
    return True


def modules(built, line, rank, v, firsts):
    """The modules of the cells of these elements."""
    lines = ask(built, line + "\n" + "".join(f"module {w}\n" for w in firsts))
    for _ in firsts:
        members, operators, used = read_module(lines, rank, v)
        lines = lines[used:]
        yield members, operators
    if lines:
        raise ValueError(f"{lines[0]!r} stands behind the last module")


def cells_of(built, line):
    """The left cells as the program lists them."""
    return [cell.split(" ") for cell in ask(built, f"{line}\nlcells\n")[1:]]


# ---- the symmetric group on 5 letters


def partitions(n, most=None):
    """The partitions of n with parts of at most this."""
    if n == 0:
        yield ()
    for part in range(min(n, most or n), 0, -1):
        for rest in partitions(n - part, part):
            yield (part, *rest)


def character(shape, cycles):
    """The value of the irreducible character of a shape at a class: rim hooks are taken away, each of the length of a cycle."""
    if not cycles:
        return 1
    hook, total = cycles[0], 0
    beads = [part + len(shape) - 1 - k for k, part in enumerate(shape)]
    for bead in beads:
        if bead >= hook and bead - hook not in beads:
            over = sum(1 for other in beads if bead - hook < other < bead)
            moved = sorted([other for other in beads if other != bead] + [bead - hook], reverse=True)
            total += (-1) ** over * character(tuple(b - len(moved) + 1 + k for k, b in enumerate(moved)), cycles[1:])
    return total


def shape_of(word, n):
    """The shape of the tableau that inserting the values of a permutation makes."""
    values, rows = list(range(1, n + 1)), []
    for letter in word:
        values[letter - 1], values[letter] = values[letter], values[letter - 1]
    for value in values:
        for row in rows:
            above = [k for k, other in enumerate(row) if other > value]
            if not above:
                row.append(value)
                break
            row[above[0]], value = value, row[above[0]]
        else:
            rows.append([value])
    return tuple(len(row) for row in rows), values


def class_word(cycles):
    """A word of the class with these lengths of cycles."""
    word, first = [], 1
    for length in cycles:
        word += range(first, first + length - 1)
        first += length
    return word


def class_size(cycles, n):
    """How many permutations have these lengths of cycles."""
    size = factorial(n)
    for length in set(cycles):
        size //= length ** cycles.count(length) * factorial(cycles.count(length))
    return size


def trace(operators, size, word):
    """The trace of the product of the t(s) of a word."""
    total = 0
    for k in range(size):
        vector = {k: 1}
        for s in reversed(word):
            vector = apply(operators[s], vector)
        total += vector.get(k, 0)
    return total


def check_symmetric(count, built, n):
    """The characters of the left cells of the symmetric group on n letters."""
    line, classes = f"type A {n - 1}", list(partitions(n))
    cells = cells_of(built, line)
    for members, operators in modules(built, line, n - 1, 1, [cell[0] for cell in cells]):
        values = [trace(operators, len(members), class_word(cycles)) for cycles in classes]
        norm = sum(class_size(cycles, n) * value * value for cycles, value in zip(classes, values, strict=True))
        count.check(f"norm of the character of the cell of {members[0]} in A {n - 1}", norm, factorial(n))
        for w in members:
            letters = [] if w == "e" else [int(letter) for letter in w]
            shape, images = shape_of(letters, n)
            if all(images[value - 1] == k + 1 for k, value in enumerate(images)):
                count.check(f"character of the cell of {w} in A {n - 1}", values, [character(shape, cycles) for cycles in classes])


def main():
    count, built = Count(), program(sys.argv[1:])
    for name, rank, labels, order in GROUPS:
        line = matrix_line(rank, labels)
        cells = cells_of(built, line)
        count.check(f"order of {name} by its cells", sum(len(cell) for cell in cells), order)
        for cell, (members, operators) in zip(cells, modules(built, line, rank, 7, [cell[-1] for cell in cells]), strict=True):
            count.check(f"members of the cell of {cell[0]} in {name}", members, cell)
            count.check(f"quadratic relations at {cell[0]} in {name}", quadratic(operators, len(members), 7), True)
            count.check(f"braid relations at {cell[0]} in {name}", braids(operators, len(members), labels), True)
    check_symmetric(count, built, 5)
    [(members, operators)] = modules(built, "type A 2", 2, 7, ["1"])
    bare = {s: [{k: image[k]} for k, image in enumerate(images)] for s, images in operators.items()}
    count.check("quadratic relations without edges", quadratic(bare, len(members), 7), True)
    count.check("braid relations without edges", braids(bare, len(members), {(1, 2): 3}), False)
    count.end("modules")


if __name__ == "__main__":
    main()
