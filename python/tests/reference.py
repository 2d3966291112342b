"""The symmetric groups as permutations, to compare with. Kazhdan-Lusztig polynomials and cells are those of checks/definitions.py, which this
stands on; like that it is slow, and shares nothing with the package.

An element of A n is a permutation of 0 to n, as the tuple of its values. A word s1 s2 .. is the composition of the
transpositions (s1-1 s1), (s2-1 s2), .., so that multiplying by s on the right swaps the values at the places s-1 and s.
A polynomial is the tuple of its coefficients by rising degree, without zeros at the end.
"""
import functools
import itertools
import operator
import os
import sys

sys.path.append(os.path.join(os.path.dirname(os.path.abspath(__file__)), "..", "..", "checks"))

import definitions  # noqa: E402
from definitions import BASE, coefficients, invariant  # noqa: E402


def length(w):
    """The number of inversions."""
    return sum(w[i] > w[j] for i, j in itertools.combinations(range(len(w)), 2))


def inverse(w):
    return tuple(sorted(range(len(w)), key=w.__getitem__))


def right(w, s):
    """w times the letter s."""
    return (*w[: s - 1], w[s], w[s - 1], *w[s + 1 :])


def left(w, s):
    """The letter s times w."""
    return inverse(right(inverse(w), s))


def right_descents(w):
    return tuple(s for s in range(1, len(w)) if w[s - 1] > w[s])


def left_descents(w):
    return right_descents(inverse(w))


@functools.lru_cache(None)
def counts(w):
    """For all i and j how many values of j or more w has at its first i places."""
    return [sum(it >= j for it in w[:i]) for i in range(len(w)) for j in range(len(w))]


def below(x, w):
    """Bruhat order: none of these numbers is greater for x than for w."""
    return all(map(operator.le, counts(x), counts(w)))


def numbered(x, w):
    """The part of checks/definitions.py that has all of A n, and the numbers of two elements in it."""
    real = group(len(w) - 1)
    return real.part, real.number[x], real.number[w]


def r_polynomial(x, w):
    """R(x, w)."""
    part, x, w = numbered(x, w)
    return tuple(coefficients(part.r_polynomials[w].get(x, 0)))


def polynomial(x, w):
    """P(x, w)."""
    part, x, w = numbered(x, w)
    return tuple(coefficients(part.row(w).get(x, 0)))


def inverse_polynomial(x, w):
    """Q(x, w)."""
    part, x, w = numbered(x, w)
    return tuple(coefficients(part.inverse_row(w).get(x, 0)))


def mu(x, w):
    part, x, w = numbered(x, w)
    return part.mu(x, w)


def intersection_betti(w):
    """The coefficients of the sum of q^l(x) P(x, w) over the x <= w."""
    part, _, w = numbered(w, w)
    return tuple(coefficients(part.betti(w)))


# ---- parabolic polynomials


def is_shortest(w, letters):
    """Whether w is the shortest element of its coset wW_J, where J are these letters."""
    return not set(letters) & set(right_descents(w))


@functools.lru_cache(None)
def parabolic_r_value(u, v, letters, kind):
    """Deodhar's R(u, v) for the cosets of W_J at q = BASE, by his recursion. The kind is q or -1, at q = BASE too."""
    if not below(u, v) or u == v:
        return int(u == v)
    s = left_descents(v)[0]
    su, sv = left(u, s), left(v, s)
    if s in left_descents(u):
        return parabolic_r_value(su, sv, letters, kind)
    shorter = parabolic_r_value(u, sv, letters, kind)
    if is_shortest(su, letters):
        return (BASE - 1) * shorter + BASE * parabolic_r_value(su, sv, letters, kind)
    return (BASE - 1 - kind) * shorter


@functools.lru_cache(None)
def parabolic_value(u, v, letters, kind):
    """Deodhar's P(u, v) at q = BASE, by its definition: as P, over the shortest elements of cosets alone."""
    if not below(u, v) or u == v:
        return int(u == v)
    between = [z for z in group(len(v) - 1) if z != u and is_shortest(z, letters) and below(u, z) and below(z, v)]
    total = sum(parabolic_r_value(u, z, letters, kind) * parabolic_value(z, v, letters, kind) for z in between)
    return invariant(total, length(v) - length(u))


def parabolic_polynomial(u, v, letters, kind):
    """Deodhar's P(u, v). The kind is a polynomial: q or -1."""
    return tuple(coefficients(parabolic_value(u, v, letters, definitions.polynomial(kind))))


# ---- Schubert varieties


def has_pattern(w, pattern):
    """Whether some values of w, in their order, are in the relative order of the pattern."""
    return any(
        all((part[i] < part[j]) == (pattern[i] < pattern[j]) for i, j in itertools.combinations(range(len(pattern)), 2))
        for part in itertools.combinations(w, len(pattern))
    )


def is_smooth(w):
    """Whether the Schubert variety of w is smooth: w avoids the patterns 3412 and 4231 (Lakshmibai and Sandhya 1990)."""
    return not has_pattern(w, (3, 4, 1, 2)) and not has_pattern(w, (4, 2, 3, 1))


def is_smooth_at(w, x):
    """Whether it is smooth at x: the dimension of its tangent space there, which is the number of the transpositions t with xt <= w, is
    l(w) (Lakshmibai and Seshadri 1984)."""
    count = 0
    for i, j in itertools.combinations(range(len(x)), 2):
        values = list(x)
        values[i], values[j] = values[j], values[i]
        count += below(tuple(values), w)
    return count == length(w)


# ---- a-values and characters


def a_values(n):
    """Lusztig's function a on A n by its definition: the greatest degree in v of the coefficient of C(z) in a product C(x) C(y) of elements
    of the Kazhdan-Lusztig basis. These coefficients are polynomials in v + 1/v, and have the same degree in it; they are written by that
    here, so C(s) C(s) is q C(s)."""
    elements = list(group(n))
    below_by = {}
    for s, w in itertools.product(range(1, n + 1), elements):
        below_by[s, w] = [(z, mu(z, w)) for z in elements if s in left_descents(z) and mu(z, w)]

    def add(vector, other, factor):
        for z, p in other.items():
            vector[z] = vector.get(z, 0) + factor * p

    def by_letter(s, vector):
        """C(s) times a combination of basis elements."""
        found = {}
        for w, p in vector.items():
            if s in left_descents(w):
                add(found, {w: p}, BASE)
            else:
                add(found, {left(w, s): p}, 1)
                add(found, dict(below_by[s, w]), p)
        return found

    greatest = dict.fromkeys(elements, 0)
    for y in elements:
        products = {elements[0]: {y: 1}}
        for x in elements[1:]:
            s = left_descents(x)[0]
            shorter = left(x, s)
            product = by_letter(s, products[shorter])
            for z, value in below_by[s, shorter]:
                add(product, products[z], -value)
            products[x] = product
            for z, p in product.items():
                greatest[z] = max(greatest[z], len(coefficients(p)) - 1)
    return greatest


def partitions(n, most=None):
    """The partitions of n with parts of at most this."""
    if n == 0:
        yield ()
    for part in range(min(n, most or n), 0, -1):
        for rest in partitions(n - part, part):
            yield (part, *rest)


def character(shape, cycles):
    """The value of the irreducible character of a shape on permutations with these cycles, by the rule of Murnaghan and Nakayama: rim hooks
    are taken away, each of the length of a cycle."""
    if not cycles:
        return 1
    hook, total = cycles[0], 0
    beads = [part + len(shape) - 1 - k for k, part in enumerate(shape)]
    for bead in beads:
        if bead >= hook and bead - hook not in beads:
            over = sum(bead - hook < other < bead for other in beads)
            moved = sorted([bead - hook, *(other for other in beads if other != bead)], reverse=True)
            total += (-1) ** over * character(tuple(it - len(moved) + 1 + k for k, it in enumerate(moved)), cycles[1:])
    return total


def word_with_cycles(cycles):
    """A word of a permutation with these lengths of cycles."""
    word, first = [], 1
    for size in cycles:
        word += range(first, first + size - 1)
        first += size
    return word


class Permutations(definitions.Elements):
    """A n, for checks/definitions.py."""

    def __init__(self, n):
        self.letters, self.one = range(1, n + 1), tuple(range(n + 1))

    def right(self, element, s):
        return right(element, s)

    def left(self, s, element):
        return left(element, s)


class Group:
    """A n: its elements in ShortLex order of their normal forms. `words` has the normal form of each, `number` its number."""

    def __init__(self, n):
        self.n = n
        self.part = definitions.Part(Permutations(n), Permutations(n).levels())
        self.number, self.words = self.part.numbers, dict(zip(self.part.elements, self.part.words))

    def __iter__(self):
        return iter(self.words)

    def element(self, word):
        return self.part.group.product(word)

    def edges(self, x):
        """The neighbours of x in the W-graph, in ShortLex order, with the values."""
        return {self.part.elements[y]: value for y, value in self.part.edges[self.number[x]].items()}

    def cells_of(self, key):
        """The classes of elements with the same key, in ShortLex order of their first members."""
        classes = {}
        for w in self:
            classes.setdefault(key(w), []).append(self.words[w])
        return list(classes.values())

    def cells_by_graph(self, *descents):
        """The cells by their definition, for one kind of descents or for both."""
        cells = self.part.cells(*(list(map(of, self)) for of in descents))
        return [[self.part.words[x] for x in cell] for cell in cells]


@functools.lru_cache(None)
def group(n):
    return Group(n)


def tableaux(w):
    """The two tableaux of Robinson and Schensted: insertion and recording."""
    rows, recording = [], []
    for place, value in enumerate(w):
        for row, places in zip(rows, recording):
            bumped = next((at for at, it in enumerate(row) if it > value), None)
            if bumped is None:
                row.append(value)
                places.append(place)
                break
            row[bumped], value = value, row[bumped]
        else:
            rows.append([value])
            recording.append([place])
    return tuple(map(tuple, rows)), tuple(map(tuple, recording))


def shape(w):
    """The shape of the two tableaux."""
    return tuple(map(len, tableaux(w)[0]))
