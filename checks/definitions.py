"""Coxeter groups and Kazhdan-Lusztig polynomials by their definitions: what all checks, and the tests of the package for Python, compare
with. It is plain and slow, and shares nothing with the programs and the packages.

The elements of a group are given by how letters are multiplied to them (`Elements`): as matrices here, as permutations in
python/tests/reference.py. A `Part` has finitely many of them, with each element all those below it. There an element is its number in
ShortLex order.

A polynomial in q is its value at q = BASE, an integer: all coefficients here are smaller than half of that, also those of the R-polynomials of
lengths up to 39, which are at most 3^39.
"""
import functools
import itertools

BASE, HALF = 1 << 64, 1 << 63

# The pairs a(s,t), a(t,s) for s < t, by the label. The label 0 is infinity.
ENTRIES = {2: (0, 0), 3: (-1, -1), 4: (-1, -2), 6: (-1, -3), 0: (-2, -2)}


# ---- polynomials


def coefficients(p):
    """The coefficients of a polynomial by rising degree, without zeros at the end."""
    found = []
    while p:
        found.append((p + HALF) % BASE - HALF)
        p = (p - found[-1]) // BASE
    return found


def polynomial(listed):
    """The polynomial with these coefficients."""
    return sum(c * BASE**degree for degree, c in enumerate(listed))


def invariant(total, distance):
    """The p of degree at most (d-1)/2 with q^d p(1/q) - p = total, where d is the distance. So the part of low degree of the total is -p."""
    low = [-c for c in coefficients(total)[: (distance + 1) // 2]]
    p = polynomial(low)
    turned = sum(c * BASE ** (distance - k) for k, c in enumerate(low))
    assert turned - p == total, "the row is not invariant"
    return p


# ---- groups


def labels_of(kind, n):
    """The labels of a named type above the diagonal, row by row."""
    labels = {(s, s + 1): 3 for s in range(1, n)}
    if kind == "D":
        del labels[n - 1, n]
    labels.update({"A": {}, "B": {(n - 1, n): 4}, "D": {(n - 2, n): 3}, "F": {(2, 3): 4}, "G": {(1, 2): 6}}[kind])
    return tuple(labels.get(pair, 2) for pair in itertools.combinations(range(1, n + 1), 2))


class Elements:
    """How the elements of a group are multiplied by letters: `letters`, the element `one`, `right(x, s)` and `left(s, x)`."""

    def product(self, word):
        """The element of a word."""
        return functools.reduce(self.right, word, self.one)

    def levels(self, among=None, most=None):
        """The elements by their lengths, each with its ShortLex-first word: all, or those among these, or those of at most so many letters.
        A first word without its last letter is one too."""
        level, shorter, length = {self.one: ()}, {}, 0
        while level:
            yield level
            longer = {}
            if length != most:
                for (element, word), s in itertools.product(level.items(), self.letters):
                    further = self.right(element, s)
                    if further not in shorter and further not in longer and (among is None or further in among):
                        longer[further] = (*word, s)
            level, shorter, length = longer, level, length + 1

    def below(self, word, most=None):
        """The elements below that of a word: those of its subwords. None where these are more than so many."""
        found = {self.one}
        for s in word:
            found |= {self.right(element, s) for element in found}
            if most is not None and len(found) > most:
                return None
        return found


class Matrices(Elements):
    """A group by its rank and its labels above the diagonal, row by row. An element is its matrix, by columns: the letter s takes the basis
    vector e(t) to e(t) - a(s,t) e(s)."""

    def __init__(self, rank, labels):
        self.rank, self.labels = rank, tuple(labels)
        self.letters = range(1, rank + 1)
        # For each letter s the t with a(s,t) other than 0, each with a(s,t).
        self.near = {s: [(s, 2)] for s in self.letters}
        for (s, t), label in zip(itertools.combinations(self.letters, 2), labels):
            if label != 2:
                self.near[s].append((t, ENTRIES[label][0]))
                self.near[t].append((s, ENTRIES[label][1]))
        self.one = tuple(tuple(int(i == j) for j in self.letters) for i in self.letters)

    def right(self, element, s):
        columns, own = list(element), element[s - 1]
        for t, a in self.near[s]:
            columns[t - 1] = tuple(c - a * d for c, d in zip(columns[t - 1], own))
        return tuple(columns)

    def left(self, s, element):
        return tuple((*c[: s - 1], c[s - 1] - sum(a * c[t - 1] for t, a in self.near[s]), *c[s:]) for c in element)

    def normal_form(self, word):
        """The ShortLex-first word of the same element: again and again the least s with l(sw) < l(w), which are those for which the inverse
        of w takes e(s) to a negative vector."""
        inverse, letters = self.product(reversed(word)), []
        while first := next((s for s in self.letters if min(inverse[s - 1]) < 0), None):
            letters.append(first)
            inverse = self.right(inverse, first)
        return tuple(letters)


def finite_group(rank, labels, most=None):
    """All elements of a finite group with these labels; of an infinite one those of at most so many letters."""
    group = Matrices(rank, labels)
    return Part(group, group.levels(most=most))


class Part:
    """Elements that have with each all those below it, in ShortLex order, by their lengths with the first word of each.

    `words` are the first words, `elements` the elements, `numbers` the numbers of these. A product that is left out has the number
    `size`, and counts as longer than all others.
    """

    def __init__(self, group, levels):
        self.group = group
        found = [pair for level in levels for pair in level.items()]
        self.elements, self.words = map(list, zip(*found))
        self.numbers = {element: i for i, element in enumerate(self.elements)}
        self.size, self.rows, self.inverse_rows = len(found), {}, {}
        self.length = [*map(len, self.words), len(self.words[-1]) + 1]

    @functools.cached_property
    def right(self):
        """For each letter the numbers of the products with it on the right."""
        return {s: [self.numbers.get(self.group.right(it, s), self.size) for it in self.elements] for s in self.group.letters}

    @functools.cached_property
    def left(self):
        """For each letter the numbers of the products with it on the left."""
        return {s: [self.numbers.get(self.group.left(s, it), self.size) for it in self.elements] for s in self.group.letters}

    @functools.cached_property
    def inverse(self):
        """The numbers of the inverses, of which none may be left out."""
        return [self.numbers[self.group.product(reversed(word))] for word in self.words]

    @functools.cached_property
    def lefts(self):
        """The left descents of each element."""
        return [[s for s in self.group.letters if self.length[self.left[s][i]] < self.length[i]] for i in range(self.size)]

    @functools.cached_property
    def rights(self):
        """The right descents of each element."""
        return [[s for s in self.group.letters if self.length[self.right[s][i]] < self.length[i]] for i in range(self.size)]

    def element(self, word):
        """The number of the element of a word."""
        return self.numbers[self.group.product(word)]

    @functools.cached_property
    def below(self):
        """For each element those below it: the elements of the subwords of its word."""
        return [sorted(column) for column in self.r_polynomials]

    @functools.cached_property
    def r_polynomials(self):
        """For each w the R(x,w) for x <= w, by the recursion for the last letter s of w. Below w are those below ws, and their products with
        s; R(x,w) is never 0 there."""
        columns = [{0: 1}]
        for w in range(1, self.size):
            right = self.right[self.words[w][-1]]
            shorter, column = columns[right[w]], {}
            for x in {*shorter, *(right[it] for it in shorter)}:
                moved = right[x]
                same = shorter.get(moved, 0)
                column[x] = same if moved < x else (BASE - 1) * shorter.get(x, 0) + BASE * same
            columns.append(column)
        return columns

    def row(self, w):
        """P(x,w) for x <= w, by its definition: with d = l(w)-l(x), q^d P(1/q) - P is the sum of R(x,z) P(z,w) over the z with
        x < z <= w, and the degree of P is at most (d-1)/2."""
        if w not in self.rows:
            row, sums = {}, dict.fromkeys(self.below[w], 0)
            for z in reversed(self.below[w]):
                row[z] = invariant(sums[z], self.length[w] - self.length[z]) if z != w else 1
                for x, r in self.r_polynomials[z].items():
                    sums[x] += r * row[z]
            self.rows[w] = row
        return self.rows[w]

    def inverse_row(self, w):
        """Q(x,w) for x <= w, by its definition: the sum of (-1)^(l(z)-l(x)) P(x,z) Q(z,w) over the z with x <= z <= w is 1 where x = w,
        else 0, and P(x,x) = 1."""
        if w not in self.inverse_rows:
            row, sums = {}, dict.fromkeys(self.below[w], 0)
            for z in reversed(self.below[w]):
                row[z] = -sums[z] if z != w else 1
                for x, p in self.row(z).items():
                    sums[x] += (-1) ** (self.length[z] - self.length[x]) * p * row[z]
            self.inverse_rows[w] = row
        return self.inverse_rows[w]

    def mu(self, x, w):
        """The coefficient of P(x,w) in degree (l(w)-l(x)-1)/2, 0 where that is no whole number, or not x < w."""
        distance = self.length[w] - self.length[x]
        if x == w or distance % 2 == 0 or x not in self.r_polynomials[w]:
            return 0
        return dict(enumerate(coefficients(self.row(w)[x]))).get(distance // 2, 0)

    def betti(self, w):
        """The sum of q^l(x) P(x,w) over the x <= w."""
        return sum(p * BASE ** self.length[x] for x, p in self.row(w).items())

    @functools.cached_property
    def edges(self):
        """For each element those that it is joined to in the W-graph, in ShortLex order, with the values of the edges."""
        values = ({y: self.mu(x, y) or self.mu(y, x) for y in range(self.size)} for x in range(self.size))
        return [{y: value for y, value in row.items() if value} for row in values]

    def cells(self, *sides):
        """The elements of each cell, by chains of steps from x to y where y lacks a descent of x, on one of these sides."""
        reach = []
        for x in range(self.size):
            seen, ahead = {x}, [x]
            while ahead:
                at = ahead.pop()
                new = {y for y in self.edges[at] if any(set(side[at]) - set(side[y]) for side in sides)} - seen
                seen |= new
                ahead.extend(new)
            reach.append(seen)
        first = [min(y for y in reach[x] if x in reach[y]) for x in range(self.size)]
        return [[x for x in range(self.size) if first[x] == y] for y in range(self.size) if first[y] == y]

    def needed(self, w):
        """The rows that the row of w is made from, with itself: with each z, where s is its least left descent, that of sz, and those
        of the u with su < u and mu(u,sz) other than 0."""
        found, ahead = {w}, [w]
        while ahead:
            z = ahead.pop()
            for s in self.lefts[z][:1]:
                lower = self.left[s][z]
                new = {lower, *(u for u in self.below[lower] if s in self.lefts[u] and self.mu(u, lower))} - found
                found |= new
                ahead.extend(new)
        return found

    def extremals(self, w):
        """The x <= w that have each left and each right descent of w."""
        return [x for x in self.below[w] if {*self.lefts[w]} <= {*self.lefts[x]} and {*self.rights[w]} <= {*self.rights[x]}]
