"""Rows of Deodhar's parabolic Kazhdan-Lusztig polynomials, by his recursion on cosets alone, and the W-graphs that they make."""
from __future__ import annotations

from typing import Any, Dict, List, Optional, Set, Tuple

from .base import Base, Element, Letters, Word
from .graphs import WGraph
from .parts import cells_of
from .polynomial import Polynomial
from .tables import Cells, ElementDict
from .texts import shortlex

# A polynomial in q is its value at q = 2^BITS here. Its coefficients are at most 2^l(v) for an element v, since each letter of v at most doubles
# their sum, and a word has at most 255 letters.
BITS = 256


class Cosets(Base):
    """The methods of a group on all cosets of a parabolic subgroup W_J."""

    def parabolic_kazhdan_lusztig_basis(self, v: Word, letters: Letters, kind: str = "q") -> ElementDict:
        """A dictionary from each u <= v that is the shortest element of its coset uW_J, as v has to be, to Deodhar's polynomial of the two
        cosets, which may be 0: the same as `parabolic_kazhdan_lusztig_polynomial(u, v, letters, kind)`, in ShortLex order.

        The package makes it by Deodhar's recursion (1987, "On some geometric aspects of Bruhat orderings II"), which needs nothing but
        the shortest elements of cosets below v: so there may be many or infinitely many elements in a coset. It is not proved.

        >>> W = CoxeterGroup("A", 3)
        >>> W.parabolic_kazhdan_lusztig_basis("2132", [1, 3])
        {(): q, (2,): q, (1, 2): 0, (3, 2): 0, (1, 3, 2): 1, (2, 1, 3, 2): 1}
        >>> W.parabolic_kazhdan_lusztig_basis("2132", [1, 3], kind="-1")
        {(): 1, (2,): 1, (1, 2): 1, (3, 2): 1, (1, 3, 2): 1, (2, 1, 3, 2): 1}
        >>> row = CoxeterGroup("E", 7).parabolic_kazhdan_lusztig_basis("17654234567", "123456")
        >>> len(row), set(row.values())
        (18, {0, 1})
        """
        v = self.normal_form(v)
        rows = self._parabolic_rows(v, letters, kind)
        found = rows.row(v)
        return ElementDict(self, ((u, read(found.get(u, 0))) for u in rows.elements), "polynomial")

    def parabolic_W_graph(self, letters: Letters, kind: str = "q", below: Optional[Word] = None) -> WGraph:
        """The W-graph of Deodhar's module on the cosets uW_J, for left descents. Each coset stands there as its shortest element; x < y are
        joined where the coefficient of their polynomial in degree (l(y) - l(x) - 1) / 2 is not 0, which is the value of the edge. The
        descents of u are the letters s with su < u; for the kind "-1" those with suW_J = uW_J are among them.

        Of the kind "q" it is the part of the W-graph of the group that the shortest elements of the cosets make, and of the kind "-1" that
        of their longest elements, where W_J is finite (Deodhar 1987; Howlett and Yin 2003, "Inducing W-graphs"). With `below` it is the
        part of the cosets of the u <= v, where v is that element, the shortest of its coset; the group may be infinite then. The package
        makes it of the rows of `parabolic_kazhdan_lusztig_basis`, and it is not proved.

        >>> graph = CoxeterGroup("E", 7).parabolic_W_graph("123456")
        >>> len(graph), graph["7"].descents, graph["7"].edges
        (56, (7,), {(): 1, (6, 7): 1, (7, 6, 5, 4, 2, 3, 4, 5, 6, 7): 1})
        >>> CoxeterGroup("a", 2).parabolic_W_graph([1, 2], kind="-1", below="123")["23"].descents
        (2, 3)
        """
        if below is None:
            if not self.is_finite():
                raise ValueError("the group is infinite: say below which element")
            v = self.product(self.long_element(), self._longest_of(self._letters_of(letters)))
        else:
            v = self.normal_form(below)
        return self._parabolic_rows(v, letters, kind).graph()

    def parabolic_cells(self, letters: Letters, kind: str = "q", below: Optional[Word] = None) -> Cells:
        """The list of the cells of that W-graph, each the list of its elements. Of the kind "q" each is a left cell of the group, where there is no
        `below`, and of the kind "-1" it has the shortest elements of the cosets of one. They are not proved.

        >>> [len(cell) for cell in CoxeterGroup("E", 6).parabolic_cells("12345")]
        [1, 6, 20]
        """
        return Cells(self, cells_of([self.parabolic_W_graph(letters, kind, below)]))

    def _parabolic_rows(self, v, letters, kind):
        """The rows of the cosets of the u <= v."""
        letters = self._letters_of(letters)
        if kind not in ("q", "-1"):
            raise ValueError(f'the kind is "q" or "-1", not {kind!r}')
        if not letters.isdisjoint(self.right_descents(v)):
            raise ValueError(f"{self.text(v)} is not the shortest element of its coset")
        return ParabolicRows(self, v, letters, kind)


class ParabolicRows:
    """The rows of the shortest elements of cosets uW_J below a given one, v. Elements are such shortest elements here.

    For a letter s and such an element u, su is another one, or is ut for a letter t of J. The basis of the module that is induced from W_J has
    an element for each u; C'(s) times that of u is read off su, by the kind. Deodhar's polynomials are the coefficients of the self-dual
    basis, and are made as the others are: C'(s) times the self-dual element of sv, without what is not of low degree in it.
    """

    def __init__(self, group: Base, v: Element, letters: Set[int], kind: str) -> None:
        self.group, self.letters = group, letters
        self.trivial = kind == "-1"
        self.moved: Dict[int, Dict[Element, Optional[Element]]] = {s: {} for s in range(1, group.rank + 1)}
        # Below v are those below sv and their products with s, where s is the first letter of v.
        below: List[Element] = [()]
        for s in reversed(v):
            self.move(s, below)
            below = list({*below, *(it for it in map(self.moved[s].__getitem__, below) if it is not None)})
        self.elements = sorted(below, key=shortlex)
        for s in self.moved:
            self.move(s, self.elements)
        self.rows: Dict[Element, Dict[Element, int]] = {(): {(): 1}}

    def move(self, s: int, elements: List[Element]) -> None:
        """Notes su for some elements, or None where that is ut."""
        known, group = self.moved[s], self.group
        new = [u for u in elements if u not in known]
        words = group._normal_forms((s, *u) for u in new)
        for u, word, (_, right) in zip(new, words, group._answers_of("descents", words)):
            known[u] = word if self.letters.isdisjoint(right) else None

    def is_descent(self, s: int, u: Element) -> bool:
        """Whether C'(s) times the self-dual element of u is a multiple of that."""
        other = self.moved[s][u]
        return self.trivial if other is None else len(other) < len(u)

    def row(self, v: Element) -> Dict[Element, int]:
        """The polynomials of v, by the elements below it, without zeros."""
        if v not in self.rows:
            s = v[0]
            before = self.moved[s][v]
            assert before is not None
            shorter = self.row(before)
            row = self.times(s, shorter)
            for z, value in self.leading(before):
                if self.is_descent(s, z):
                    degree = (len(v) - len(z)) // 2
                    for u, more in self.row(z).items():
                        row[u] -= value * more << degree * BITS
            self.rows[v] = {u: p for u, p in row.items() if p}
        return self.rows[v]

    def leading(self, v: Element) -> List[Tuple[Element, int]]:
        """The u < v with a polynomial of the highest degree that there may be, and its coefficient."""
        found = []
        for u, p in self.row(v).items():
            degree, odd = divmod(len(v) - len(u) - 1, 2)
            value = p >> degree * BITS if not odd and degree >= 0 else 0
            if value:
                found.append((u, value))
        return found

    def graph(self) -> WGraph:
        """The W-graph of all these cosets."""
        places = {u: at for at, u in enumerate(self.elements)}
        behind: List[List[int]] = [[] for _ in places]
        other: Dict[Tuple[int, int], int] = {}
        for y, at in places.items():
            for x, value in self.leading(y):
                behind[places[x]].append(at)
                if value != 1:
                    other[at, places[x]] = other[places[x], at] = value
        descents = [tuple(s for s in self.moved if self.is_descent(s, u)) for u in self.elements]
        return WGraph(self.group, "left", self.elements, descents, [tuple(it) for it in behind], other)

    def times(self, s: int, row: Dict[Element, int]) -> Dict[Element, int]:
        """C'(s) times a self-dual element."""
        moved, found = self.moved[s], {}
        for u in {*row, *(it for it in map(moved.__getitem__, row) if it is not None)}:
            other, p = moved[u], row.get(u, 0)
            if other is None:
                found[u] = p + (p << BITS) if self.trivial else 0
            elif len(other) < len(u):
                found[u] = row.get(other, 0) + (p << BITS)
            else:
                found[u] = p + (row.get(other, 0) << BITS)
        return found


def read(value: int) -> Any:
    """The polynomial with this value at 2^BITS, and with coefficients from 0 on."""
    listed = []
    while value:
        listed.append(value % (1 << BITS))
        value >>= BITS
    return Polynomial(listed)
