"""Modules of left cells."""
from __future__ import annotations

import operator
from typing import Any, Dict, List

from . import texts
from .base import Element, Word
from .errors import Refusal
from .polynomial import Polynomial


class InV(Polynomial):
    """A polynomial in v, which is q^(1/2).

    >>> v = InV([0, 1])
    >>> v * v - 2 * v, v == Polynomial([0, 1]), Polynomial([1]) + v
    (-2v+v^2, False, 1+v)
    """

    __slots__ = ()
    variable = "v"


class CellModule:
    """The module of a left cell: how the Hecke algebra acts from the left on the free module with the elements of the cell as its basis.

    `elements` is the list of the elements, in ShortLex order. `images` has for each letter s the list of the t(s) x for the elements x,
    each as a dictionary from elements to polynomials in v = q^(1/2), without zeros.

    >>> module = CellModule([(1,), (2, 1)], {1: [{(1,): InV([-1])}, {(1,): InV([0, 1]), (2, 1): InV([0, 0, 1])}]})
    >>> module, len(module)
    (<the module of a left cell with 2 elements>, 2)
    """

    def __init__(self, elements: List[Element], images: Dict[int, List[Dict[Element, InV]]]) -> None:
        self.elements, self.images = elements, images

    @classmethod
    def read(cls, spelling: texts.Spelling, rank: int, lines: List[str]) -> CellModule:
        """The module of an answer, line by line. Another answer is a ValueError.

        >>> CellModule.read(CoxeterGroup("A", 1)._spelling, 1, ["1", "e", "1 e: e=v^2"]).matrix(1)
        [[v^2]]
        """
        if len(lines) < 2:
            raise ValueError("its elements are missing")
        size, elements = texts.number(lines[0]), [spelling.element(it) for it in lines[1].split(" ")]
        texts.check_rising(elements)
        if size != len(elements) or len(lines) != 2 + rank * size:
            raise ValueError(f"it should have {size} elements, and so many lines for each letter")
        images, rest = {}, iter(lines[2:])
        for s in range(1, rank + 1):
            images[s] = [read_image(spelling, elements, f"{s} {spelling.write(x)}", next(rest)) for x in elements]
        return cls(elements, images)

    def __repr__(self):
        return f"<the module of a left cell with {len(self.elements)} elements>"

    def __len__(self) -> int:
        return len(self.elements)

    def __eq__(self, other):
        if not isinstance(other, CellModule):
            return NotImplemented
        return self.elements == other.elements and self.images == other.images

    def __hash__(self):
        return hash(tuple(self.elements))

    def matrix(self, s: int) -> List[List[InV]]:
        """The matrix of t(s), as a list of rows. Its columns are the images of the elements, in their order.

        >>> CellModule([(1,)], {1: [{(1,): InV([-1])}]}).matrix(1)
        [[-1]]
        """
        if isinstance(s, bool) or not hasattr(s, "__index__") or operator.index(s) not in self.images:
            raise ValueError(f"{s!r} is no letter: the letters are 1 to {len(self.images)}")
        return [[image.get(y, InV()) for image in self.images[operator.index(s)]] for y in self.elements]

    def _gap_init_(self):
        matrices = [self.matrix(s) for s in sorted(self.images)]
        return f"rec( elements := {texts.gap(self.elements)}, matrices := {texts.gap(matrices)} )"

    def act(self, word: Word) -> List[List[InV]]:
        """The matrix of the product of the t(s) over the letters of a word, in their order, as a list of rows. For a reduced word of w it is
        that of T(w). The word is a text or a list of letters.

        >>> module = CoxeterGroup("A", 2).cell_module("1")
        >>> module.act("12"), module.act("121") == module.act("212")
        ([[0, -v], [v^3, -v^2]], True)
        """
        spelling = texts.Spelling(len(self.images))
        try:
            letters = spelling.element(spelling.write(word))
        except Refusal:
            raise ValueError(f"{word!r} has a letter that the group doesn't have") from None
        places = {y: at for at, y in enumerate(self.elements)}
        rows = [[InV()] * len(self.elements) for _ in self.elements]
        for column, x in enumerate(self.elements):
            vector = {x: InV([1])}
            for s in reversed(letters):
                moved: Dict[Element, InV] = {}
                for y, entry in vector.items():
                    for z, more in self.images[s][places[y]].items():
                        moved[z] = moved.get(z, InV()) + more * entry
                vector = moved
            for y, entry in vector.items():
                rows[places[y]][column] = entry
        return rows

    def character(self, word: Word) -> InV:
        """The trace of `act(word)`, a polynomial in v. At v = 1 it is the value of a character of the group.

        >>> module = CoxeterGroup("A", 2).cell_module("1")
        >>> [module.character(word) for word in ("e", "1", "12")], module.character("1")(1)
        ([2, -1+v^2, -v^2], 0)
        """
        return sum((row[at] for at, row in enumerate(self.act(word))), InV())

    def sage(self, s: int) -> Any:
        """The same as a matrix of Sage over the polynomials in v. It needs Sage."""
        from sage.all import ZZ, PolynomialRing, matrix

        ring = PolynomialRing(ZZ, InV.variable)
        return matrix(ring, [[ring(list(entry.coefficients)) for entry in row] for row in self.matrix(s)])


def read_image(spelling, elements, head, line):
    """The image of an element, from its line."""
    found, _, terms = line.partition(":")
    if found != head:
        raise ValueError(f"{found!r} stands where {head!r} should")
    image = {}
    for term in terms.split(" ")[1:]:
        element, _, entry = term.partition("=")
        image[spelling.element(element)] = InV.read(entry)
    listed = list(image)
    texts.check_rising(listed)
    if not set(listed) <= set(elements) or not all(entry.coefficients for entry in image.values()):
        raise ValueError("its terms should be multiples of elements of the cell")
    return image
