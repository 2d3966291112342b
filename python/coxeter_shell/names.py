"""What Sage's Coxeter groups have by these names: generators, degrees, reflections, inversions, weak order, Demazure product."""
from __future__ import annotations

from typing import Any, List, Optional, Tuple

from . import kinds
from .base import Base, Element, Letters, Word
from .texts import shortlex

# The degrees of the finite irreducible groups (Humphreys, section 3.7). Those of A, B and D are worked out.
DEGREES = {
    ("E", 6): (2, 5, 6, 8, 9, 12),
    ("E", 7): (2, 6, 8, 10, 12, 14, 18),
    ("E", 8): (2, 8, 12, 14, 18, 20, 24, 30),
    ("F", 4): (2, 6, 8, 12),
    ("G", 2): (2, 6),
}


class Names(Base):
    """Methods of a group with names that Sage has too. Elements are tuples of letters here."""

    def index_set(self) -> Tuple[int, ...]:
        """The letters, as a tuple.

        >>> CoxeterGroup("B", 3).index_set()
        (1, 2, 3)
        """
        return tuple(self._letters)

    def cartan_type(self) -> Optional[Tuple[Any, ...]]:
        """The Cartan type as a tuple, with a 1 behind it for an affine group; None where the group has none or was given by its matrix and has
        no name.

        >>> CoxeterGroup("C", 3).cartan_type(), CoxeterGroup("a", 2).cartan_type(), CoxeterGroup([[1, 3], [3, 1]]).cartan_type()
        (('C', 3), ('A', 2, 1), ('A', 2))
        """
        if self._cartan is not None:
            return self._cartan
        return kinds.named(kinds.of_rows(self._matrix)).cartan

    def gens(self) -> Tuple[Element, ...]:
        """The generators, as a tuple of elements.

        >>> CoxeterGroup("A", 3).gens()
        ((1,), (2,), (3,))
        """
        return tuple((s,) for s in self._letters)

    @property
    def w0(self) -> Element:
        """The longest element of a finite group: `long_element()`.

        >>> CoxeterGroup("A", 2).w0
        (1, 2, 1)
        """
        return self.long_element()

    def degrees(self) -> Tuple[int, ...]:
        """The degrees of the invariants of a finite group, as a rising tuple. Their product is the number of elements.

        >>> CoxeterGroup("A2xG2").degrees(), CoxeterGroup("D", 4).degrees()
        ((2, 2, 3, 6), (2, 4, 4, 6))
        """
        found: List[int] = []
        for nodes in kinds.components(self._matrix):
            kind = kinds.finite_type(self._matrix, nodes)
            if kind is None:
                raise ValueError("an infinite group has no degrees")
            letter, rank = kind
            ranges = {"A": range(2, rank + 2), "B": range(2, 2 * rank + 1, 2), "D": [*range(2, 2 * rank - 1, 2), rank]}
            found += ranges[letter] if letter in ranges else DEGREES[kind]
        return tuple(sorted(found))

    def reflections(self) -> List[Element]:
        """The list of the reflections of a finite group, the conjugates of the generators, in ShortLex order.

        >>> CoxeterGroup("A", 2).reflections()
        [(1,), (2,), (1, 2, 1)]
        """
        if not self.is_finite():
            raise ValueError("an infinite group has infinitely many reflections")
        return sorted(self._all_reflections(), key=shortlex)

    def inversions(self, w: Word, side: str = "right") -> List[Element]:
        """The list of the reflections t with l(wt) < l(w), in ShortLex order; or with l(tw) < l(w).

        >>> CoxeterGroup("A", 3).inversions("12"), CoxeterGroup("A", 3).inversions("12", side="left")
        ([(2,), (1, 2, 1)], [(1,), (1, 2, 1)])
        """
        w = self._from(side, w)
        # For w = s1 .. sk these are the sk .. s(i+1) si s(i+1) .. sk.
        found = self._products((w[:i:-1], w[i:]) for i in range(len(w)))
        return sorted(found, key=shortlex)

    def parabolic_decomposition(self, w: Word, letters: Letters, side: str = "left") -> Tuple[Element, Element]:
        """The pair (u, v) of elements with w = uv, where v is in W_J, which these letters generate, and u is the shortest element of the left
        coset wW_J. For the right coset W_J w it is the pair (v, u) with w = vu.

        >>> W = CoxeterGroup("A", 3)
        >>> W.parabolic_decomposition("2132", "13"), W.parabolic_decomposition("2132", "13", side="right")
        (((2, 1, 3, 2), ()), ((), (2, 1, 3, 2)))
        >>> W.parabolic_decomposition("1232", "12")
        ((1, 2, 3), (2,))
        """
        among, u = self._letters_of(letters), self._from({"left": "right", "right": "left"}.get(side, side), w)
        taken: List[int] = []
        while True:
            down = among.intersection(self.right_descents(u))
            if not down:
                break
            taken.append(min(down))
            u = self.normal_form((*u, taken[-1]))
        v = self.normal_form(taken[::-1])
        return (u, v) if side == "left" else (self.inverse(v), self.inverse(u))

    def weak_le(self, x: Word, y: Word, side: str = "right") -> bool:
        """Whether x <= y in the right weak order: a reduced word of x begins one of y. In the left one it ends one.

        >>> W = CoxeterGroup("A", 3)
        >>> W.weak_le("1", "12"), W.weak_le("2", "12"), W.weak_le("2", "12", side="left")
        (True, False, True)
        """
        x, y = self._from(side, x), self._from(side, y)
        return len(self.product(x[::-1], y)) == len(y) - len(x)

    def weak_lower_covers(self, w: Word, side: str = "right") -> List[Element]:
        """The list of the ws with l(ws) < l(w), in ShortLex order; or of the sw.

        >>> CoxeterGroup("A", 3).weak_lower_covers("132"), CoxeterGroup("A", 3).weak_lower_covers("132", side="left")
        ([(1, 3)], [(1, 2), (3, 2)])
        """
        return self._weak_covers(w, side, -1)

    def weak_upper_covers(self, w: Word, side: str = "right") -> List[Element]:
        """The list of the ws with l(ws) > l(w), in ShortLex order; or of the sw.

        >>> CoxeterGroup("A", 2).weak_upper_covers("1"), CoxeterGroup("A", 2).weak_upper_covers("1", side="left")
        ([(1, 2)], [(2, 1)])
        """
        return self._weak_covers(w, side, 1)

    def demazure_product(self, *words: Word) -> Element:
        """The Demazure product of elements: letter by letter, where a letter that would make it shorter is left out.

        >>> CoxeterGroup("A", 3).demazure_product("12", "2", "1"), CoxeterGroup("A", 3).demazure_product("121", "121")
        ((1, 2, 1), (1, 2, 1))
        """
        element: Element = ()
        for word in words:
            for s in self.normal_form(word):
                longer = self.normal_form((*element, s))
                element = longer if len(longer) > len(element) else element
        return element

    def _weak_covers(self, w, side, step):
        w = self._from(side, w)
        found = [x for x in self._normal_forms((*w, s) for s in self._letters) if len(x) == len(w) + step]
        if side == "left":
            found = self._answers_of("inverse", found)
        return sorted(found, key=shortlex)

    def _from(self, side: str, w: Word) -> Element:
        """The element for the right side, or its inverse for the left one: so what is on the right of it is on the left of w."""
        if side not in ("left", "right"):
            raise ValueError(f"the side is left or right, not {side!r}")
        return self.normal_form(w) if side == "right" else self.inverse(w)
