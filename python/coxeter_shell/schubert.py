"""Schubert varieties, by the Kazhdan-Lusztig polynomials of their elements, and parabolic Kazhdan-Lusztig polynomials."""
from __future__ import annotations

import collections
import math
from typing import Dict, List

from . import kinds
from .base import Base, Element, Letters, Word
from .polynomial import Polynomial
from .texts import shortlex

Known = collections.namedtuple(
    "Known",
    [
        "element",
        "dimension",
        "left_descents",
        "right_descents",
        "coatoms",
        "size",
        "betti_numbers",
        "intersection_betti_numbers",
        "extremal_pairs",
        "is_rationally_smooth",
        "singular_locus",
        "singular_strata",
    ],
)


class SchubertVariety(Known):
    """What is known of the Schubert variety of an element. Its fields are what the methods of the group with these names answer; `size` is
    the number of the elements below it.

    >>> X = CoxeterGroup("A", 3).schubert("2132")
    >>> X.dimension, X.size, X.is_rationally_smooth, X.singular_locus
    (4, 14, False, [(2,)])
    """

    __slots__ = ()


class Schubert(Base):
    """The methods of a group on Schubert varieties, and on parabolic polynomials.

    In a Weyl group the variety of w is the closure of BwB/B. What is said of its singularities is what Kazhdan-Lusztig polynomials tell,
    which is rational smoothness. In simply laced types, A, D and E, where all labels are 2 and 3, a point is smooth where it is rationally
    smooth (Carrell and Kuttler 2003). In types B, C, F and G a rationally smooth point may be singular: in B 2 all varieties are rationally
    smooth, and one is singular. In groups that belong to no variety it is said which polynomials are 1, and no more.
    """

    def is_rationally_smooth(self, w: Word, at: Word = ()) -> bool:
        """Whether the Schubert variety of w is rationally smooth: P(e, w) = 1; or whether it is so at the point of x <= w, which is given as
        `at`: P(x, w) = 1 (Kazhdan and Lusztig 1979; Carrell and Peterson 1994). In simply laced types, A, D and E, that is whether it is
        smooth; in types B, C, F and G a rationally smooth variety may be singular, and `is_smooth` says whether it is.

        The program gives the polynomial, and the package compares it with 1. That this is rational smoothness is not proved.

        >>> W = CoxeterGroup("A", 3)
        >>> [W.text(w) for w in W.elements() if not W.is_rationally_smooth(w)]
        ['2132', '12321']
        >>> W.is_rationally_smooth("2132", at="1"), W.is_rationally_smooth("2132", at="2")
        (True, False)
        """
        p = self.kazhdan_lusztig_polynomial(at, w)
        if not p:
            raise ValueError(f"{self.text(at)} is not below {self.text(w)}, so it is no point of the variety")
        return p == 1

    def singular_locus(self, w: Word) -> List[Element]:
        """The list of the maximal x <= w where the Schubert variety of w is not rationally smooth, that is P(x, w) != 1. In simply laced
        types these are the components of its singular locus; in types B, C, F and G there may be more singular points.

        >>> CoxeterGroup("A", 3).singular_locus("12321"), CoxeterGroup("A", 3).singular_locus("123")
        ([(1, 3)], [])
        """
        return self._locus(self.iter_extremal_pairs(w))

    def singular_strata(self, w: Word) -> Dict[Polynomial, List[Element]]:
        """The strata of that locus: a dictionary from each polynomial P other than 1 to the list of the maximal x with P(x, w) = P.

        >>> CoxeterGroup("A", 4).singular_strata("1234321")
        {1+q: [(1, 2, 1, 4), (1, 3, 4, 3)], 1+2q+q^2: [(1, 4)]}
        """
        return self._strata(self.iter_extremal_pairs(w))

    def schubert(self, w: Word) -> SchubertVariety:
        """All of the Schubert variety of w at once: its dimension, the descents and coatoms of w, the number of elements below w, the Betti
        numbers and those of intersection cohomology, the extremal pairs, and where it is not rationally smooth.

        >>> X = CoxeterGroup("A", 3).schubert("12321")
        >>> X.betti_numbers, X.intersection_betti_numbers, X.singular_locus, X.singular_strata
        ((1, 3, 5, 6, 4, 1), (1, 4, 7, 7, 4, 1), [(1, 3)], {1+q: [(1, 3)]})
        """
        w = self.normal_form(w)
        betti, pairs = self.betti_numbers(w), self.extremal_pairs(w)
        locus, strata = self._locus(pairs.items()), self._strata(pairs.items())
        numbers = sum(betti), betti, self.intersection_betti_numbers(w)
        return SchubertVariety(w, len(w), *self.descents(w), self.coatoms(w), *numbers, pairs, not locus, locus, strata)

    # The polynomial of an x is that of an extremal element above it. So extremal elements are enough for what is maximal.

    def _locus(self, pairs):
        return self._maximal(x for x, p in pairs if p != 1)

    def _strata(self, pairs):
        classes = {}
        for x, p in pairs:
            if p != 1:
                classes.setdefault(p, []).append(x)
        return {p: self._maximal(classes[p]) for p in sorted(classes, key=lambda p: p.coefficients)}

    def _maximal(self, elements):
        """Those of some elements that are below no other one of them, in ShortLex order."""
        found = []
        for x in sorted(elements, key=len, reverse=True):
            if not any(self.bruhat_le(x, y) for y in found):
                found.append(x)
        return sorted(found, key=shortlex)

    def parabolic_kazhdan_lusztig_polynomial(self, u: Word, v: Word, letters: Letters, kind: str = "q") -> Polynomial:
        """Deodhar's parabolic Kazhdan-Lusztig polynomial of the cosets uW_J and vW_J, where J is a set of letters, and u and v are the
        shortest elements of their cosets.

        Deodhar has two kinds. That of the kind "q" is the sum of (-1)^l(z) P(uz, v) over the z of W_J, which Sage gives as well. That of
        the kind "-1" is P(u', v') for the longest elements u' and v' of the cosets, where W_J is finite. Without letters both are P(u, v).

        >>> W = CoxeterGroup("A", 3)
        >>> W.parabolic_kazhdan_lusztig_polynomial("2", "2132", [1, 3]), W.parabolic_kazhdan_lusztig_polynomial("2", "2132", [])
        (q, 1+q)
        >>> W.parabolic_kazhdan_lusztig_polynomial("2", "2132", [1, 3], kind="-1")
        1
        """
        letters, u, v = self._letters_of(letters), self.normal_form(u), self.normal_form(v)
        if kind not in ("q", "-1"):
            raise ValueError(f"the kind is \"q\" or \"-1\", not {kind!r}")
        for word in (u, v):
            if not letters.isdisjoint(self.right_descents(word)):
                raise ValueError(f"{self.text(word)} is not the shortest element of its coset")
        if kind == "-1":
            longest = self._longest_of(letters)
            return self.kazhdan_lusztig_polynomial(self.product(u, longest), self.product(v, longest))
        total, level, sign = Polynomial(), [u], 1
        # The words uz are reduced. Where uz is below v, so are the uy for the beginnings y of a reduced word of z.
        while level:
            level = [x for x in level if self.bruhat_le(x, v)]
            total += sign * sum((self.kazhdan_lusztig_polynomial(x, v) for x in level), Polynomial())
            longer = (self.normal_form((*x, s)) for x in level for s in letters)
            level = sorted({it for it in longer if len(it) > len(level[0])})
            sign = -sign
        return total

    def _longest_of(self, letters):
        """The longest element of the subgroup that some letters generate."""
        if kinds.cardinality(kinds.part(self._matrix, sorted(s - 1 for s in letters))) == math.inf:
            raise ValueError("the letters generate an infinite group, which has no longest element")
        element = ()
        while True:
            longer = letters.difference(self.right_descents(element))
            if not longer:
                return element
            element = self.normal_form((*element, min(longer)))
