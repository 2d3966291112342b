"""Which Schubert varieties are smooth, and not only rationally smooth, by Kumar's criterion."""
from __future__ import annotations

import fractions
from typing import Any, Dict, Iterable, List, Tuple

from .base import Base, Element, Word

# A root by its coordinates in the simple ones, and an element as the tuple of the images of the simple roots.
Root = Tuple[int, ...]
Images = Tuple[Root, ...]

# Minus the entries of the Cartan matrices of Bourbaki at the nodes that are joined by another label than 3: those of the first node at the
# second, and the other way round. n is the last node.
MULTIPLE = {"B": (-2, -1, 1, 2), "C": (-2, -1, 2, 1), "F": (1, 2, 1, 2), "G": (0, 1, 3, 1)}


class Smoothness(Base):
    """The method of a group on smoothness."""

    def is_smooth(self, w: Word) -> bool:
        """Whether the Schubert variety of w is smooth, in a finite group of type A to G. That is more than `is_rationally_smooth` says where the
        type is B, C, F or G; then it depends on the lengths of the roots too, so it differs for B n and C n, and a group that is given by
        its matrix or as a product has no answer. It is not proved.

        In simply laced types the two agree (Carrell and Kuttler 2003). In the others a rationally smooth variety of dimension d is smooth
        where Kumar's number is 1 (Kumar 1996, "The nil Hecke ring and singularity of Schubert varieties"): the coefficient of e in the
        product of the (s - 1) / a(s) over a reduced word of w, in which a(s) is the simple root of s, times (-1)^d, and times the roots of
        the d reflections that are below w. The package works it out.

        >>> [[W.text(w) for w in W.elements() if not W.is_smooth(w)] for W in (CoxeterGroup("B", 2), CoxeterGroup("C", 2))]
        [['212'], ['121']]
        """
        if not self.is_finite():
            raise ValueError("smoothness is for finite groups; of infinite ones it is asked whether a variety is rationally smooth")
        if not self.is_simply_laced() and (self._cartan is None or len(self._cartan) != 2):
            raise ValueError("whether a variety is smooth depends on the lengths of the roots: give the group by its type, as B 3 or C 3")
        w = self.normal_form(w)
        if not self.is_rationally_smooth(w):
            return False
        return self.is_simply_laced() or kumar_number(self._cartan_entries(), w) == 1

    def _cartan_entries(self):
        """For each node s the t that are joined to it, with minus the entry (s, t) of the Cartan matrix of Bourbaki: s takes the root of t to
        the sum of that and so many times the root of s."""
        letter, rank = self._cartan or ("A", self.rank)
        nodes = range(self.rank)
        joined: List[Dict[int, int]] = [{t: 1 for t in nodes if self._matrix[s][t] not in (1, 2)} for s in nodes]
        if letter in MULTIPLE:
            s, t, of_s, of_t = MULTIPLE[letter]
            s, t = s % rank, t % rank
            joined[s][t], joined[t][s] = of_s, of_t
        return [list(it.items()) for it in joined]


def kumar_number(joined: Any, word: Iterable[int]) -> fractions.Fraction:
    """Kumar's number of the element of a reduced word: it is a whole number where the variety is rationally smooth.

    >>> short_first, long_first = [[(1, 2)], [(0, 1)]], [[(1, 1)], [(0, 2)]]
    >>> [kumar_number(short_first, word) == 1 for word in ((1, 2, 1), (2, 1, 2))]
    [False, True]
    """
    one = tuple(tuple(int(s == t) for t in range(len(joined))) for s in range(len(joined)))
    # The coefficients, at the point where all simple roots are 1: there a root is its height, and is not 0.
    coefficients = {one: fractions.Fraction(1)}
    length = 0
    for letter in word:
        length += 1
        found: Dict[Images, fractions.Fraction] = {}
        for element, value in coefficients.items():
            share = value / sum(element[letter - 1])
            for other, more in ((times(joined, element, letter - 1), share), (element, -share)):
                found[other] = found.get(other, fractions.Fraction(0)) + more
        coefficients = found
    number = coefficients[one] * (-1) ** length
    for reflection, root in reflections(joined, one).items():
        if reflection in coefficients:
            number *= sum(root)
    return number


def times(joined: Any, element: Images, s: int) -> Images:
    """An element times the letter of a node, on the right."""
    images, own = list(element), element[s]
    for t, entry in joined[s]:
        images[t] = tuple(a + entry * b for a, b in zip(images[t], own))
    images[s] = tuple(-it for it in own)
    return tuple(images)


def reflections(joined: Any, one: Images) -> Dict[Images, Root]:
    """The reflections of a finite group, each with its positive root."""
    found: Dict[Images, Root] = {}
    # A reflection with the root r is u s u^-1 for some u with u(a) = r, where a is the simple root of s.
    todo: List[Tuple[Images, Root]] = [(times(joined, one, s), one[s]) for s in range(len(joined))]
    while todo:
        reflection, root = todo.pop()
        if reflection not in found:
            found[reflection] = root
            for s in range(len(joined)):
                turned = tuple(image(joined, s, it) for it in times(joined, reflection, s))
                moved = image(joined, s, root)
                todo.append((turned, moved if min(moved) >= 0 else tuple(-it for it in moved)))
    return found


def image(joined: Any, s: int, root: Root) -> Root:
    """The image of a root under the letter of a node."""
    change = -2 * root[s] + sum(entry * root[t] for t, entry in joined[s])
    return (*root[:s], root[s] + change, *root[s + 1 :])
