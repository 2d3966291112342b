"""Characters of the modules of left cells, and what they are made of in types A and B."""
from __future__ import annotations

import itertools
import math
from typing import Any, Dict, Iterator, List, Optional, Sequence, Tuple

from .base import Base, Element, Word
from .tables import ElementDict

# A partition is the tuple of its parts, which fall. A character of B n is given by a pair of them.
Partition = Tuple[int, ...]


class Characters(Base):
    """The methods of a finite group on the characters of its left cells: those of their modules at v = 1. The right cell of w has the character
    of the left cell of w^-1. They are not proved."""

    def cell_character(self, w: Word) -> ElementDict:
        """The character of the left cell of w: a dictionary from the first element of each conjugacy class to its value there.

        >>> W = CoxeterGroup("A", 2)
        >>> W.cell_character("e"), W.cell_character("1"), W.cell_character("121")
        ({(): 1, (1,): 1, (1, 2): 1}, {(): 2, (1,): 0, (1, 2): -1}, {(): 1, (1,): -1, (1, 2): 1})
        """
        firsts = [some[0] for some in self.conjugacy_classes()]
        return ElementDict(self, zip(firsts, traces(self.cell_module(w), firsts)), "value")

    def cell_constituents(self, w: Word) -> Dict[Any, int]:
        """The irreducible characters of A n or B n that the character of the left cell of w is the sum of, each with how often. Those of A n
        are given by partitions of n + 1: the trivial one by (n + 1,), that of the reflection representation by (n, 1). Those of B n are
        given by pairs of partitions of n in all: the trivial one by ((n,), ()), that of the reflection representation by
        ((n - 1,), (1,)), and that which is -1 at the letter n alone by ((), (n,)) (Geck and Pfeiffer 2000, chapter 5).

        In A n it is one character, and each of its shape (Kazhdan and Lusztig 1979). In B n a left cell has 2^d different ones, all of one
        family (Lusztig 1984, "Characters of reductive groups over a finite field").

        >>> CoxeterGroup("A", 3).cell_constituents("2132"), CoxeterGroup("B", 2).cell_constituents("1")
        ({(2, 2): 1}, {((1, 1), ()): 1, ((1,), (1,)): 1})
        """
        letter, places = self._permutation_type(), self._places()
        if letter == "D":
            raise ValueError(f"the characters of {self!r} are not decomposed: those of A n and B n are")
        # A class of A n has no negative cycles, and a character no second partition.
        pairs = list(signed_classes(places)) if letter == "B" else [(it, ()) for it in partitions(places)]
        values = traces(self.cell_module(w), [word_of_class(places, *pair) for pair in pairs])
        order = int(self.cardinality())
        sizes = [order // centralizer(*pair, letter == "B") for pair in pairs]
        found: Dict[Any, int] = {}
        for name in pairs:
            total = sum(size * value * value_at(name, *pair) for size, value, pair in zip(sizes, values, pairs))
            if total % order or total < 0:
                self.program.unexpected(self._line("module", (w,)), values, "its traces should be those of a character")
            if total:
                found[name if letter == "B" else name[0]] = total // order
        return found


def traces(module: Any, words: Sequence[Element]) -> List[int]:
    """The traces of the matrices of some words at v = 1."""
    places = {x: at for at, x in enumerate(module.elements)}
    images = {s: [[(places[y], p(1)) for y, p in image.items()] for image in some] for s, some in module.images.items()}
    found = []
    for word in words:
        trace = 0
        for start in range(len(places)):
            vector = {start: 1}
            for s in reversed(word):
                moved: Dict[int, int] = {}
                for x, entry in vector.items():
                    for y, more in images[s][x]:
                        moved[y] = moved.get(y, 0) + more * entry
                vector = moved
            trace += vector.get(start, 0)
        found.append(trace)
    return found


def partitions(size: int, most: Optional[int] = None) -> Iterator[Partition]:
    """The partitions of a number, with parts of at most this.

    >>> list(partitions(4))
    [(4,), (3, 1), (2, 2), (2, 1, 1), (1, 1, 1, 1)]
    """
    if size == 0:
        yield ()
    for part in range(min(size, most or size), 0, -1):
        for rest in partitions(size - part, part):
            yield (part, *rest)


def signed_classes(size: int) -> Iterator[Tuple[Partition, Partition]]:
    """The pairs of partitions of a number in all.

    >>> list(signed_classes(2))
    [((2,), ()), ((1, 1), ()), ((1,), (1,)), ((), (2,)), ((), (1, 1))]
    """
    for first in range(size, -1, -1):
        yield from itertools.product(partitions(first), partitions(size - first))


def word_of_class(places: int, cycles: Partition, negative: Partition) -> Element:
    """A word of a permutation with these lengths of cycles, and of negative ones, which turn one sign.

    >>> word_of_class(3, (2,), (1,)), word_of_class(3, (1,), (2,)), word_of_class(3, (2, 1), ())
    ((1, 3), (2, 3), (1,))
    """
    word: List[int] = []
    first = 1
    for size, turned in itertools.chain(((it, False) for it in cycles), ((it, True) for it in negative)):
        last = first + size - 1
        word += range(first, last)
        if turned:
            word += [*range(last, places), *range(places, last - 1, -1)]
        first = last + 1
    return tuple(word)


def centralizer(cycles: Partition, negative: Partition, signed: bool) -> int:
    """How many elements commute with one of this class.

    >>> centralizer((2, 1), (), False), centralizer((1,), (1,), True)
    (2, 4)
    """
    found = 1
    for some in (cycles, negative):
        for size in set(some):
            count = some.count(size)
            found *= ((2 if signed else 1) * size) ** count * math.factorial(count)
    return found


def value_at(pair: Tuple[Partition, Partition], cycles: Partition, negative: Partition) -> int:
    """The value of the irreducible character of a pair of partitions at this class, by the rule of Murnaghan and Nakayama: rim hooks of the
    length of a cycle are taken away from one of the two. At a negative cycle the sign of those of the second is turned.

    >>> value_at(((2, 1), ()), (3,), ()), value_at(((2,), (1,)), (1, 1), (1,)), value_at(((), (3,)), (2,), (1,))
    (-1, 1, -1)
    """
    if not cycles and not negative:
        return 1
    size, sign = (cycles[0], 1) if cycles else (negative[0], -1)
    rest = (cycles[1:], negative) if cycles else (cycles, negative[1:])
    first, second = pair
    found = sum(turned * value_at((less, second), *rest) for less, turned in without_hooks(first, size))
    return found + sign * sum(turned * value_at((first, less), *rest) for less, turned in without_hooks(second, size))


def without_hooks(shape: Partition, size: int) -> Iterator[Tuple[Partition, int]]:
    """The partitions without a rim hook of this size, each with the sign (-1)^(its height).

    >>> list(without_hooks((3, 1), 2)), list(without_hooks((2, 1), 3))
    ([((1, 1), 1)], [((), -1)])
    """
    # The first column of hook lengths: to take a rim hook away is to make one of them smaller, and its height is how many it passes.
    beads = [part + len(shape) - 1 - at for at, part in enumerate(shape)]
    for bead in beads:
        lower = bead - size
        if lower >= 0 and lower not in beads:
            passed = sum(lower < other < bead for other in beads)
            left = sorted([lower, *(other for other in beads if other != bead)], reverse=True)
            parts = (it - (len(left) - 1 - at) for at, it in enumerate(left))
            yield tuple(part for part in parts if part), -1 if passed % 2 else 1
