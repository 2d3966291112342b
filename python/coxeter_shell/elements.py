"""What is made of several answers: products, orders, longest elements, cosets, covers, permutations."""
from __future__ import annotations

import math
import operator
import random as random_numbers
from typing import Any, Dict, Iterable, Iterator, List, Optional, Tuple

from . import kinds
from .base import Base, Element, Letters, Word
from .errors import Refusal
from .program import MOST_OF_CONTEXT, MOST_OF_WORD


class Elements(Base):
    """The methods of a group that ask the program more than once. Elements that they answer are normal forms of the program.

    What says whether a group is finite, its cardinality and the order of an element is worked out here, from the Coxeter
    matrix.
    """

    # ---- the group

    def coxeter_matrix(self) -> List[List[float]]:
        """The Coxeter matrix, a list of rows, in which infinity is math.inf.

        >>> CoxeterGroup("B", 3).coxeter_matrix()
        [[1, 3, 2], [3, 1, 4], [2, 4, 1]]
        """
        return [list(row) for row in self._matrix]

    def is_simply_laced(self) -> bool:
        """Whether all labels of the Coxeter matrix are 2 and 3, as in types A, D and E.

        >>> CoxeterGroup("D", 4).is_simply_laced(), CoxeterGroup("B", 3).is_simply_laced()
        (True, False)
        """
        return all(label in (1, 2, 3) for row in self._matrix for label in row)

    def is_finite(self) -> bool:
        """Whether the group is finite.

        >>> CoxeterGroup("E", 8).is_finite(), CoxeterGroup("a", 2).is_finite()
        (True, False)
        """
        return self.cardinality() < math.inf

    def cardinality(self) -> float:
        """How many elements the group has, math.inf where it is infinite.

        >>> CoxeterGroup("E", 8).cardinality()
        696729600
        """
        return kinds.cardinality(self._matrix)

    def long_element(self) -> Element:
        """The longest element of a finite group.

        >>> CoxeterGroup("A", 3).long_element()
        (1, 2, 1, 3, 2, 1)
        """
        if not self.is_finite():
            raise ValueError("an infinite group has no longest element")
        if self._long is None:
            element: Element = ()
            while True:
                descents = self.right_descents(element)
                if len(descents) == self.rank:
                    break
                element = self.normal_form((*element, next(s for s in self._letters if s not in descents)))
            self._long = element
        return self._long

    def elements(self, max_length: float = math.inf) -> Iterator[Element]:
        """An iterator over the elements, or over those of at most this length, in ShortLex order.

        >>> list(CoxeterGroup("A", 2).elements())
        [(), (1,), (2,), (1, 2), (2, 1), (1, 2, 1)]
        >>> sum(1 for w in CoxeterGroup("a", 2).elements(3))
        19
        """
        if self.cardinality() <= self.program.options.get("context", MOST_OF_CONTEXT):
            for w in self.iter_bruhat_interval((), self.long_element()):
                if len(w) > max_length:
                    return
                yield w
            return
        # A normal form without its last letter is a normal form.
        level: List[Element] = [()]
        while level:
            yield from level
            if len(level[0]) >= max_length:
                return
            level = list(self._normal_among((*w, s) for w in level for s in self._letters))

    def random_element(self, length: Optional[int] = None, random: Any = random_numbers) -> Element:
        """A random element. Without a length each element of a finite group is equally probable. With a length it is
        made letter by letter, each a random one that is no right descent, and not all elements are equally probable.
        `random` may be a random.Random.

        >>> W = CoxeterGroup("E", 8)
        >>> w = W.random_element()
        >>> W.normal_form(w) == w, W.length(W.random_element(length=30))
        (True, 30)
        """
        if length is None:
            if not self.is_finite():
                raise ValueError("an infinite group needs a length")
            return self.product(*map(random.choice, self._chain()))
        length = operator.index(length)
        if length < 0:
            raise ValueError(f"the length is negative: {length}")
        element: Element = ()
        for _ in range(length):
            descents = self.right_descents(element)
            letters = [s for s in self._letters if s not in descents]
            if not letters:
                raise ValueError(f"the group has no element of length {length}")
            element = self.normal_form((*element, random.choice(letters)))
        return element

    def _chain(self):
        """Lists of elements, such that each element of a finite group is the product of one of each in one way: shortest
        representatives of the cosets of a parabolic subgroup in the next larger one."""
        if self._cosets is None:
            listed, letters = [], list(self._letters)
            while letters:
                smaller = [[s for s in letters if s != without] for without in letters]
                largest = max(smaller, key=lambda some: kinds.cardinality(kinds.part(self._matrix, [s - 1 for s in some])))
                listed.append(list(self._representatives(set(largest), letters)))
                letters = largest
            self._cosets = listed
        return self._cosets

    def coset_representatives(self, letters: Letters, side: str = "left") -> Iterator[Element]:
        """An iterator over the shortest elements of the left cosets wW_J, in ShortLex order, where W_J is generated by
        these letters; or of the right cosets W_J w.

        >>> list(CoxeterGroup("A", 3).coset_representatives([1, 2]))
        [(), (3,), (2, 3), (1, 2, 3)]
        >>> list(CoxeterGroup("A", 3).coset_representatives("12", side="right"))
        [(), (3,), (3, 2), (3, 2, 1)]
        """
        letters = self._letters_of(letters)
        if side == "left":
            return self._representatives(letters, self._letters)
        if side == "right":
            return self._right_representatives(letters)
        raise ValueError(f"the side is left or right, not {side!r}")

    def _representatives(self, letters, among):
        """The shortest representatives of left cosets in the subgroup that the letters `among` generate."""
        # What is left of one without its first letter is one too.
        level = [()]
        while level:
            yield from level
            longer = list(self._normal_among((s, *w) for s in among for w in level))
            level = [word for word, (_, right) in zip(longer, self._answers_of("descents", longer)) if letters.isdisjoint(right)]

    def _right_representatives(self, letters):
        level = [()]
        while level:
            yield from level
            longer = list(self._normal_among((*w, s) for w in level for s in self._letters))
            level = [word for word, (left, _) in zip(longer, self._answers_of("descents", longer)) if letters.isdisjoint(left)]

    def _letters_of(self, letters):
        """A set of letters, given as a word is."""
        try:
            return set(self._spelling.element(letters or "e") if isinstance(letters, str) else self._spelling.whole_letters(letters))
        except Refusal:
            raise ValueError(f"{letters!r} has a letter that the group doesn't have") from None

    # ---- elements

    def product(self, *words: Word) -> Element:
        """The product of elements.

        >>> CoxeterGroup("A", 3).product("12", "2", "3")
        (1, 3)
        """
        element: Element = ()
        for word in words:
            factor = self.normal_form(word)
            while factor:
                room = max(MOST_OF_WORD - len(element), 1)
                element = self.normal_form(element + factor[:room])
                factor = factor[room:]
        return element

    def _products(self, pairs):
        """The products of many pairs of elements, in their order."""
        pairs = list(pairs)
        short = [(*x, *y) for x, y in pairs if len(x) + len(y) <= MOST_OF_WORD]
        found = iter(self._normal_forms(short))
        return [next(found) if len(x) + len(y) <= MOST_OF_WORD else self.product(x, y) for x, y in pairs]

    def power(self, w: Word, exponent: int) -> Element:
        """A power of an element. The exponent may be negative.

        >>> W = CoxeterGroup("A", 3)
        >>> W.power("123", 2), W.power("123", -1), W.power("123", 4)
        ((2, 1, 3, 2), (3, 2, 1), ())
        """
        exponent = operator.index(exponent)
        square = self.inverse(w) if exponent < 0 else self.normal_form(w)
        exponent = abs(exponent)
        power: Element = ()
        while exponent:
            if exponent % 2:
                power = self.product(power, square)
            exponent //= 2
            if exponent:
                square = self.product(square, square)
        return power

    def order(self, w: Word) -> float:
        """The order of an element, math.inf where no power of it is the identity.

        >>> CoxeterGroup("E", 8).order("12345678"), CoxeterGroup("a", 2).order("123")
        (30, inf)
        """
        return kinds.order(self._matrix, self.normal_form(w))

    def reduced_words(self, w: Word) -> List[Element]:
        """The list of the reduced words of an element, in lexicographic order.

        >>> CoxeterGroup("A", 3).reduced_words("1213")
        [(1, 2, 1, 3), (1, 2, 3, 1), (2, 1, 2, 3)]
        """
        return list(self.iter_reduced_words(w))

    def iter_reduced_words(self, w: Word) -> Iterator[Element]:
        """The reduced words of an element, in lexicographic order."""
        after: Dict[Element, List[Tuple[int, Element]]] = {}
        todo: List[Tuple[Element, Element]] = [((), self.normal_form(w))]
        while todo:
            word, rest = todo.pop()
            if not rest:
                yield word
                continue
            if rest not in after:
                after[rest] = [(s, self.normal_form((s, *rest))) for s in self.left_descents(rest)]
            todo.extend(((*word, s), shorter) for s, shorter in reversed(after[rest]))

    # ---- Bruhat order

    def bruhat_lower_covers(self, w: Word) -> List[Element]:
        """The elements that w covers in Bruhat order, in ShortLex order: the same as `coatoms`.

        >>> CoxeterGroup("A", 3).bruhat_lower_covers("123")
        [(1, 2), (1, 3), (2, 3)]
        """
        return self.coatoms(w)

    def bruhat_upper_covers(self, w: Word) -> List[Element]:
        """The elements that cover w in Bruhat order, in ShortLex order.

        >>> CoxeterGroup("A", 3).bruhat_upper_covers("13")
        [(1, 2, 3), (1, 3, 2), (2, 1, 3), (3, 2, 1)]
        """
        w = self.normal_form(w)
        if not self.is_finite():
            return sorted(self._upper_covers(w, {}))
        products = self._products((w, t) for t in self._all_reflections())
        return sorted(x for x in products if len(x) == len(w) + 1)

    def _all_reflections(self):
        """The reflections of a finite group: the conjugates of the generators."""
        if self._reflections is None:
            found = todo = {(s,) for s in self._letters}
            while todo:
                todo = set(self._normal_forms((s, *t, s) for t in todo for s in self._letters)) - found
                found = found | todo
            self._reflections = found
        return self._reflections

    def _upper_covers(self, w, known):
        """The set of the covers of w. A cover is ws, where s is no right descent of w; or each right descent s of it is one
        of w too, and it is ys, where y covers ws (Humphreys, section 5.9)."""
        if w not in known:
            descents = self.right_descents(w)
            found = {self.normal_form((*w, s)) for s in self._letters if s not in descents}
            for s in descents:
                for y in self._upper_covers(self.normal_form((*w, s)), known):
                    x = self.normal_form((*y, s))
                    if len(x) > len(y):
                        found.add(x)
            known[w] = found
        return known[w]

    # ---- permutations

    def to_permutation(self, w: Word) -> Tuple[int, ...]:
        """The permutation of an element of A n, or the signed permutation of an element of B n or D n, in one-line notation: a
        letter s on the right swaps what stands at the places s and s+1. The letter n of B n turns the sign at the last place;
        that of D n swaps what stands at the last two places and turns both signs, so that the number of signs is even
        (Bjorner and Brenti 2005, chapter 8, which have the letter 0 at the first places). So words are multiplied as maps, as
        Sage's Permutations are. Sage's SymmetricGroup and SignedPermutations multiply the other way round: for one of their
        elements the answer is the inverse.

        >>> CoxeterGroup("A", 3).to_permutation("2132"), CoxeterGroup("B", 3).to_permutation("32")
        ((3, 4, 1, 2), (1, -3, 2))
        >>> CoxeterGroup("D", 4).to_permutation("4"), CoxeterGroup("D", 4).to_permutation("34")
        ((1, 2, -4, -3), (1, 2, -3, -4))
        """
        letter, values = self._permutation_type(), list(range(1, self._places() + 1))
        for s in self.normal_form(w):
            act(letter, values, s)
        return tuple(values)

    def from_permutation(self, values: Iterable[int]) -> Element:
        """The element of A n, B n or D n of a permutation or signed permutation in one-line notation.

        >>> CoxeterGroup("A", 3).from_permutation([3, 4, 1, 2]), CoxeterGroup("B", 3).from_permutation([1, -3, 2])
        ((2, 1, 3, 2), (3, 2))
        >>> CoxeterGroup("D", 4).from_permutation([1, 2, -3, -4])
        (3, 4)
        """
        letter, places = self._permutation_type(), self._places()
        signed = letter != "A"
        try:
            listed = [operator.index(it) for it in (() if isinstance(values, (set, frozenset, dict)) else values)]
        except TypeError:
            raise TypeError(f"a permutation is a list or tuple of whole numbers, and not {values!r}") from None
        if sorted(abs(it) for it in listed) != list(range(1, places + 1)) or min(listed) < 0 and not signed:
            raise ValueError(f"{listed} is no {'signed ' if signed else ''}permutation of 1 to {places}")
        if letter == "D" and sum(it < 0 for it in listed) % 2:
            raise ValueError(f"{listed} has an odd number of signs, and elements of {self!r} have an even number")
        # The values in the order of e 1 > e 2 > .. > 0 > .. > -e 2 > -e 1, where -e i stands for -i.
        word: List[int] = []
        keys = [(places + 1 - abs(it)) * (1 if it > 0 else -1) for it in listed]
        while True:
            descents = [s for s in range(1, places) if keys[s - 1] < keys[s]]
            if letter == "B" and keys[-1] < 0 or letter == "D" and keys[-2] + keys[-1] < 0:
                descents.append(places)
            if not descents:
                return self.normal_form(word[::-1])
            word.append(descents[0])
            act(letter, keys, descents[0])

    def _permutation_type(self):
        """The letter of the type of a group whose elements are permutations."""
        for letter, least in (("A", 1), ("B", 2), ("D", 4)):
            if self.rank >= least and self._matrix == kinds.named_matrix(letter, self.rank):
                return letter
        raise ValueError(f"elements of {self!r} are not given as permutations: those of A n, B n and D n are")

    def _places(self):
        """How many places the permutations have."""
        return self.rank + (self._permutation_type() == "A")

    # ---- Sage

    def sage(self) -> Any:
        """The same group in Sage: the one that this object was made of, else a Weyl group for the named types, and a
        Coxeter group for others. It needs Sage."""
        if self._sage_group is None:
            from sage.all import CoxeterGroup as SageGroup
            from sage.all import CoxeterMatrix, WeylGroup

            if self._cartan is not None and self._nodes == kinds.read(list(self._cartan)).nodes:
                self._sage_group = WeylGroup(list(self._cartan), prefix="s")
            else:
                rows = [[-1 if it == math.inf else it for it in row] for row in self._matrix]
                self._sage_group = SageGroup(CoxeterMatrix(rows, index_set=self._nodes))
        return self._sage_group

    def sage_element(self, w: Word) -> Any:
        """The element of `sage()` that a word is. It needs Sage."""
        return self.sage().from_reduced_word([self._nodes[s - 1] for s in self.normal_form(w)])

    def _of_sage(self, element):
        """The letters of an element of Sage: of its reduced word there."""
        parent = element.parent()
        if not hasattr(parent, "coxeter_matrix"):
            return self._of_permutation(element)
        if parent is not self._parent:
            given = kinds.of_object(parent)
            if given.matrix != self._matrix:
                raise ValueError(f"{element} is an element of another group: {parent}")
            self._parent, self._parent_letters = parent, {node: s for s, node in enumerate(given.nodes, 1)}
        return [self._parent_letters[node] for node in element.reduced_word()]

    def _of_permutation(self, element):
        """The letters of a permutation of Sage whose parent has permutations of all sizes."""
        try:
            places = len(element)
        except TypeError:
            raise TypeError(f"{element} is no element of a Coxeter group") from None
        if self._permutation_type() != "A":
            raise ValueError(f"{element} is no permutation with signs, as elements of {self!r} are")
        if self._places() != places:
            raise ValueError(f"{element} is no permutation of 1 to {self.rank + 1}, as elements of {self!r} are")
        return list(element.reduced_word())


def act(letter, values, s):
    """Multiplies a permutation of a group of a type by a letter on the right."""
    if s < len(values):
        values[s - 1], values[s] = values[s], values[s - 1]
    elif letter == "B":
        values[-1] = -values[-1]
    else:
        values[-2], values[-1] = -values[-1], -values[-2]
