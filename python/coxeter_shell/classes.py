"""Conjugacy classes of finite groups."""
from __future__ import annotations

from typing import Any, Dict, List, Tuple

from . import kinds
from .base import Base, Element, Word
from .program import MOST_OF_CONTEXT
from .tables import Cells
from .texts import shortlex


class ConjugacyClasses(Cells):
    """The conjugacy classes of a group: a list of lists of elements.

    >>> CoxeterGroup("A", 2).conjugacy_classes()
    [[()], [(1,), (2,), (1, 2, 1)], [(1, 2), (2, 1)]]
    """

    columns = "class", "element"

    def _in_short(self):
        return f"<{len(self):,} conjugacy classes of {self.group!r}, with {sum(map(len, self)):,} elements>"

    def __reduce__(self):
        return ConjugacyClasses, (self.group, list(self))


class Classes(Base):
    """The methods of a finite group on its conjugacy classes."""

    def conjugacy_class(self, w: Word) -> List[Element]:
        """The conjugacy class of w in a finite group: the list of the xwx^-1, in ShortLex order. It is not proved.

        The package makes it of the normal forms of sxs, for the letters s and the x that it has, until there are no new ones.

        >>> CoxeterGroup("E", 8).conjugacy_class("1")[-1] == CoxeterGroup("E", 8).reflections()[-1]
        True
        """
        if not self.is_finite():
            raise ValueError("an infinite group has infinite conjugacy classes")
        found = todo = {self.normal_form(w)}
        while todo:
            todo = set(self._normal_forms((s, *x, s) for x in todo for s in self._letters)) - found
            found = found | todo
        return sorted(found, key=shortlex)

    def conjugacy_classes(self) -> ConjugacyClasses:
        """The list of the conjugacy classes of a finite group whose elements can be listed, each the list of its elements, in ShortLex order
        of the first ones, which are among the shortest of their classes. They are not proved.

        The package finds them by the permutations of the roots that the elements are (Humphreys, section 1.2). A larger group than
        `context` allows is refused.

        >>> W = CoxeterGroup("B", 2)
        >>> W.conjugacy_classes()
        [[()], [(1,), (2, 1, 2)], [(2,), (1, 2, 1)], [(1, 2), (2, 1)], [(1, 2, 1, 2)]]
        """
        if not self.is_finite():
            raise ValueError("an infinite group has infinite conjugacy classes")
        most = self.program.options.get("context", MOST_OF_CONTEXT)
        if self.cardinality() > most:
            raise ValueError(f"the group has {self.cardinality():,} elements, and its classes are found among at most {most:,}")
        letters = root_permutations(self._matrix)
        rest = bytes(range(len(letters[0]), 256))
        # An element as the permutation of the roots that it is; a word without its last letter is a normal form before it.
        of: Dict[Element, bytes] = {(): bytes(range(len(letters[0])))}
        for w in self.elements():
            if w:
                of[w] = letters[w[-1] - 1].translate(of[w[:-1]] + rest)
        left = {permutation: w for w, permutation in of.items()}
        found = []
        while left:
            first = next(iter(left))
            members, todo = [left.pop(first)], [first]
            while todo:
                permutation = todo.pop()
                for letter in letters:
                    other = letter.translate(permutation + rest).translate(letter + rest)
                    if other in left:
                        members.append(left.pop(other))
                        todo.append(other)
            found.append(sorted(members, key=shortlex))
        return ConjugacyClasses(self, found)


def root_permutations(matrix: Any) -> List[bytes]:
    """For each letter of a finite group the permutation of the roots that it is: the number of the image of each root.

    >>> [list(it) for it in root_permutations(kinds.named_matrix("A", 1))], len(root_permutations(kinds.named_matrix("E", 8))[0])
    ([[1, 0]], 240)
    """
    letters = range(len(matrix))
    joined = kinds.neighbours(matrix)

    def image(s, root):
        change = -2 * root[s] + sum(entry * root[t] for t, entry in joined[s])
        return (*root[:s], root[s] + change, *root[s + 1 :])

    roots: Dict[Tuple[int, ...], int] = {tuple(int(s == t) for t in letters): s for s in letters}
    found = list(roots)
    for root in found:
        for s in letters:
            moved = image(s, root)
            if moved not in roots:
                roots[moved] = len(roots)
                found.append(moved)
    return [bytes(roots[image(s, root)] for root in found) for s in letters]
