"""Modules of right cells."""
from __future__ import annotations

from typing import List

from .base import Base, Word
from .modules import CellModule, InV
from .texts import Spelling, shortlex


class RightCellModule(CellModule):
    """The module of a right cell: how the Hecke algebra acts from the right on the free module with the elements of the cell as its basis.
    `images` has for each letter s the list of the x t(s) for the elements x.

    >>> module = RightCellModule([(1,), (1, 2)], {1: [{(1,): InV([-1])}, {(1,): InV([0, 1]), (1, 2): InV([0, 0, 1])}]})
    >>> module, module.matrix(1)
    (<the module of a right cell with 2 elements>, [[-1, v], [0, v^2]])
    """

    def __repr__(self):
        return f"<the module of a right cell with {len(self.elements)} elements>"

    def __eq__(self, other):
        if not isinstance(other, CellModule):
            return NotImplemented
        return isinstance(other, RightCellModule) and super().__eq__(other)

    __hash__ = CellModule.__hash__

    def act(self, word: Word) -> List[List[InV]]:
        """The matrix of what the product of the t(s) over the letters of a word, in their order, does from the right, as a list of rows. So
        it is the product of the matrices in the opposite order.

        >>> module = CoxeterGroup("A", 2).right_cell_module("1")
        >>> module.act("12"), module.act("121") == module.act("212")
        ([[-v^2, v^3], [-v, 0]], True)
        """
        spelling = Spelling(len(self.images))
        return super().act(spelling.element(spelling.write(word))[::-1])


class RightModules(Base):
    """The methods of a group on right cells."""

    def right_cell_module(self, w: Word) -> RightCellModule:
        """The module of the right cell of w, in a finite group: its elements, and how the Hecke algebra acts on it from the right.

        It is that of the left cell of w^-1, in which each element is replaced by its inverse: T(w) -> T(w^-1) turns products round (Kazhdan
        and Lusztig 1979). So it is not proved, as `cell_module` is.

        >>> module = CoxeterGroup("A", 2).right_cell_module("1")
        >>> module.elements, module.matrix(1)
        ([(1,), (1, 2)], [[-1, v], [0, v^2]])
        """
        left = self.cell_module(self.inverse(w))
        inverse = dict(zip(left.elements, self._answers_of("inverse", left.elements)))
        elements = sorted(inverse.values(), key=shortlex)
        places = {inverse[x]: at for at, x in enumerate(left.elements)}
        images = {}
        for s, listed in left.images.items():
            turned = ({inverse[y]: entry for y, entry in image.items()} for image in (listed[places[x]] for x in elements))
            images[s] = [{y: image[y] for y in sorted(image, key=shortlex)} for image in turned]
        return RightCellModule(elements, images)
