"""What is made of cells and W-graphs of finite groups: the order of cells, a-values, Duflo involutions, the table of mu."""
from __future__ import annotations

import math
from typing import Iterable, List

from .base import CELLS, Base, Element, Word
from .graphs import CellOrder, WGraph
from .polynomial import Polynomial
from .tables import PairDict


class CellTheory(Base):
    """The methods of a finite group on its cells. The cells and their a-values are asked for once, and kept."""

    def left_cell(self, w: Word) -> List[Element]:
        """The left cell of w: the list of its elements.

        >>> CoxeterGroup("A", 2).left_cell("1")
        [(1,), (2, 1)]
        """
        return self._cell("left", w)

    def right_cell(self, w: Word) -> List[Element]:
        """The right cell of w: the list of its elements.

        >>> CoxeterGroup("A", 2).right_cell("1")
        [(1,), (1, 2)]
        """
        return self._cell("right", w)

    def two_sided_cell(self, w: Word) -> List[Element]:
        """The two-sided cell of w: the list of its elements.

        >>> CoxeterGroup("A", 2).two_sided_cell("1")
        [(1,), (2,), (1, 2), (2, 1)]
        """
        return self._cell("two-sided", w)

    def cell_order(self, side: str = "left") -> CellOrder:
        """The order of the left, right or two-sided cells ("two-sided"): x <= y where chains of steps of the W-graph lead from x to y.

        >>> order = CoxeterGroup("A", 2).cell_order()
        >>> order.le("121", "21"), order.le("e", "1"), [len(cell) for cell in order.cells.values()]
        (True, False, [1, 2, 2, 1])
        """
        cells = self._kept_cells(side)[0]
        graph = self.W_graph(CELLS[side][1])
        return self._read(lambda it: CellOrder(self, side, it, graph), "cells", cells)

    def cell_w_graph(self, cell: Iterable[Word], side: str = "left") -> WGraph:
        """The W-graph of a cell, which is given as the list of its elements: the part of the W-graph of the group.

        >>> W = CoxeterGroup("A", 3)
        >>> list(W.cell_w_graph(W.left_cell("2")).edges())
        [((2,), (1, 2), 1), ((2,), (3, 2), 1)]
        """
        if isinstance(cell, (str, bytes)):
            raise TypeError(f"a cell is the list of its elements, and {cell!r} is one text")
        elements = set(self._normal_forms(cell))
        kinds = [side, "two-sided"] if side in ("left", "right") else [side]
        if not elements or not any(elements == set(self._in_cell(kind, min(elements))) for kind in kinds):
            raise ValueError(f"these {len(elements)} elements are no {side} cell, and no two-sided one")
        return self.W_graph(side).part(elements)

    def a_value(self, w: Word) -> int:
        """Lusztig's function a at w: the least l(x) - 2 deg P(e, x) over the x of the left cell of w.

        >>> W = CoxeterGroup("A", 3)
        >>> [W.a_value(w) for w in ("e", "2", "13", "12132", "121321")]
        [0, 1, 2, 3, 6]
        """
        return self._duflo(self._in_cell("left", w))[0]

    def duflo_involutions(self) -> List[Element]:
        """The list of the Duflo involutions, one for each left cell, in the order of `left_cells`: the x with a(x) = l(x) - 2 deg P(e, x).

        >>> CoxeterGroup("B", 2).duflo_involutions()
        [(), (1,), (2,), (1, 2, 1, 2)]
        """
        return [self._duflo(cell)[1] for cell in self._kept_cells("left")[0]]

    def _duflo(self, cell):
        """The a-value of a left cell, and its Duflo involution: l(x) - 2 deg P(e, x) is at least a(x), and equal to it at the Duflo
        involutions alone, of which each left cell has one (Lusztig, "Hecke algebras with unequal parameters", chapters 14 and 15)."""
        if cell[0] not in self._a_values:
            involutions = [x for x, inverse in zip(cell, self._answers_of("inverse", cell)) if inverse == x]
            polynomials = self._answers_to(Polynomial.read, [self._line("pol", ((), x)) for x in involutions])
            values = [len(x) - 2 * p.degree() for x, p in zip(involutions, polynomials)]
            least = min(values, default=math.inf)
            if values.count(least) != 1:
                self.program.unexpected("lcells", cell, "a left cell should have one Duflo involution")
            self._a_values[cell[0]] = least, involutions[values.index(least)]
        return self._a_values[cell[0]]

    def mu_table(self, min_difference: int = 3) -> PairDict:
        """A dictionary from the pairs of elements x < w of a finite group to mu(x, w), where that is not 0 and l(w) - l(x) is at least
        `min_difference`. It is 1 wherever w covers x, so that those pairs are left out unless they are asked for.

        >>> CoxeterGroup("A", 3).mu_table()
        {((2,), (2, 1, 3, 2)): 1, ((1, 3), (1, 2, 3, 2, 1)): 1}
        """
        pairs = (((x, w), value) for x, w, value in self.W_graph().edges_across(min_difference))
        return PairDict(self, pairs, "mu")

    def _cell(self, side, w):
        return list(self._in_cell(side, w))

    def _in_cell(self, side, w):
        return self._kept_cells(side)[1][self.normal_form(w)]

    def _kept_cells(self, side):
        """The cells of a kind, and for each element its cell."""
        if side not in CELLS:
            raise ValueError(f"the side is left, right or two-sided, not {side!r}")
        if side not in self._cells:
            cells = list(getattr(self, CELLS[side][0])())
            self._cells[side] = cells, {x: cell for cell in cells for x in cell}
        return self._cells[side]
