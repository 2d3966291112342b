"""Cells, W-graphs and modules of cells in `coxeter_shell.sage`, in the nodes of the Cartan type. It needs Sage."""
from sage.combinat.posets.posets import Poset
from sage.graphs.graph import Graph
from sage.matrix.constructor import matrix
from sage.rings.integer import Integer
from sage.rings.integer_ring import ZZ
from sage.rings.polynomial.polynomial_ring_constructor import PolynomialRing
from sage.structure.sage_object import SageObject


class Cells:
    """The methods of a finite group on its cells. Those of infinite groups are a Refusal."""

    def left_cells(self):
        """The list of the left cells, each the list of its elements.

            sage: from coxeter_shell.sage import CoxeterGroup
            sage: CoxeterGroup(["B", 2]).left_cells()
            [[[]], [[2], [1, 2], [2, 1, 2]], [[1], [2, 1], [1, 2, 1]], [[2, 1, 2, 1]]]
        """
        return [list(map(self._element, cell)) for cell in self._shell.iter_left_cells()]

    def right_cells(self):
        """The list of the right cells, each the list of its elements.

            sage: from coxeter_shell.sage import CoxeterGroup
            sage: CoxeterGroup(["A", 2]).right_cells()
            [[[]], [[1], [1, 2]], [[2], [2, 1]], [[1, 2, 1]]]
        """
        return [list(map(self._element, cell)) for cell in self._shell.iter_right_cells()]

    def two_sided_cells(self):
        """The list of the two-sided cells, each the list of its elements.

            sage: from coxeter_shell.sage import CoxeterGroup
            sage: CoxeterGroup(["A", 2]).two_sided_cells()
            [[[]], [[1], [2], [1, 2], [2, 1]], [[1, 2, 1]]]
        """
        return [list(map(self._element, cell)) for cell in self._shell.iter_two_sided_cells()]

    def kazhdan_lusztig_cells(self, side="left"):
        """The set of the left, right or two-sided cells, each the frozen set of its elements, as Sage gives them.

            sage: from coxeter_shell.sage import CoxeterGroup
            sage: sorted(map(sorted, CoxeterGroup(["A", 2]).kazhdan_lusztig_cells(side="right")))
            [[[]], [[1], [1, 2]], [[1, 2, 1]], [[2], [2, 1]]]
        """
        kinds = {"left": self.left_cells, "right": self.right_cells, "two-sided": self.two_sided_cells}
        if side not in kinds:
            raise ValueError(f"the side is left, right or two-sided, not {side!r}")
        return set(map(frozenset, kinds[side]()))

    def W_graph(self, side="left"):
        """The W-graph, for the left or the right descents, as a graph of Sage. The labels of its edges are the values of mu, and
        `get_vertex(w)` is the tuple of the nodes that are descents of w.

            sage: from coxeter_shell.sage import CoxeterGroup
            sage: W = CoxeterGroup(["B", 3])
            sage: graph = W.W_graph()
            sage: graph.order(), graph.edge_label(W([3]), W([2, 3])), graph.get_vertex(W([2, 3]))
            (48, 1, (2,))
        """
        found = self._shell.W_graph(side)
        elements = {x: self._element(x) for x in found}
        edges = [(elements[x], elements[y], Integer(value)) for x, y, value in found.edges()]
        graph = Graph([list(elements.values()), edges], format="vertices_and_edges")
        sets = {letters: self._node_set(letters) for letters in set(found._descents)}
        graph.set_vertices({elements[x]: sets[letters] for x, letters in zip(found, found._descents)})
        return graph

    def cell_order(self, side="left"):
        """The poset of the left, right or two-sided cells, each the tuple of its elements. The cell of the identity is the greatest.

            sage: from coxeter_shell.sage import CoxeterGroup
            sage: order = CoxeterGroup(["A", 2]).cell_order("two-sided")
            sage: order.top(), order.is_chain()
            (([],), True)
        """
        found = self._shell.cell_order(side)
        cells = {name: tuple(map(self._element, cell)) for name, cell in found.cells.items()}
        return Poset((list(cells.values()), [[cells[y], cells[x]] for x, y in found.edges()]), cover_relations=True)

    def a_value(self, w):
        """Lusztig's function a at w.

            sage: from coxeter_shell.sage import CoxeterGroup
            sage: W = CoxeterGroup(["B", 3])
            sage: [W.a_value(w) for w in ([], [3], [1, 3], [1, 2, 1])]
            [0, 1, 2, 3]
        """
        return Integer(self._shell.a_value(self._word(w)))

    def duflo_involutions(self):
        """The list of the Duflo involutions, one for each left cell, in the order of `left_cells`.

            sage: from coxeter_shell.sage import CoxeterGroup
            sage: CoxeterGroup(["B", 2]).duflo_involutions()
            [[], [2], [1], [2, 1, 2, 1]]
        """
        return list(map(self._element, self._shell.duflo_involutions()))

    def cell_module(self, w):
        """The module of the left cell of w: its elements, and how the Hecke algebra acts on it.

            sage: from coxeter_shell.sage import CoxeterGroup
            sage: CoxeterGroup(["B", 2]).cell_module([1])
            The module of the left cell of [1] with 3 elements
        """
        return CellModule(self, self._shell.cell_module(self._word(w)))


class CellModule(SageObject):
    """The module of a left cell: how the Hecke algebra acts from the left on the free module over the polynomials in v = q^(1/2) with the
    elements of the cell as its basis, where (t(s) + 1)(t(s) - v^2) = 0.

        sage: from coxeter_shell.sage import CoxeterGroup
        sage: module = CoxeterGroup(["B", 2]).cell_module([1])
        sage: module.elements()
        [[1], [2, 1], [1, 2, 1]]
        sage: module.matrix(1)
        [ -1   v   0]
        [  0 v^2   0]
        [  0   v  -1]
        sage: module.character([1]), module.character([1, 2])
        (v^2 - 2, -v^2)
    """

    def __init__(self, group, module):
        self._group = group
        self._module = module
        self._elements = list(map(group._element, module.elements))
        self._matrices = {}

    def _repr_(self):
        return f"The module of the left cell of {self._elements[0]} with {len(self._elements)} elements"

    def __eq__(self, other):
        if not isinstance(other, CellModule):
            return NotImplemented
        return (self._group, self._module) == (other._group, other._module)

    def __hash__(self):
        return hash((self._group, self._elements[0]))

    def __len__(self):
        return len(self._elements)

    def group(self):
        """The group."""
        return self._group

    def elements(self):
        """The list of the elements of the cell, in ShortLex order of the program."""
        return list(self._elements)

    def matrix(self, node):
        """The matrix of t(s), for the generator s of a node, over the integer polynomials in v. Its columns are the images of the elements."""
        letter = self._group._letter(node)
        if letter not in self._matrices:
            ring = PolynomialRing(ZZ, "v")
            rows = [[ring(list(entry)) for entry in row] for row in self._module.matrix(letter)]
            self._matrices[letter] = matrix(ring, rows)
            self._matrices[letter].set_immutable()
        return self._matrices[letter]

    def act(self, word):
        """The matrix of the product of the t(s) over the nodes of a word, in their order, which is that of T(w) where the word is reduced. An
        element w is taken by a reduced word, so that the matrix is that of T(w).

            sage: from coxeter_shell.sage import CoxeterGroup
            sage: W = CoxeterGroup(["B", 3])
            sage: module = W.cell_module([3])
            sage: module.act([2, 3, 2]) == module.matrix(2) * module.matrix(3) * module.matrix(2) == module.act(W([2, 3, 2]))
            True
        """
        product = matrix.identity(PolynomialRing(ZZ, "v"), len(self))
        for node in self._group._nodes_of(word):
            product = product * self.matrix(node)
        return product

    def character(self, word):
        """The trace of `act(word)`. At v = 1 it is the value of a character of the group.

            sage: from coxeter_shell.sage import CoxeterGroup
            sage: W = CoxeterGroup(["A", 2])
            sage: [W.cell_module([1]).character(w)(1) for w in ([], [1], W([1, 2]), WeylGroup(["A", 2]).long_element())]
            [2, 0, -1, 0]
        """
        return self.act(word).trace()
