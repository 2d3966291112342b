"""Modules of right cells, compared with the definition, relations and characters."""
import itertools
import pickle
import unittest

import reference
from coxeter_shell import CellModule, CoxeterGroup, InV, RightCellModule, gap

Q = [0, 0, 1]


def product(*factors):
    """The product of some matrices."""
    first, *rest = factors
    for factor in rest:
        first = [[sum((a * b for a, b in zip(row, column)), 0) for column in zip(*factor)] for row in first]
    return first


class RightModules(unittest.TestCase):
    def test_by_the_definition(self):
        """x t(s) is -x where s is a right descent of x, and else v^2 x and v mu(x, y) y for the y of the cell that have it (Kazhdan and Lusztig
        1979)."""
        for n in (1, 2, 3):
            real = reference.group(n)
            with CoxeterGroup("A", n) as group:
                for cell in real.cells_by_graph(reference.right_descents):
                    module = group.right_cell_module(cell[-1])
                    self.assertEqual(module.elements, cell)
                    for s, (k, word) in itertools.product(range(1, n + 1), enumerate(cell)):
                        x = real.element(word)
                        wanted = {word: [-1]}
                        if s not in reference.right_descents(x):
                            near = {real.words[y]: value for y, value in real.edges(x).items() if s in reference.right_descents(y)}
                            wanted = {word: Q, **{y: [0, value] for y, value in near.items() if y in cell}}
                        self.assertEqual(module.images[s][k], wanted)
                        self.assertEqual([row[k] for row in module.matrix(s)], [wanted.get(y, 0) for y in cell])

    def test_relations(self):
        """(t - q)(t + 1) = 0, and as many factors in turn as a label says are equal."""
        for kind in ("B 3", "G 2", "A 3"):
            with CoxeterGroup(kind) as group:
                for cell in group.right_cells():
                    module = group.right_cell_module(cell[0])
                    self.assertEqual(module.elements, cell)
                    for s in range(1, group.rank + 1):
                        # t^2 = (q - 1) t + q
                        rows = enumerate(module.matrix(s))
                        wanted = [[entry * InV([-1, 0, 1]) + (InV(Q) if i == j else 0) for j, entry in enumerate(row)] for i, row in rows]
                        self.assertEqual(module.act([s, s]), wanted)
                    for s, t in itertools.combinations(range(1, group.rank + 1), 2):
                        label = group.coxeter_matrix()[s - 1][t - 1]
                        one = module.act([(s, t)[k % 2] for k in range(label)])
                        self.assertEqual(one, module.act([(t, s)[k % 2] for k in range(label)]))

    def test_the_order_of_letters(self):
        """From the right the first letter acts first: its matrix stands behind the others."""
        with CoxeterGroup("A", 3) as group:
            module = group.right_cell_module("2")
            matrices = {s: module.matrix(s) for s in (1, 2, 3)}
            for word in ((1, 2), (2, 1, 3), (1, 2, 3, 2)):
                self.assertEqual(module.act(word), product(*(matrices[s] for s in reversed(word))))
            self.assertNotEqual(module.act("12"), module.act("21"))
            self.assertEqual(module.act("e"), module.act([]))

    def test_characters(self):
        """On S 4 a right cell has the irreducible character of the shape of its tableaux at v = 1."""
        real = reference.group(3)
        classes = list(reference.partitions(4))
        with CoxeterGroup("A", 3) as group:
            for cell in group.right_cells():
                module = group.right_cell_module(cell[0])
                shape = reference.shape(real.element(cell[0]))
                found = [module.character(reference.word_with_cycles(cycles))(1) for cycles in classes]
                self.assertEqual(found, [reference.character(shape, cycles) for cycles in classes])

    def test_as_an_object(self):
        with CoxeterGroup("A", 2) as group:
            module, left = group.right_cell_module([1, 1, 1]), group.cell_module("1")
            self.assertEqual((repr(module), len(module)), ("<the module of a right cell with 2 elements>", 2))
            self.assertEqual(pickle.loads(pickle.dumps(module)), module)
            self.assertIn("elements := [ [ 1 ], [ 1, 2 ] ]", gap(module))
            self.assertIsInstance(module, CellModule)
            # That of one element is a left cell too, and the modules have the same matrices.
            one, other = group.right_cell_module("e"), group.cell_module("e")
            self.assertEqual((one.images, one == other, other == one, one != other), (other.images, False, False, True))
            self.assertEqual((module == left, module == RightCellModule(module.elements, module.images)), (False, True))
            self.assertEqual(len({module, group.right_cell_module("12")}), 1)


if __name__ == "__main__":
    unittest.main()
