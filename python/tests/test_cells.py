"""Cells, their order, a-values and Duflo involutions, compared with tableaux, definitions and published numbers."""
import itertools
import random
import unittest
from collections import Counter

import fakes
import reference
from coxeter_shell import CoxeterGroup, Refusal, UnexpectedAnswer

# The values of a on the two-sided cells. That of a special character of the cell is its b, the number behind the comma in its name
# (Geck and Pfeiffer, "Characters of finite Coxeter groups and Iwahori-Hecke algebras", appendix C).
A_VALUES = {
    "B 2": [0, 1, 4],
    "B 3": [0, 1, 2, 3, 4, 9],
    "G 2": [0, 1, 6],
    "D 4": [0, 1, 2, 2, 2, 3, 6, 6, 6, 7, 12],
    "F 4": [0, 1, 2, 3, 3, 4, 9, 9, 10, 13, 24],
}


def is_dominated(one, other):
    """The dominance order of partitions of a number."""
    return all(sum(one[:k]) <= sum(other[:k]) for k in range(1, len(one) + len(other)))


def a_of_shape(shape):
    """The value of a on the permutations whose tableaux have this shape."""
    return sum(row * size for row, size in enumerate(shape))


class CellsOfElements(unittest.TestCase):
    def test_by_tableaux(self):
        for n in (1, 2, 3, 4):
            real = reference.group(n)
            with CoxeterGroup("A", n) as group:
                for method, key in [
                    (group.left_cell, lambda w: reference.tableaux(w)[1]),
                    (group.right_cell, lambda w: reference.tableaux(w)[0]),
                    (group.two_sided_cell, reference.shape),
                ]:
                    for cell in real.cells_of(key):
                        for word in cell:
                            self.assertEqual(method(word), cell)

    def test_answers_are_copies(self):
        with CoxeterGroup("A", 2) as group:
            for word in ("1", "212121", [2, 1, 2, 2]):
                cell = group.left_cell(word)
                cell.clear()
            self.assertEqual((group.left_cell("2112"), group.left_cell("21")), ([()], [(1,), (2, 1)]))

    def test_refused(self):
        with CoxeterGroup("a", 2) as group:
            for call in (group.left_cell, group.right_cell, group.two_sided_cell, group.a_value):
                with self.assertRaises(Refusal) as caught:
                    call("1")
                self.assertEqual(caught.exception.number, 31)
            for call in (group.duflo_involutions, group.cell_order, group.mu_table):
                with self.assertRaises(Refusal) as caught:
                    call()
                self.assertEqual(caught.exception.number, 31)
        with CoxeterGroup("A", 2) as group, self.assertRaises(Refusal) as caught:
            group.left_cell("3")
        self.assertEqual(caught.exception.number, 16)


class Order(unittest.TestCase):
    def test_by_the_definition(self):
        """Chains of steps: from x to a neighbour y that has not all the descents of x."""
        for n in (1, 2, 3):
            real = reference.group(n)
            for side, kinds in [
                ("left", [reference.left_descents]),
                ("right", [reference.right_descents]),
                ("two-sided", [reference.left_descents, reference.right_descents]),
            ]:
                with CoxeterGroup("A", n) as group:
                    order = group.cell_order(side)
                    self.assertEqual(list(order.cells.values()), real.cells_by_graph(*kinds))
                    for x, word in real.words.items():
                        seen = todo = {x}
                        while todo:
                            steps = ((z, y) for z in todo for y in real.edges(z))
                            todo = {y for z, y in steps if any(set(of(z)) - set(of(y)) for of in kinds)} - seen
                            seen = seen | todo
                        self.assertEqual({y for y in real if order.le(word, real.words[y])}, seen)

    def test_by_dominance(self):
        """The two-sided cells of symmetric groups are in the dominance order of the shapes of their tableaux."""
        for n in (2, 3, 4):
            real = reference.group(n)
            with CoxeterGroup("A", n) as group:
                order = group.cell_order("two-sided")
            firsts = {name: reference.shape(real.element(name)) for name in order}
            self.assertEqual(sorted(firsts.values()), sorted(reference.partitions(n + 1)))
            for x, y in itertools.product(firsts, repeat=2):
                self.assertEqual(order.le(x, y), is_dominated(firsts[x], firsts[y]))

    def test_covers(self):
        """The pairs of the table have all of the order in their closure, and none of them is the sum of two others."""
        for kind, side in (("B 3", "left"), ("A 4", "right"), ("D 4", "two-sided")):
            with CoxeterGroup(kind) as group:
                order = group.cell_order(side)
                less = {(x, y) for x, y in itertools.product(order, repeat=2) if x != y and order.le(x, y)}
                covers = [(x, y) for y, x in order.edges()]
                self.assertEqual(len(covers), len(set(covers)))
                between = {(x, y) for x, y in less if any((x, z) in less and (z, y) in less for z in order)}
                self.assertEqual(set(covers), less - between)
                self.assertEqual(list(order.rows()), list(order.edges()))
                longest = order[group.long_element()]
                self.assertEqual((order["e"], longest), ([()], [group.long_element()]))
                self.assertTrue(all(order.le(longest[0], x) and order.le(x, "e") for x in order))

    def test_known_properties(self):
        """Kazhdan and Lusztig: where x <= y in the left order, x has each right descent of y; and a falls (Lusztig)."""
        for kind in ("B 3", "D 4"):
            with CoxeterGroup(kind) as group:
                order, a = group.cell_order(), {}
                descents = {x: set(group.right_descents(x)) for x in order}
                for x in order:
                    a[x] = group.a_value(x)
                for x, y in itertools.product(order, repeat=2):
                    if order.le(x, y):
                        self.assertTrue(descents[x] >= descents[y] and a[x] >= a[y])

    def test_as_a_container(self):
        with CoxeterGroup("A", 2) as group:
            order = group.cell_order()
            self.assertEqual((len(order), list(order), repr(order)), (4, [(), (1,), (2,), (1, 2, 1)], "<the order of 4 left cells>"))
            self.assertEqual((order["2112"], order["21"], "12" in order), ([()], [(1,), (2, 1)], True))
            self.assertEqual(order.to_csv(), "cell,covered\ne,1\ne,2\n1,121\n2,121\n")
            texts = [[text for _, text in row] for row in order.layers()[0]]
            self.assertEqual(texts, [["121: 1 element"], ["1: 2 elements", "2: 2 elements"], ["e: 1 element"]])
            self.assertEqual(order.layers()[1], [("1", "e", ""), ("2", "e", ""), ("121", "1", ""), ("121", "2", "")])
            dot = order.dot()
            self.assertEqual((dot.count("--"), dot.count("label="), '"1" -- "e"' in dot), (4, 4, True))
            self.assertEqual(order._repr_svg_()[:4], "<svg")
            for side in ("both", "", None):
                with self.assertRaises(ValueError):
                    group.cell_order(side)

    def test_cells_that_are_none(self):
        """A program whose cells do not belong to its W-graph."""
        graph = ["2", "e - 1:1", "1 1 e:1"]
        for cells, succeeds in ((["2", "e", "1"], True), (["1", "e 1"], True)):
            with fakes.Fakes() as folder:
                source = f"say(*{cells!r}) if line == 'lcells' else say(*{graph!r}) if line == 'lwgraph' else say(line[8:])"
                with CoxeterGroup("A", 1, program=folder.fake(source)) as group:
                    self.assertEqual(len(group.cell_order()), len(cells) - 1)
        graph = ["4", "e - 1:1", "1 1 e:1 12:1 21:1", "12 1 1:1", "21 2 1:1"]
        with fakes.Fakes() as folder:
            source = f"say('4', 'e', '1', '12', '21') if line == 'lcells' else say(*{graph!r}) if line == 'lwgraph' else say(line[8:])"
            with CoxeterGroup("A", 2, program=folder.fake(source)) as group, self.assertRaises(UnexpectedAnswer) as caught:
                group.cell_order()
            self.assertIn("strong components", str(caught.exception))


class Graphs(unittest.TestCase):
    def test_of_cells(self):
        """The elements of a cell, and all edges between them."""
        for n in (1, 2, 3):
            real = reference.group(n)
            with CoxeterGroup("A", n) as group:
                for side, descents, cells in [
                    ("left", reference.left_descents, group.left_cells()),
                    ("right", reference.right_descents, group.right_cells()),
                    ("left", reference.left_descents, group.two_sided_cells()),
                ]:
                    for cell in cells:
                        graph = group.cell_w_graph(cell, side)
                        self.assertEqual((graph.side, list(graph)), (side, cell))
                        for word in cell:
                            x = real.element(word)
                            edges = {real.words[y]: value for y, value in real.edges(x).items() if real.words[y] in cell}
                            self.assertEqual(graph[word], (word, descents(x), edges))
                            self.assertEqual(list(graph[word].edges), list(edges))

    def test_elements_of_any_form(self):
        with CoxeterGroup("A", 2) as group:
            graph = group.cell_w_graph(["21", [1], (2, 1)])
            self.assertEqual((list(graph), list(graph.edges())), ([(1,), (2, 1)], [((1,), (2, 1), 1)]))
            self.assertEqual(len(group.W_graph()), 6)
            with self.assertRaises(ValueError):
                group.cell_w_graph(["1"], side="both")

    def test_characters(self):
        """On S 4 a left cell has the irreducible character of the shape of its tableaux, by its module at v = 1 and by its W-graph."""
        real = reference.group(3)
        classes = list(reference.partitions(4))
        with CoxeterGroup("A", 3) as group:
            found = Counter()
            for cell in group.left_cells():
                shape = reference.shape(real.element(cell[0]))
                wanted = [reference.character(shape, cycles) for cycles in classes]
                module, graph = group.cell_module(cell[0]), group.cell_w_graph(cell)
                of_module = {s: [[entry(1) for entry in row] for row in module.matrix(s)] for s in (1, 2, 3)}
                for matrices in (of_module, {s: by_graph(graph, s) for s in (1, 2, 3)}):
                    words = map(reference.word_with_cycles, classes)
                    self.assertEqual([trace(matrices, word, len(cell)) for word in words], wanted)
                found[shape] += 1
        # As many left cells of a shape as its character's degree.
        self.assertEqual(found, {shape: reference.character(shape, (1, 1, 1, 1)) for shape in classes})


def by_graph(graph, s):
    """The matrix of a letter at v = 1, by a W-graph."""
    listed = list(graph)
    rows = [[0] * len(listed) for _ in listed]
    for k, x in enumerate(listed):
        rows[k][k] = -1 if s in graph[x].descents else 1
        if s not in graph[x].descents:
            for y, value in graph[x].edges.items():
                if s in graph[y].descents:
                    rows[listed.index(y)][k] = value
    return rows


def trace(matrices, word, size):
    """The trace of the product of the matrices of a word."""
    product = [[int(i == j) for i in range(size)] for j in range(size)]
    for s in word:
        product = [[sum(map(int.__mul__, row, column)) for column in zip(*matrices[s])] for row in product]
    return sum(product[k][k] for k in range(size))


class Values(unittest.TestCase):
    def test_by_the_definition(self):
        """By the structure constants of the Kazhdan-Lusztig basis; and the Duflo involutions, where a is l - 2 deg P(e, .)."""
        for n in (1, 2, 3):
            real, values = reference.group(n), reference.a_values(n)
            one = next(iter(real))
            with CoxeterGroup("A", n) as group:
                for w, word in real.words.items():
                    self.assertEqual(group.a_value(word), values[w])
                duflo = [w for w, a in values.items() if a == reference.length(w) - 2 * (len(reference.polynomial(one, w)) - 1)]
                self.assertEqual(sorted(group.duflo_involutions()), sorted(real.words[w] for w in duflo))

    def test_by_shapes(self):
        """In symmetric groups a is the sum of k times the length of row k of the tableau, k = 0, 1, ..; all involutions are Duflo's."""
        real = reference.group(4)
        with CoxeterGroup("A", 4) as group:
            for w, word in real.words.items():
                self.assertEqual(group.a_value(word), a_of_shape(reference.shape(w)))
            duflo = group.duflo_involutions()
            self.assertEqual(sorted(duflo), sorted(word for w, word in real.words.items() if reference.inverse(w) == w))
            self.assertTrue(all(d in cell for d, cell in zip(duflo, group.left_cells())))

    def test_published_values(self):
        for kind, values in A_VALUES.items():
            with self.subTest(kind), CoxeterGroup(kind) as group:
                cells = group.two_sided_cells()
                self.assertEqual(sorted(group.a_value(cell[0]) for cell in cells), values)
                # It is the same on each element of a two-sided cell.
                for cell in cells:
                    self.assertEqual(len({group.a_value(x) for x in random.sample(cell, min(len(cell), 20))}), 1)

    def test_left_cells_of_B_3(self):
        """Their values and sizes: families of characters of the degrees 1; 3, 2, 1; 3; 3; 3, 2, 1; 1. A left cell of a family of three has
        the special character, of degree 3, and one of the other two (Lusztig 1984)."""
        with CoxeterGroup("B", 3) as group:
            found = Counter((group.a_value(cell[-1]), len(cell)) for cell in group.left_cells())
        self.assertEqual(found, {(0, 1): 1, (1, 5): 2, (1, 4): 1, (2, 3): 3, (3, 3): 3, (4, 5): 2, (4, 4): 1, (9, 1): 1})

    def test_duflo_involutions(self):
        """One in each left cell, an involution, in the right cell of its inverse; those of parabolic subgroups are theirs."""
        for kind in ("B 3", "D 4", "G 2"):
            with CoxeterGroup(kind) as group:
                cells, duflo = group.left_cells(), group.duflo_involutions()
                self.assertEqual([[d in cell for d in duflo].count(True) for cell in cells], [1] * len(cells))
                self.assertEqual(list(map(group.inverse, duflo)), duflo)
                for d in duflo:
                    self.assertEqual(group.a_value(d), len(d) - 2 * group.kazhdan_lusztig_polynomial("e", d).degree())
                # The longest elements of parabolic subgroups are Duflo involutions, with their lengths as values.
                elements = list(group.elements())
                for k in range(group.rank + 1):
                    for letters in itertools.combinations(range(1, group.rank + 1), k):
                        longest = max((w for w in elements if set(w) <= set(letters)), key=len)
                        self.assertTrue(longest in duflo and group.a_value(longest) == len(longest))
        with CoxeterGroup("B", 2) as group:
            self.assertEqual(group.duflo_involutions(), [(), (1,), (2,), (1, 2, 1, 2)])

    def test_cells_without_one(self):
        """A program whose left cell has two elements with the least value, or no involution."""
        for cell, inverses in (("1 2", {"1": "1", "2": "2"}), ("12", {"12": "21"})):
            with fakes.Fakes() as folder:
                answers = {"jobs": (), "end": (), "lcells": ("1", cell), **{f"inverse {x}": (y,) for x, y in inverses.items()}}
                source = f"say(*{answers!r}.get(line, ('1',) if line.startswith('pol') else (line[8:],)))"
                with CoxeterGroup("A", 2, program=folder.fake(source)) as group:
                    for call in (group.duflo_involutions, lambda: group.a_value(cell[:2].strip())):
                        with self.assertRaises(UnexpectedAnswer) as caught:
                            call()
                        self.assertIn("one Duflo involution", str(caught.exception))


class Mu(unittest.TestCase):
    def test_by_the_definition(self):
        for n in (1, 2, 3):
            real = reference.group(n)
            with CoxeterGroup("A", n) as group:
                for least in (0, 1, 2, 3, 4, 5):
                    wanted = {}
                    for x, w in itertools.product(real, repeat=2):
                        if reference.mu(x, w) and reference.length(w) - reference.length(x) >= least:
                            wanted[real.words[x], real.words[w]] = reference.mu(x, w)
                    self.assertEqual(group.mu_table(least), wanted)
                self.assertEqual(group.mu_table(), group.mu_table(min_difference=3))

    def test_samples(self):
        random.seed(9)
        real = reference.group(4)
        with CoxeterGroup("A", 4) as group:
            table = group.mu_table(1)
            far = group.mu_table()
            self.assertTrue(set(far.items()) < set(table.items()) and set(table.values()) == {1})
            tried = [(x, w) for x, w in itertools.product(real, repeat=2) if (reference.length(w) - reference.length(x)) % 2 == 1]
            pairs = [(real.element(x), real.element(w)) for x, w in random.sample(list(far), 20)] + random.sample(tried, 200)
            for x, w in pairs:
                self.assertEqual(table.get((real.words[x], real.words[w]), 0), reference.mu(x, w))

    def test_keys(self):
        with CoxeterGroup("A", 3) as group:
            table = group.mu_table()
            for x, w in (("2", "2132"), ((2,), "2312"), ([2], [2, 3, 1, 2]), ("222", (2, 3, 1, 2)), ((2, 1, 1), (2, 1, 3, 2))):
                self.assertEqual((table[x, w], (x, w) in table, table.get([x, w])), (1, True, 1))
            self.assertEqual((table.get(("e", "1")), ("2", "2") in table), (None, False))
            self.assertEqual(table.to_csv(), "x,w,mu\n2,2132,1\n13,12321,1\n")


if __name__ == "__main__":
    unittest.main()
