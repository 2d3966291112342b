"""Groups: how they are given, how words are written, and known numbers of other groups than the symmetric ones."""
import itertools
import math
import pickle
import unittest
from collections import Counter

from coxeter_shell import CoxeterGroup, Refusal, kinds

# The type, how many elements it has, its left cells and two-sided cells, and how long its longest element is.
CELLS = [
    ("A 4", 120, 26, 7, 10),
    ("B 2", 8, 4, 3, 4),
    ("B 3", 48, 14, 6, 9),
    ("D 4", 192, 36, 11, 12),
    ("F 4", 1152, 72, 11, 24),
    ("G 2", 12, 4, 3, 6),
]


def bott(degrees, count):
    """The first coefficients of the product of (1-q^d)/(1-q)/(1-q^(d-1)) for the degrees d of a finite group: how many elements of each
    length its affine group has."""
    series = [1] + [0] * (count - 1)
    for d in degrees:
        series = [sum(series[max(k - d + 1, 0) : k + 1]) for k in range(count)]
        for k in range(d - 1, count):
            series[k] += series[k - d + 1]
    return series


def product(a, b):
    """The product of two matrices of numbers."""
    return [[sum(map(math.prod, zip(row, column))) for column in zip(*b)] for row in a]


class Groups(unittest.TestCase):
    def test_types(self):
        for arguments in (("A", 3), ("A 3",), ("type A 3",), ("A3",), (["A", 3],), (("A", 3),)):
            with CoxeterGroup(*arguments) as group:
                self.assertEqual((group.rank, repr(group)), (3, 'CoxeterGroup("A", 3)'))
                self.assertEqual(group.normal_form("2312"), (2, 1, 3, 2))
        for arguments in (("a", 4), ("a 4",), ("a4",), (["A", 4, 1],)):
            self.assertEqual((CoxeterGroup(*arguments).rank, CoxeterGroup(*arguments).line), (5, "type a 4"))
        self.assertEqual((CoxeterGroup("C", 3).line, CoxeterGroup("matrix  2  4").line), ("type B 3", "matrix 2 4"))

    def test_the_matrices_of_types(self):
        """Bourbaki's diagrams say where the labels are, and the program's normal forms have these orders."""
        for kind, labels in [
            ("A 4", {(1, 2): 3, (2, 3): 3, (3, 4): 3}),
            ("B 4", {(1, 2): 3, (2, 3): 3, (3, 4): 4}),
            ("D 5", {(1, 2): 3, (2, 3): 3, (3, 4): 3, (3, 5): 3}),
            ("E 6", {(1, 3): 3, (3, 4): 3, (4, 5): 3, (5, 6): 3, (2, 4): 3}),
            ("E 8", {(1, 3): 3, (3, 4): 3, (4, 5): 3, (5, 6): 3, (2, 4): 3, (6, 7): 3, (7, 8): 3}),
            ("F 4", {(1, 2): 3, (2, 3): 4, (3, 4): 3}),
            ("G 2", {(1, 2): 6}),
            ("a 1", {(1, 2): math.inf}),
            ("a 3", {(1, 2): 3, (2, 3): 3, (3, 4): 3, (1, 4): 3}),
        ]:
            with self.subTest(kind), CoxeterGroup(kind) as group:
                matrix = group.coxeter_matrix()
                for s, t in itertools.product(range(1, group.rank + 1), repeat=2):
                    label = 1 if s == t else labels.get((min(s, t), max(s, t)), 2)
                    self.assertEqual(matrix[s - 1][t - 1], label)
                    if s != t:
                        words = [group.length([s, t] * k) for k in range(1, 8)]
                        self.assertEqual(words.index(0) + 1 if 0 in words else math.inf, label)
                self.assertEqual(CoxeterGroup(matrix), group)

    def test_equality(self):
        same = [CoxeterGroup(kind) for kind in ("B3", "C3", [[1, 3, 2], [3, 1, 4], [2, 4, 1]])]
        same.append(CoxeterGroup("B", 3, context=5))
        for group in same:
            self.assertTrue(group == same[0] and hash(group) == hash(same[0]) and not group != same[0])
        others = [CoxeterGroup("A3"), CoxeterGroup([[1, 4, 2], [4, 1, 3], [2, 3, 1]]), "B 3", None]
        self.assertTrue(all(group != other for group in same for other in others))
        self.assertEqual(len({*same, *others}), 5)

    def test_latex(self):
        matrix = r"$\begin{pmatrix}1&\infty\\\infty&1\end{pmatrix}$"
        for kind, text in [("A 3", "$A_{3}$"), ("a 12", r"$\tilde{A}_{12}$"), ("matrix 2 0", matrix)]:
            self.assertEqual(CoxeterGroup(kind)._repr_latex_(), text)

    def test_matrices(self):
        triangle = [[1, 3, 3], [3, 1, 3], [3, 3, 1]]
        for infinity in (0, math.inf, float("inf"), -1):
            with CoxeterGroup([[1, infinity], [infinity, 1]]) as group:
                self.assertEqual(group.line, "matrix 2 0")
                self.assertEqual(group.length("12" * 50), 100)
        for matrix in (triangle, tuple(map(tuple, triangle)), iter(triangle)):
            with CoxeterGroup(matrix) as group:
                self.assertEqual(group.line, "matrix 3 3 3 3")
                self.assertEqual(group.length([1, 2, 3] * 4), 12)
        self.assertEqual(CoxeterGroup([[1, 3, 2], [3, 1, 4], [2, 4, 1]]).line, "matrix 3 3 2 4")
        with CoxeterGroup([[1]]) as group:
            self.assertEqual(group.bruhat_interval("e", "1"), [(), (1,)])
        with CoxeterGroup("matrix 3 3 2 4") as group:
            self.assertEqual((group.rank, repr(group)), (3, 'CoxeterGroup("matrix 3 3 2 4")'))
            self.assertEqual(len(group.W_graph()), 48)

    def test_matrices_that_are_none(self):
        for matrix in ([[1, 3]], [[1, 3], [3]], [[2, 3], [3, 1]], [[1, 3], [2, 1]], [[1, 3, 2], [3, 1, 4]]):
            with self.assertRaises(ValueError):
                CoxeterGroup(matrix)
        for matrix in ([[1, 2.5], [2.5, 1]], [[1, "3"], ["3", 1]], 3):
            with self.assertRaises(TypeError):
                CoxeterGroup(matrix)
        for kind in ("A", "", "A 3 4", "matrix"):
            with self.assertRaises(ValueError):
                CoxeterGroup(kind)
        for kind in (["A"], ["A", 3, 2], ["B", 3, 2], ["A", 3, 1, 1]):
            with self.assertRaises(ValueError):
                CoxeterGroup(kind)
        with self.assertRaises(ValueError):
            CoxeterGroup([[1]], 1)
        with self.assertRaises(TypeError):
            CoxeterGroup("A", 3, workes=2)

    def test_affine_types(self):
        """Each is infinite, and without any of its nodes finite. Without its last node it is the finite type."""
        for letter, (least, greatest) in kinds.AFFINE.items():
            for number in range(least, greatest + 1):
                group = CoxeterGroup(letter, number)
                self.assertEqual((group.rank, group.cardinality()), (number + 1, math.inf))
                rows = group.coxeter_matrix()
                for node in range(group.rank):
                    rest = [it for it in range(group.rank) if it != node]
                    self.assertLess(kinds.cardinality(kinds.part(rows, rest)), math.inf)
                finite = CoxeterGroup(letter.upper(), number)
                self.assertEqual(kinds.part(rows, range(number)), finite._matrix)
                same = CoxeterGroup([letter.upper(), number, 1])
                self.assertEqual((same, repr(same), same._nodes[-1]), (group, f'CoxeterGroup("{letter}", {number})', 0))
        with CoxeterGroup("g2") as group:
            # The growth series of affine G 2 begins so (Bott).
            counts = Counter(map(len, group.elements(6)))
            self.assertEqual([counts[k] for k in range(7)], bott((2, 6), 7))
        with CoxeterGroup("b3") as group:
            counts = Counter(map(len, group.elements(5)))
            self.assertEqual([counts[k] for k in range(6)], bott((2, 4, 6), 6))
        self.assertEqual(CoxeterGroup("a3").line, "type a 3")

    def test_products(self):
        with CoxeterGroup("A2xB2") as group:
            self.assertEqual((group.cardinality(), group.line), (6 * 8, "matrix 4 3 2 2 2 2 4"))
            self.assertEqual(group.long_element(), (1, 2, 1, 3, 4, 3, 4))
        for text in ("A 2 x B 2", "A2 x B2", "A2×B2"):
            self.assertEqual(CoxeterGroup(text), group)
        self.assertEqual(CoxeterGroup("A1xa2xG2").rank, 6)
        self.assertEqual(CoxeterGroup("A1xA1").coxeter_matrix(), [[1, 2], [2, 1]])
        for text, error in [("A9xA8", Refusal), ("A2xH3", Refusal), ("A2x", ValueError), ("A2xB", ValueError), ("xA2", Refusal)]:
            with self.assertRaises(error):
                CoxeterGroup(text)

    def test_the_name_is_kept(self):
        group = CoxeterGroup("C", 3)
        self.assertEqual((repr(group), group, group._latex_()), ('CoxeterGroup("C", 3)', CoxeterGroup("B", 3), "C_{3}"))
        self.assertEqual(repr(pickle.loads(pickle.dumps(group))), repr(group))
        self.assertEqual(CoxeterGroup("d", 4)._latex_(), "\\tilde{D}_{4}")

    def test_words(self):
        with CoxeterGroup("A", 3) as group:
            for word in ("2312", " 2312 ", [2, 3, 1, 2], (2, 3, 1, 2), iter([2, 3, 1, 2]), range(2, 3)):
                self.assertEqual(group.normal_form(word), (2,) if word == range(2, 3) else (2, 1, 3, 2))
            for word in ("e", "", [], (), "11", [3, 3]):
                self.assertEqual(group.normal_form(word), ())
            self.assertEqual(group.text((2, 1, 3, 2)), "2132")
            for word in ("1 2", [1.5], ["1"], 12):
                with self.assertRaises((TypeError, ValueError)):
                    group.normal_form(word)

    def test_letters_of_two_digits(self):
        with CoxeterGroup("A", 10) as group:
            for word in ("10.9.10", [10, 9, 10], (10, 9, 10)):
                self.assertEqual(group.normal_form(word), (9, 10, 9))
            self.assertEqual(group.normal_form("10"), (10,))
            self.assertEqual(group.descents([9, 10, 9]), ((9, 10), (9, 10)))
            self.assertEqual(group.normal_form("e"), ())
            self.assertEqual(group.text(()), "e")
            self.assertEqual(group.bruhat_interval([10], [9, 10]), [(10,), (9, 10)])
            self.assertEqual(group.kazhdan_lusztig_basis([10, 2]), {(): [1], (2,): [1], (10,): [1], (2, 10): [1]})
        with CoxeterGroup("a", 15) as group:
            self.assertEqual(group.normal_form([16, 1, 16]), (1, 16, 1))

    def test_long_words(self):
        with CoxeterGroup([[1, 0], [0, 1]]) as group:
            word = [1, 2] * 127 + [1]
            self.assertEqual((group.length(word), group.normal_form(word)), (255, tuple(word)))
            self.assertEqual(group.kazhdan_lusztig_polynomial("e", word), [1])
            self.assertEqual(group.r_polynomial(word[:216], word).degree(), 39)

    def test_known_numbers(self):
        for kind, order, left, both, longest in CELLS:
            with self.subTest(kind), CoxeterGroup(kind) as group:
                cells = group.left_cells()
                self.assertEqual((sum(map(len, cells)), len(cells)), (order, left))
                self.assertEqual((len(group.right_cells()), len(group.two_sided_cells())), (left, both))
                word = cells[-1][-1]
                self.assertEqual((len(word), group.length(word), group.inverse(word)), (longest, longest, word))
                self.assertEqual(sum(group.betti_numbers(word)), order)
                # Left cells have one set of right descents, and the inverses of a left cell are a right cell.
                if order < 200:
                    self.assertTrue(all(len({group.right_descents(x) for x in cell}) == 1 for cell in cells))
                    inverses = {frozenset(map(group.inverse, cell)) for cell in cells}
                    self.assertEqual(inverses, set(map(frozenset, group.right_cells())))

    def test_modules(self):
        with CoxeterGroup("A 2") as group:
            module = group.cell_module([1])
            self.assertEqual((module.elements, len(module)), ([(1,), (2, 1)], 2))
            self.assertEqual(module.matrix(1), [[[-1], [0, 1]], [[], [0, 0, 1]]])
            self.assertEqual(module.matrix(2), [[[0, 0, 1], []], [[0, 1], [-1]]])
            self.assertEqual(str(module.matrix(2)), "[[v^2, 0], [v, -1]]")
            self.assertEqual(group.cell_module("e").images, {1: [{(): [0, 0, 1]}], 2: [{(): [0, 0, 1]}]})
        with CoxeterGroup("B 3") as group:
            for cell in group.left_cells():
                module = group.cell_module(cell[-1])
                self.assertEqual(module.elements, cell)
                one, two = ([[entry(5) for entry in row] for row in module.matrix(s)] for s in (1, 3))
                self.assertEqual(product(one, two), product(two, one))
        with CoxeterGroup("matrix 2 0") as group, self.assertRaises(Refusal):
            group.cell_module("1")

    def test_a_polynomial_with_a_coefficient_2(self):
        with CoxeterGroup("D 4") as group:
            self.assertEqual(group.kazhdan_lusztig_polynomial("134", "1324213"), [1, 2])
            self.assertEqual(group.extremal_pairs("1324213"), {(1, 3, 4): [1, 2], (1, 3, 2, 4, 2, 1, 3): [1]})
            self.assertEqual(group.mu_coefficient("134", "1324213"), 0)

    def test_options(self):
        with CoxeterGroup("A", 3, context=23) as group:
            with self.assertRaises(Refusal):
                group.betti_numbers("121321")
        with CoxeterGroup("A", 3, workers=2, context=24, roots=6, coef=3) as group:
            self.assertEqual(group.betti_numbers("121321"), (1, 3, 5, 6, 5, 3, 1))
            self.assertEqual(Counter(map(len, group.left_cells())), {1: 2, 2: 2, 3: 6})

    def test_pickle(self):
        group = CoxeterGroup("B", 2, context=5)
        with group, pickle.loads(pickle.dumps(group)) as other:
            self.assertEqual((repr(other), other, other._nodes), (repr(group), group, group._nodes))
            self.assertEqual(other.normal_form("2121"), group.normal_form("2121"))
            with self.assertRaises(Refusal):
                other.betti_numbers("1212")


class Matrix:
    """What the package asks of a Coxeter matrix of Sage."""

    def __init__(self, nodes, labels):
        self.nodes, self.labels = nodes, labels

    def index_set(self):
        return self.nodes

    def __getitem__(self, pair):
        return 1 if pair[0] == pair[1] else self.labels.get(frozenset(pair), 2)

    def coxeter_matrix(self):
        return self


class Parent:
    """What the package asks of a Coxeter group of Sage. Its elements know a reduced word."""

    def __init__(self, matrix):
        self.matrix = matrix

    def coxeter_matrix(self):
        return self.matrix

    def from_reduced_word(self, word):
        return Element(self, word)


class Element:
    def __init__(self, group, word):
        self.group, self.word = group, word

    def parent(self):
        return self.group

    def reduced_word(self):
        return self.word


def diagram(nodes, *edges):
    return Matrix(nodes, {frozenset(edge[:2]): edge[2] for edge in edges})


class OfSage(unittest.TestCase):
    """Cartan types, Coxeter matrices, groups and elements of Sage, which objects stand in for here. See test_optional."""

    def test_groups(self):
        for matrix, line, nodes in [
            (diagram((1, 2, 3), (1, 2, 3), (2, 3, 3)), "type A 3", (1, 2, 3)),
            (diagram((1, 2, 3), (1, 2, 3), (2, 3, 4)), "type B 3", (1, 2, 3)),
            (diagram((1, 2, 3), (1, 2, 4), (2, 3, 3)), "matrix 3 4 2 3", (1, 2, 3)),
            (diagram((0, 1, 2), (0, 1, 3), (1, 2, 3), (0, 2, 3)), "type a 2", (1, 2, 0)),
            (diagram((0, 1), (0, 1, -1)), "type a 1", (1, 0)),
            (diagram((0, 1, 2), (0, 1, 4), (1, 2, 4)), "matrix 3 4 4 2", (1, 2, 0)),
            (diagram((5, 3, 8), (5, 3, 3), (3, 8, 3)), "type A 3", (5, 3, 8)),
        ]:
            for kind in (matrix, Parent(matrix)):
                with self.subTest(line), CoxeterGroup(kind) as group:
                    self.assertEqual((group.line, group._nodes), (line, nodes))
        with self.assertRaises(Refusal):
            CoxeterGroup(diagram((1, 2, 3), (1, 2, 3), (2, 3, 5)))  # H 3
        with CoxeterGroup("A", 3) as group:
            self.assertEqual(CoxeterGroup(group), group)

    def test_elements(self):
        matrix = diagram((0, 1, 2), (0, 1, 3), (1, 2, 3), (0, 2, 3))
        parent = Parent(matrix)
        for kind in ("a 2", matrix, parent):
            with CoxeterGroup(kind) as group:
                self.assertEqual(group.text(Element(parent, [0, 1, 2])), "312")
                self.assertEqual(group.normal_form(Element(parent, (1, 0, 1))), (1, 3, 1))
                self.assertIn(Element(parent, [0]), group.kazhdan_lusztig_basis("31"))
        with CoxeterGroup(parent) as group:
            made = group.sage_element("313")
            self.assertEqual((made.parent(), made.word, group.sage()), (parent, [1, 0, 1], parent))
            self.assertEqual(group.normal_form(made), (1, 3, 1))
        with CoxeterGroup("A", 3) as group, self.assertRaises(ValueError):
            group.length(Element(parent, [1]))


if __name__ == "__main__":
    unittest.main()
