"""Names that Sage has, products in the basis C', modules as matrices, and how long tables are written."""
import copy
import functools
import itertools
import math
import operator
import pickle
import unittest
import unittest.mock

import reference
from coxeter_shell import Cells, CoxeterGroup, InV, Laurent, Polynomial


def zero_hecke(n, words):
    """The Demazure product of words on S n+1: a letter swaps two neighbours where they rise."""
    values = list(range(n + 1))
    for s in itertools.chain.from_iterable(words):
        if values[s - 1] < values[s]:
            values[s - 1], values[s] = values[s], values[s - 1]
    return tuple(values)


class Names(unittest.TestCase):
    def test_on_permutations(self):
        real = reference.group(3)
        words = list(real.words.values())
        with CoxeterGroup("A", 3) as group:
            self.assertEqual((len(group.reflections()), group.w0), (6, group.long_element()))
            sets = {side: {w: set(group.inversions(w, side)) for w in words} for side in ("right", "left")}
            for w in words:
                for side in ("right", "left"):
                    pairs = [(w, t) if side == "right" else (t, w) for t in group.reflections()]
                    products = zip(group.reflections(), group._products(pairs))
                    shorter = {t for t, x in products if len(x) < len(w)}
                    self.assertEqual((sets[side][w], len(shorter)), (shorter, len(w)))
                    found = group.weak_upper_covers(w, side) + group.weak_lower_covers(w, side)
                    both = [(w, (s,)) if side == "right" else ((s,), w) for s in (1, 2, 3)]
                    self.assertEqual(sorted(found), sorted(group.product(*it) for it in both))
                    self.assertEqual({len(x) - len(w) for x in group.weak_upper_covers(w, side)}, {1} if w != group.w0 else set())
            # In the right weak order x is below y where the left inversions of x are some of those of y (Björner and Brenti, section 3.1).
            for x, y in itertools.product(words[::3], words):
                self.assertEqual(group.weak_le(x, y), sets["left"][x] <= sets["left"][y])
                self.assertEqual(group.weak_le(x, y, side="left"), sets["right"][x] <= sets["right"][y])
                self.assertEqual(zero_hecke(3, [group.demazure_product(x, y)]), zero_hecke(3, [x, y]))
            for w, letters in itertools.product(words, ([], [1], [1, 3], [1, 2, 3])):
                for side, u, v in (("left", 0, 1), ("right", 1, 0)):
                    pair = group.parabolic_decomposition(w, letters, side)
                    self.assertEqual((group.product(*pair), len(pair[0]) + len(pair[1])), (w, len(w)))
                    self.assertLessEqual(set(pair[v]), set(letters))
                    descents = group.right_descents(pair[u]) if side == "left" else group.left_descents(pair[u])
                    self.assertTrue(set(letters).isdisjoint(descents))
            for call in (group.inversions, group.weak_upper_covers, group.weak_lower_covers):
                with self.assertRaises(ValueError):
                    call("1", "both")

    def test_degrees(self):
        for kind in ("A5", "B4", "C3", "D4", "D6", "E6", "E7", "E8", "F4", "G2", "A2xB3"):
            group = CoxeterGroup(kind)
            degrees = group.degrees()
            self.assertEqual((math.prod(degrees), len(degrees)), (group.cardinality(), group.rank))
        for call in (CoxeterGroup("a2").degrees, CoxeterGroup("a2").reflections):
            with self.assertRaises(ValueError):
                call()
        self.assertEqual(CoxeterGroup("A2xB2").cartan_type(), None)
        self.assertEqual((CoxeterGroup("f4").cartan_type(), len(CoxeterGroup("B3").gens())), (("F", 4, 1), 3))


class Products(unittest.TestCase):
    def test_by_the_basis_of_words(self):
        """C'(x) C'(y) is the sum of the h(x, y, z) C'(z), in the basis T, where T(s) T(w) is known."""
        for kind in (("A", 2), ("B", 2), ("A", 3)):
            with CoxeterGroup(*kind) as group:
                words = list(group.elements())
                product = {(s, w): group.normal_form((s, *w)) for s in range(1, group.rank + 1) for w in words}

                def basis(w, group=group):
                    found = {}
                    for z, p in group.kazhdan_lusztig_basis(w).items():
                        found[z] = Laurent({2 * e - len(w): c for e, c in enumerate(p)})
                    return found

                def times(x, terms, product=product):
                    for s in reversed(x):
                        made = {}
                        for w, c in terms.items():
                            up = product[s, w]
                            made[up] = made.get(up, 0) + (c if len(up) > len(w) else c * Laurent({2: 1}))
                            if len(up) < len(w):
                                made[w] = made.get(w, 0) + c * Laurent({2: 1, 0: -1})
                        terms = made
                    return terms

                def added(total, terms, factor):
                    for w, c in terms.items():
                        total[w] = total.get(w, 0) + c * factor
                    return total

                bases = {w: basis(w) for w in words}
                for x, y in itertools.product(words[:: 1 if len(words) < 10 else 5], words[:: 1 if len(words) < 10 else 3]):
                    left = {}
                    for z, c in bases[x].items():
                        added(left, times(z, bases[y]), c)
                    right = {}
                    for z, h in group.c_prime_product(x, y).items():
                        added(right, bases[z], h)
                        self.assertEqual(h, Laurent({-e: c for e, c in h.coefficients.items()}))
                        self.assertTrue(all(c > 0 for c in h.coefficients.values()))
                    self.assertEqual({w: c for w, c in left.items() if c}, {w: c for w, c in right.items() if c})

    def test_laurent(self):
        p = Laurent({1: 2, -3: -1, 0: 0})
        self.assertEqual((repr(p), repr(-p), repr(Laurent()), repr(p - p), bool(p - p)), ("-v^-3+2v", "v^-3-2v", "0", "0", False))
        self.assertEqual((p + 1 - 1, 2 * p, 1 - p, p * 0), (p, p + p, -p + 1, 0))
        self.assertEqual(hash(Laurent({0: 3})), hash(3))
        self.assertEqual((repr(p(1)), repr(p(2)), p(0.5)), ("1", "Fraction(31, 8)", -7.0))
        for call in (lambda: p + "1", lambda: p * 1.5, lambda: Laurent({0.5: 1}), lambda: setattr(p, "coefficients", {}), lambda: p < 0.5):
            with self.assertRaises((TypeError, AttributeError)):
                call()
        for change in (lambda: p.update({1: 5}), lambda: p.pop(1), p.clear, p.popitem, lambda: p.setdefault(9, 1), lambda: operator.setitem(p, 1, 5)):
            with self.assertRaises(AttributeError):
                change()
        self.assertRaises(AttributeError, operator.delitem, p, 1)
        self.assertRaises(AttributeError, operator.ior, p, {1: 5})
        self.assertEqual((p.coefficients, p[1], p[7], pickle.loads(pickle.dumps(p)), copy.copy(p)), ({-3: -1, 1: 2}, 2, 0, p, p))
        self.assertTrue(p != 1 and not p != Laurent({1: 2, -3: -1}) and Laurent({0: 3}) == 3)

    def test_powers(self):
        p = Laurent({1: 2, -3: -1})
        for exponent in range(5):
            self.assertEqual(p**exponent, functools.reduce(operator.mul, [p] * exponent, Laurent({0: 1})))
        for v in (Laurent({1: 1}), Laurent({-2: -1})):
            self.assertEqual((v**-3 * v**3, v**0), (1, 1))
        for wrong in (p, Laurent(), Laurent({1: 2})):
            with self.assertRaises(ValueError):
                wrong**-1
        self.assertRaises(TypeError, lambda: p**0.5)

    def test_order(self):
        """It is the order of the values at large arguments, and one with all numbers and sums."""
        some = [(), (0, 1), (1, 1), (3,), (-1, 0, 1), (2, -7), (0, 0, -1), (-4,), (1, 0, 1)]
        for kind in (Polynomial, lambda it: Laurent({e - 1: c for e, c in enumerate(it)})):
            made = [*map(kind, some), 2, -9]
            values = {id(it): it if isinstance(it, int) else it(1000) for it in made}
            for shift in range(5):
                listed = sorted(made[shift:] + made[:shift])
                self.assertEqual([values[id(it)] for it in listed], sorted(values.values()))
            for p, q in itertools.product(made, repeat=2):
                a, b = values[id(p)], values[id(q)]
                self.assertEqual((p < q, p <= q, p > q, p >= q), (a < b, a <= b, a > b, a >= b))
        for wrong in ("1", 0.5, InV([0, 1]), Laurent({1: 1})):
            with self.assertRaises(TypeError):
                sorted([Polynomial([0, 1]), wrong])


class Modules(unittest.TestCase):
    def test_relations(self):
        """The matrices obey the quadratic and the braid relations, and a product has those of its reduced words."""
        for kind in (("A", 3), ("B", 3), ("G", 2)):
            with CoxeterGroup(*kind) as group:
                matrix = group.coxeter_matrix()
                for cell in group.left_cells()[1:4]:
                    module = group.cell_module(cell[0])
                    size = range(len(module))
                    for s in range(1, group.rank + 1):
                        one, two = module.act([s]), module.act([s, s])
                        self.assertEqual(one, module.matrix(s))
                        for i, j in itertools.product(size, size):
                            self.assertEqual(two[i][j], (InV([0, 0, 1]) - 1) * one[i][j] + InV([0, 0, 1]) * (i == j))
                        for t in range(1, s):
                            word = [s, t] * 6
                            m = matrix[s - 1][t - 1]
                            self.assertEqual(module.act(word[:m]), module.act(word[1 : m + 1]))
                    self.assertEqual(module.character("e"), len(module))
                    w = group.long_element()
                    self.assertEqual({repr(module.act(it)) for it in group.reduced_words(w)[:5]}, {repr(module.act(w))})
                    # At v = 1 it is a character: equal on a generator and its conjugate.
                    self.assertEqual(module.character([1])(1), module.character([2, 1, 2])(1))
                    for wrong in ("9", [0], "1x"):
                        with self.assertRaises(ValueError):
                            module.act(wrong)


class Written(unittest.TestCase):
    def test_long_tables(self):
        """What a notebook's last line would store is short, and tables of few rows are written out."""
        with CoxeterGroup("A", 5) as group:
            table = group.kazhdan_lusztig_table(["12", "121"])
            self.assertEqual(repr(table), repr({w: dict(row) for w, row in table.items()}))
            whole = group.kazhdan_lusztig_table(group.elements(5))
            for made in (whole, group.kazhdan_lusztig_basis(group.w0), group.left_cells(), group.W_graph().vertices):
                self.assertLess(len(repr(made)), 200)
                self.assertIn('CoxeterGroup("A", 5)', repr(made))
            self.assertIn("with 720 elements", repr(group.left_cells()))
            for made, plain in ((group.left_cells(), list), (whole, dict), (group.kazhdan_lusztig_basis("12"), dict), (Cells(group), list)):
                printer = unittest.mock.Mock()
                made._repr_pretty_(printer, False)
                if len(made) > 40:
                    printer.text.assert_called_once_with(repr(made))
                else:
                    printer.pretty.assert_called_once_with(plain(made))
                    self.assertIs(type(printer.pretty.call_args[0][0]), plain)

    def test_tikz(self):
        with CoxeterGroup("B", 2) as group:
            for graph in (group.hasse_diagram("e", "1212"), group.W_graph(), group.cell_order()):
                text = graph.tikz()
                self.assertEqual(text.count(r"\draw"), len(list(graph.edges())))
                self.assertEqual(text.count(r"\node"), len(graph))
                self.assertEqual(text.count("{"), text.count("}"))


if __name__ == "__main__":
    unittest.main()
