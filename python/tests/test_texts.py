"""Polynomials, texts for GAP and Sage, and reading what the program writes."""
import itertools
import math
import pickle
import unittest
from fractions import Fraction

from coxeter_shell import CoxeterGroup, Polynomial, gap
from coxeter_shell.texts import Spelling, numbers, truth, whole_number

WRITTEN = [
    ([], "0"),
    ([1], "1"),
    ([-1], "-1"),
    ([0, 1], "q"),
    ([0, -1], "-q"),
    ([1, 2, 1], "1+2q+q^2"),
    ([-1, 1], "-1+q"),
    ([0, 0, 0, -2], "-2q^3"),
    ([12, 0, -13, 0, 0, 0, 0, 0, 0, 0, 1], "12-13q^2+q^10"),
    ([10**30, -(10**30)], f"{10**30}-{10**30}q"),
]


class Polynomials(unittest.TestCase):
    def test_texts(self):
        for coefficients, text in WRITTEN:
            self.assertEqual((str(Polynomial(coefficients)), repr(Polynomial(coefficients))), (text, text))
            self.assertEqual(Polynomial.read(text), coefficients)

    def test_equality(self):
        for coefficients, _ in WRITTEN:
            p = Polynomial(coefficients)
            self.assertTrue(p == coefficients and p == tuple(coefficients) and coefficients == p and p == Polynomial(p))
            self.assertEqual(hash(p), hash(Polynomial(list(p))))
            if len(coefficients) > 1:
                self.assertEqual(hash(p), hash(tuple(coefficients)))
            self.assertFalse(p == [*coefficients, 5] or p == "q" or p is None or p != coefficients)
        self.assertEqual(Polynomial([1, 2, 0, 0]), [1, 2])
        self.assertEqual(len({Polynomial([1]), Polynomial([1, 0]), Polynomial([2])}), 2)

    def test_equal_to_numbers(self):
        for constant in (0, 1, -7, 10**30):
            p = Polynomial([constant])
            for number in (constant, Fraction(constant), float(constant)):
                self.assertEqual(p == number, constant == number)
                self.assertEqual(number == p, constant == number)
            self.assertTrue(p != constant + 1 and hash(p) == hash(constant))
            self.assertEqual({p: 3}[constant], 3)
        self.assertTrue(Polynomial([0, 1]) != 0 and Polynomial([0, 1]) != 1 and Polynomial() == 0)
        self.assertEqual((bool(Polynomial()), bool(Polynomial([0, 1]))), (False, True))

    def test_arithmetic(self):
        """Values at many points decide what a polynomial is."""
        polynomials = [Polynomial(coefficients) for coefficients, _ in WRITTEN]
        points = range(-7, 8)
        for p, r in itertools.product(polynomials, repeat=2):
            for q in points:
                self.assertEqual(((p + r)(q), (p - r)(q), (p * r)(q)), (p(q) + r(q), p(q) - r(q), p(q) * r(q)))
        for p in polynomials:
            for number in (0, 1, -3, 10**20):
                for q in points:
                    self.assertEqual(((p + number)(q), (number + p)(q)), (p(q) + number,) * 2)
                    self.assertEqual(((p - number)(q), (number - p)(q)), (p(q) - number, number - p(q)))
                    self.assertEqual(((p * number)(q), (number * p)(q)), (p(q) * number,) * 2)
            for exponent in range(6):
                self.assertEqual([(p**exponent)(q) for q in points], [p(q) ** exponent for q in points])
            self.assertEqual((-p + p, +p, sum([p, p])), (0, p, 2 * p))
            self.assertEqual(p(Polynomial([0, 1])), p)
        self.assertEqual((Polynomial([1, 1]) ** 200).coefficient(100), math.comb(200, 100))
        for wrong in (lambda p: p + "q", lambda p: p * 1.5, lambda p: p - Fraction(1, 2), lambda p: p + [1], lambda p: [1] - p):
            with self.assertRaises(TypeError):
                wrong(Polynomial([1, 1]))
        with self.assertRaises(ValueError):
            Polynomial([1, 1]) ** -1

    def test_coefficients(self):
        p = Polynomial([0, 0, 3, -1])
        self.assertEqual([p.coefficient(it) for it in (-1, 0, 2, 3, 4)], [0, 0, 3, -1, 0])
        self.assertEqual((p[2], p[9], p.valuation(), Polynomial().valuation()), (3, 0, 2, math.inf))
        with self.assertRaises(IndexError):
            p[-1]
        with self.assertRaises(TypeError):
            p.coefficient(0.5)

    def test_other_texts(self):
        p = Polynomial([1, -1, 0, 2])
        self.assertEqual((p._latex_(), p._repr_latex_()), ("1-q+2q^{3}", "$1-q+2q^{3}$"))
        self.assertEqual((f"{p:>9}", f"{p}", f"{p:<9}|"), (" 1-q+2q^3", "1-q+2q^3", "1-q+2q^3 |"))
        self.assertEqual(Polynomial([0] * 12 + [1])._latex_(), "q^{12}")

    def test_values(self):
        p = Polynomial([1, -2, 3])
        self.assertEqual((p(0), p(1), p(-2), p(Fraction(1, 3))), (1, 2, 17, Fraction(2, 3)))
        self.assertEqual((Polynomial()(7), Polynomial([5])(7)), (0, 5))

    def test_the_tuple(self):
        p = Polynomial(it for it in (1, 0, 3))
        self.assertEqual((p.coefficients, p.degree(), p[2], list(p)), ((1, 0, 3), 2, 3, [1, 0, 3]))
        self.assertEqual(Polynomial().degree(), -1)
        with self.assertRaises(AttributeError):
            p.coefficients = (1,)
        with self.assertRaises(TypeError):
            Polynomial([1.5])
        self.assertEqual(pickle.loads(pickle.dumps(p)), p)


class Texts(unittest.TestCase):
    def test_gap(self):
        for value, text in [
            (7, "7"),
            (-7, "-7"),
            (True, "true"),
            (False, "false"),
            ((), "[ ]"),
            ((2, 1, 3), "[ 2, 1, 3 ]"),
            ([[(1,), ()], []], "[ [ [ 1 ], [ ] ], [ ] ]"),
            (Polynomial([1, 2]), "[ 1, 2 ]"),
            (Polynomial(), "[ ]"),
            ({(2,): Polynomial([1, 1])}, "[ [ [ 2 ], [ 1, 1 ] ] ]"),
            ("A 3", '"A 3"'),
            ('a"b\\c', '"a\\"b\\\\c"'),
            ("\n\x7f", '"\\012\\177"'),
            ({(3,), (1, 2), (2,)}, "[ [ 1, 2 ], [ 2 ], [ 3 ] ]"),
        ]:
            self.assertEqual(gap(value), text)
        with CoxeterGroup("A", 1) as group:
            self.assertEqual(gap(group.W_graph()), "[ [ [ ], [ 1 ], 1 ] ]")
            self.assertEqual(gap(group.hasse_diagram("e", "1")), "[ [ [ ], [ ] ], [ [ 1 ], [ [ ] ] ] ]")
            for wrong in (None, 1.5, group, iter([1]), [object()], {1: b"1"}):
                with self.assertRaises(TypeError):
                    gap(wrong)

    def test_reading(self):
        three, sixteen = Spelling(3), Spelling(16)
        self.assertEqual((three.element("e"), three.element("2132"), three.letter_set("-")), ((), (2, 1, 3, 2), ()))
        self.assertEqual((sixteen.element("16.1.10"), sixteen.element("12")), ((16, 1, 10), (12,)))
        self.assertEqual(sixteen.letter_set("9.10"), (9, 10))
        self.assertEqual((numbers("1 3 12"), whole_number("-3"), truth("false")), ((1, 3, 12), -3, False))
        for spelling, texts in [
            (three, ["", "4", "0", "1.2", "12 ", "ee", "e1", "-", "１"]),
            (sixteen, ["", ".", "1.", ".1", "1..2", "01", "17", "0", "1.e", "1 2", "-"]),
        ]:
            for text in texts:
                with self.assertRaises(ValueError):
                    spelling.element(text)
        for text in ("", "11", "21", "e", "4"):
            with self.assertRaises(ValueError):
                three.letter_set(text)


if __name__ == "__main__":
    unittest.main()
