"""Conjugacy classes, and characters of cells, compared with permutations, published numbers and rules for characters."""
import itertools
import math
import pickle
import unittest
from collections import Counter
from fractions import Fraction

import reference
from coxeter_shell import Cells, ConjugacyClasses, CoxeterGroup, characters

# How many classes there are (Carter 1972, "Conjugacy classes in the Weyl group"; of B n as many as pairs of partitions).
COUNTS = {
    **{f"A {n}": count for n, count in enumerate((2, 3, 5, 7, 11, 15), 1)},
    **{f"B {n}": count for n, count in enumerate((5, 10, 20, 36), 2)},
    **{"D 4": 13, "D 5": 18, "F 4": 25, "G 2": 6, "E 6": 25, "A2xB2": 15},
}


def cycles(w):
    """The lengths of the cycles of a permutation, and of the negative ones of a signed one, which fall."""
    found, seen = ([], []), set()
    for start in range(1, len(w) + 1):
        at, size, sign = start, 0, 1
        while at not in seen:
            seen.add(at)
            size, sign, at = size + 1, sign * (1 if w[at - 1] > 0 else -1), abs(w[at - 1])
        if size:
            found[sign < 0].append(size)
    return tuple(tuple(sorted(some, reverse=True)) for some in found)


class ConjugacyClassesOf(unittest.TestCase):
    def test_numbers(self):
        for kind, count in COUNTS.items():
            with self.subTest(kind), CoxeterGroup(kind) as group:
                classes = group.conjugacy_classes()
                self.assertEqual(len(classes), count)
                self.assertEqual(sum(map(len, classes)), group.cardinality())
                self.assertTrue(all(group.cardinality() % len(it) == 0 for it in classes))
                self.assertEqual(classes[0], [()])
                # In an irreducible group a Coxeter element commutes with its powers alone (Humphreys, section 3.20).
                reflections = [it for it in classes if it[0] in group.gens()]
                self.assertEqual(sorted(x for it in reflections for x in it), sorted(group.reflections()))
                coxeter = next(it for it in classes if group.normal_form(range(1, group.rank + 1)) in it)
                if "x" not in kind:
                    self.assertEqual(len(coxeter) * group.order(coxeter[0]), group.cardinality())

    def test_permutations(self):
        """Two permutations are conjugate where they have the same cycles, and signed ones where they have the same negative ones too."""
        for kind in ("A 1", "A 4", "B 2", "B 3", "B 4"):
            with CoxeterGroup(kind) as group:
                named = {}
                for w in group.elements():
                    named.setdefault(cycles(group.to_permutation(w)), []).append(w)
                self.assertEqual(group.conjugacy_classes(), list(named.values()))
                for some in named.values():
                    self.assertEqual(group.conjugacy_class(some[-1]), some)

    def test_by_the_definition(self):
        """All xwx^-1, in a group with a label 6 and in a product."""
        for kind in ("G 2", "A1xB2", "D 4"):
            with CoxeterGroup(kind) as group:
                elements = list(group.elements())
                inverses = {x: group.inverse(x) for x in elements}
                for some in group.conjugacy_classes()[:7]:
                    found = {group.product(x, some[0], inverses[x]) for x in elements}
                    self.assertEqual((set(some), some), (found, sorted(found, key=lambda x: (len(x), x))))

    def test_single_classes_of_large_groups(self):
        with CoxeterGroup("E", 7) as group:
            self.assertEqual(group.conjugacy_class("7"), group.reflections())
            self.assertEqual(len(group.conjugacy_class(group.long_element())), 1)
        with CoxeterGroup("A", 9) as group:
            self.assertEqual(len(group.conjugacy_class("13")), math.factorial(10) // (math.factorial(6) * 8))

    def test_as_a_container(self):
        with CoxeterGroup("A", 2) as group:
            classes = group.conjugacy_classes()
            self.assertIsInstance(classes, Cells)
            self.assertEqual(classes.to_csv(), "class,element\n1,e\n2,1\n2,2\n2,121\n3,12\n3,21\n")
            again = pickle.loads(pickle.dumps(classes))
            self.assertEqual((again, type(again), again.group), (classes, ConjugacyClasses, group))
        with CoxeterGroup("B", 5) as group:
            self.assertEqual(repr(group.conjugacy_classes()), '<36 conjugacy classes of CoxeterGroup("B", 5), with 3,840 elements>')

    def test_refused(self):
        with CoxeterGroup("a", 2) as group:
            for call in (group.conjugacy_classes, lambda: group.conjugacy_class("1"), lambda: group.cell_character("1")):
                with self.assertRaises(ValueError):
                    call()
        with CoxeterGroup("E", 7) as group, self.assertRaisesRegex(ValueError, "2,903,040 elements"):
            group.conjugacy_classes()
        with CoxeterGroup("A", 3, context=23) as group:
            with self.assertRaisesRegex(ValueError, "at most 23"):
                group.conjugacy_classes()
            self.assertEqual(len(group.conjugacy_class("1")), 6)


class Irreducible(unittest.TestCase):
    """The characters of A n and B n that cells are decomposed into."""

    def test_symmetric_groups(self):
        for n in range(1, 8):
            shapes = list(reference.partitions(n))
            self.assertEqual(list(characters.partitions(n)), shapes)
            for shape, some in itertools.product(shapes, repeat=2):
                self.assertEqual(characters.value_at((shape, ()), some, ()), reference.character(shape, some))

    def test_hyperoctahedral_groups(self):
        """They are orthonormal, of degrees n! f f' / (k! (n-k)!) by the degrees of the two shapes, and are those that are known by hand."""
        for n in (2, 3, 4, 5):
            pairs = list(characters.signed_classes(n))
            self.assertEqual(len(pairs), COUNTS[f"B {n}"])
            weights = [Fraction(1, characters.centralizer(*some, True)) for some in pairs]
            self.assertEqual(sum(weights), 1)
            values = {name: [characters.value_at(name, *some) for some in pairs] for name in pairs}
            for one, two in itertools.product(pairs, repeat=2):
                self.assertEqual(sum(w * a * b for w, a, b in zip(weights, values[one], values[two])), int(one == two))
            for first, second in pairs:
                degrees = [reference.character(shape, (1,) * sum(shape)) for shape in (first, second)]
                degree = math.comb(n, sum(first)) * math.prod(degrees)
                self.assertEqual(characters.value_at((first, second), (1,) * n, ()), degree)
            with CoxeterGroup("B", n) as group:
                for some in pairs:
                    word = characters.word_of_class(n, *some)
                    w = group.to_permutation(word)
                    self.assertEqual(cycles(w), some)
                    # The trivial one, the sign, that of the signs alone, and that of the reflection representation, whose trace it is.
                    self.assertEqual(characters.value_at(((n,), ()), *some), 1)
                    self.assertEqual(characters.value_at(((), (1,) * n), *some), (-1) ** len(word))
                    self.assertEqual(characters.value_at(((), (n,)), *some), math.prod(1 if it > 0 else -1 for it in w))
                    trace = sum((it > 0) - (it < 0) for place, it in enumerate(w, 1) if abs(it) == place)
                    self.assertEqual(characters.value_at(((n - 1,), (1,)), *some), trace)
                    size = sum(cycles(group.to_permutation(x)) == some for x in group.elements()) if n < 4 else None
                    self.assertIn(size, (None, 2**n * math.factorial(n) // characters.centralizer(*some, True)))


def symbol(pair):
    """Lusztig's symbol of a pair of partitions: two rows, the first of which has one number more."""
    rows = max(len(pair[0]), len(pair[1]) + 1)
    first, second = (sorted([*shape, *[0] * (size - len(shape))]) for shape, size in zip(pair, (rows, rows - 1)))
    return [it + k for k, it in enumerate(first)], [it + k for k, it in enumerate(second)]


def is_special(pair):
    first, second = symbol(pair)
    joined = [it for both in itertools.zip_longest(first, second) for it in both if it is not None]
    return joined == sorted(joined)


class CellCharacters(unittest.TestCase):
    def test_symmetric_groups(self):
        """Kazhdan and Lusztig 1979: each left cell has the irreducible character of its shape."""
        for n in (1, 2, 3, 4):
            real = reference.group(n)
            with CoxeterGroup("A", n) as group:
                for cell in group.left_cells():
                    self.assertEqual(group.cell_constituents(cell[-1]), {reference.shape(real.element(cell[0])): 1})

    def test_values(self):
        """By classes of cycles, on S 4; at the identity it is the size of the cell."""
        real = reference.group(3)
        with CoxeterGroup("A", 3) as group:
            for cell in group.left_cells():
                shape = reference.shape(real.element(cell[0]))
                found = group.cell_character(cell[0])
                wanted = [reference.character(shape, cycles(group.to_permutation(w))[0]) for w in found]
                self.assertEqual((list(found.values()), len(found), found["e"]), (wanted, 5, len(cell)))
                self.assertEqual(found.columns, ("element", "value"))

    def test_hyperoctahedral_groups(self):
        """Lusztig 1984, by symbols: the constituents of a left cell are of one family, each once, with its special one, and are 2^d where the
        symbols of the family have 2d + 1 numbers that stand once. All left cells together are the regular representation."""
        for kind, n in (("B", 2), ("B", 3), ("C", 3), ("B", 4)):
            with CoxeterGroup(kind, n) as group:
                total, sizes = Counter(), Counter()
                for cell in group.left_cells():
                    found = group.cell_constituents(cell[0])
                    total.update(found)
                    sizes[len(found)] += 1
                    families = {tuple(sorted(sum(symbol(pair), []))) for pair in found}
                    self.assertEqual((len(families), set(found.values()), sum(map(is_special, found))), (1, {1}, 1))
                    single = [it for it, times in Counter(next(iter(families))).items() if times == 1]
                    self.assertEqual(len(found), 2 ** (len(single) // 2))
                    degrees = [characters.value_at(pair, (1,) * n, ()) for pair in found]
                    self.assertEqual(sum(degrees), len(cell))
                degrees = {pair: characters.value_at(pair, (1,) * n, ()) for pair in characters.signed_classes(n)}
                self.assertEqual(total, degrees)
                self.assertGreater(len(sizes), 1)

    def test_of_B_2_by_hand(self):
        with CoxeterGroup("B", 2) as group:
            found = [group.cell_constituents(w) for w in ("e", "1", "2", "1212")]
        reflection = ((1,), (1,))
        self.assertEqual(found, [{((2,), ()): 1}, {reflection: 1, ((1, 1), ()): 1}, {reflection: 1, ((), (2,)): 1}, {((), (1, 1)): 1}])

    def test_refused(self):
        for kind in ("D 4", "G 2", "A2xB2"):
            with CoxeterGroup(kind) as group, self.assertRaises(ValueError):
                group.cell_constituents("1")


if __name__ == "__main__":
    unittest.main()
