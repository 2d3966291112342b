"""What is made of several answers, compared with permutations, published numbers and definitions."""
import itertools
import math
import random
import unittest
from collections import Counter

import reference
from coxeter_shell import CoxeterGroup, Refusal, kinds

# The degrees of the finite irreducible groups (Humphreys, section 3.7).
DEGREES = {
    "E 6": (2, 5, 6, 8, 9, 12),
    "E 7": (2, 6, 8, 10, 12, 14, 18),
    "E 8": (2, 8, 12, 14, 18, 20, 24, 30),
    "F 4": (2, 6, 8, 12),
    "G 2": (2, 6),
}
DEGREES.update((f"A {n}", range(2, n + 2)) for n in range(1, 17))
DEGREES.update((f"B {n}", range(2, 2 * n + 1, 2)) for n in range(2, 17))
DEGREES.update((f"D {n}", [*range(2, 2 * n - 1, 2), n]) for n in range(4, 17))


def times(w, u):
    """The product of two signed permutations: first u, then w."""
    return tuple(w[abs(it) - 1] * (1 if it > 0 else -1) for it in u)


def positive_definite(matrix):
    """Whether the bilinear form of a Coxeter matrix is positive definite, by elimination."""
    size = len(matrix)
    form = [[-math.cos(math.pi / it) if it < math.inf else -1.0 for it in row] for row in matrix]
    for k in range(size):
        if form[k][k] < 1e-9:
            return False
        for i in range(k + 1, size):
            factor = form[i][k] / form[k][k]
            form[i] = [a - factor * b for a, b in zip(form[i], form[k])]
    return True


class Finite(unittest.TestCase):
    def test_orders_of_groups(self):
        for kind, degrees in DEGREES.items():
            group = CoxeterGroup(kind)
            self.assertEqual((group.cardinality(), group.is_finite()), (math.prod(degrees), True))
        for n in range(1, 16):
            group = CoxeterGroup("a", n)
            self.assertEqual((group.cardinality(), group.is_finite()), (math.inf, False))

    def test_finite_where_positive_definite(self):
        """Humphreys, section 6.4. All matrices of rank 3, and random ones of larger ranks, with many small labels."""
        matrices = []
        for a, b, c in itertools.product((2, 3, 4, 6, math.inf), repeat=3):
            matrices.append([[1, a, b], [a, 1, c], [b, c, 1]])
        random.seed(1)
        for _ in range(3000):
            size = random.randrange(2, 10)
            matrix = [[1] * size for _ in range(size)]
            for s in range(size):
                for t in range(s):
                    label = random.choices((2, 3, 4, 6), (6 * size, 12, 1, 0.3))[0]
                    matrix[s][t] = matrix[t][s] = label
            matrices.append(matrix)
        found = Counter()
        for matrix in matrices:
            finite = kinds.cardinality(matrix) < math.inf
            found[finite] += 1
            self.assertEqual(finite, positive_definite(matrix), matrix)
        self.assertGreater(min(found.values()), 300)

    def test_affine_groups(self):
        """Each affine diagram, and each without one of its nodes (Humphreys, section 2.5): so there is none between."""
        diagrams = [
            ("E 6", [(0, 1), (1, 2), (0, 3), (3, 4), (0, 5), (5, 6)], {}),
            ("E 7", [(0, 1), (0, 2), (2, 3), (3, 4), (0, 5), (5, 6), (6, 7)], {}),
            ("E 8", [(0, 1), (0, 2), (2, 3), (0, 4), (4, 5), (5, 6), (6, 7), (7, 8)], {}),
            ("D 4", [(0, 1), (0, 2), (0, 3), (0, 4)], {}),
            ("F 4", [(0, 1), (1, 2), (2, 3), (3, 4)], {(1, 2): 4}),
            ("G 2", [(0, 1), (1, 2)], {(0, 1): 6}),
        ]
        for n in range(3, 9):
            path = [(s, s + 1) for s in range(n - 1)]
            diagrams.append((f"C {n}", [*path, (n - 1, n)], {(0, 1): 4, (n - 1, n): 4}))
            diagrams.append((f"B {n}", [*path, (1, n)], {(n - 2, n - 1): 4}))
            if n > 4:
                diagrams.append((f"D {n}", [*path[:-1], (n - 3, n - 1), (1, n)], {}))
        for name, edges, labels in diagrams:
            size = max(max(edge) for edge in edges) + 1
            rows = [[1 if s == t else 2 for t in range(size)] for s in range(size)]
            for s, t in edges:
                rows[s][t] = rows[t][s] = labels.get((s, t), 3)
            with self.subTest(name):
                self.assertFalse(CoxeterGroup(rows).is_finite())
                for node in range(size):
                    others = [it for it in range(size) if it != node]
                    self.assertLess(kinds.cardinality(kinds.part(rows, others)), math.inf)

    def test_products_of_groups(self):
        # A 2 and B 3 and G 2, with nodes in disorder
        pairs = {(0, 4): 3, (1, 3): 3, (3, 6): 4, (2, 5): 6}
        nodes = range(7)
        rows = [[1 if s == t else pairs.get((min(s, t), max(s, t)), 2) for t in nodes] for s in nodes]
        with CoxeterGroup(rows) as group:
            self.assertEqual(group.cardinality(), 6 * 48 * 12)
            self.assertEqual(len(group.long_element()), 3 + 9 + 6)

    def test_longest_elements(self):
        """The length is the number of reflections, which is the sum of the degrees less one."""
        for kind in ("A 1", "A 5", "B 4", "D 5", "E 6", "E 7", "E 8", "F 4", "G 2", "A 12"):
            with CoxeterGroup(kind) as group:
                longest = group.long_element()
                self.assertEqual(len(longest), sum(it - 1 for it in DEGREES[kind]))
                self.assertEqual(group.right_descents(longest), tuple(range(1, group.rank + 1)))
                self.assertIs(group.long_element(), longest)
        with CoxeterGroup("a", 3) as group, self.assertRaises(ValueError):
            group.long_element()
        with CoxeterGroup("B", 16) as group, self.assertRaises(Refusal):
            group.long_element()  # 256 letters


class Elements(unittest.TestCase):
    def test_all_elements(self):
        for n in (1, 2, 3, 4):
            with CoxeterGroup("A", n) as group, CoxeterGroup("A", n, context=1) as other:
                expected = list(reference.group(n).words.values())
                self.assertEqual(list(group.elements()), expected)
                self.assertEqual(list(other.elements()), expected)
                for most in (0, 1, 3):
                    short = [it for it in expected if len(it) <= most]
                    self.assertEqual((list(group.elements(most)), list(other.elements(max_length=most))), (short, short))

    def test_elements_of_infinite_groups(self):
        """The growth series: 1 + 3q + 6q^2 + 9q^3 + .. for affine A 2, and words without xx for labels infinity."""
        with CoxeterGroup("a", 2) as group:
            counts = Counter(map(len, group.elements(6)))
            self.assertEqual(counts, {0: 1, 1: 3, 2: 6, 3: 9, 4: 12, 5: 15, 6: 18})
        with CoxeterGroup("matrix 3 0 0 0") as group:
            listed = list(itertools.islice(group.elements(), 1 + 3 + 6 + 12 + 24))
            words = [w for k in range(5) for w in itertools.product((1, 2, 3), repeat=k) if all(map(int.__ne__, w, w[1:]))]
            self.assertEqual(listed, words)

    def test_products_and_powers(self):
        random.seed(2)
        for n in (3, 5):
            real = reference.group(n)
            with CoxeterGroup("A", n) as group:
                for _ in range(200):
                    words = [random.choices(range(1, n + 1), k=random.randrange(9)) for _ in range(3)]
                    product = real.words[real.element(sum(words, []))]
                    self.assertEqual(group.product(*words), product)
                    exponent = random.randrange(-9, 10)
                    power = words[0] * exponent if exponent >= 0 else words[0][::-1] * -exponent
                    self.assertEqual(group.power(words[0], exponent), real.words[real.element(power)])
                self.assertEqual((group.product(), group.power("1", 0)), ((), ()))

    def test_long_products(self):
        """Words of more than 255 letters are multiplied piece by piece."""
        with CoxeterGroup("A", 16) as group:
            longest = group.long_element()
            self.assertEqual((len(longest), group.product(longest, longest)), (136, ()))
            self.assertEqual(group.power(longest, 3), longest)
        with CoxeterGroup("matrix 2 0") as group:
            self.assertEqual(group.product("12" * 100, "21" * 100), ())
            with self.assertRaises(Refusal):
                group.product("12" * 100, "12" * 100)

    def test_orders_of_permutations(self):
        for n in (3, 4):
            with CoxeterGroup("A", n) as group:
                for w, word in reference.group(n).words.items():
                    cycles, left = [], set(range(n + 1))
                    while left:
                        cycle, at = 0, min(left)
                        while at in left:
                            left.remove(at)
                            cycle, at = cycle + 1, w[at]
                        cycles.append(cycle)
                    order = next(k for k in itertools.count(1) if all(k % it == 0 for it in cycles))
                    self.assertEqual(group.order(word), order)
                    self.assertEqual(group.power(word, order), ())

    def test_orders_of_coxeter_elements(self):
        """The Coxeter number is the greatest degree; in infinite groups the order is infinite (Howlett)."""
        for kind, degrees in DEGREES.items():
            with CoxeterGroup(kind) as group:
                self.assertEqual(group.order(range(1, group.rank + 1)), max(degrees))
        for kind in ("a 1", "a 2", "a 7", "matrix 3 4 4 4", "matrix 3 0 0 0", "matrix 3 6 2 3", "matrix 3 2 4 4"):
            with CoxeterGroup(kind) as group:
                self.assertEqual(group.order(range(1, group.rank + 1)), math.inf)
                self.assertEqual([group.order(w) for w in ("e", "1", "121")], [1, 2, 2])
        with CoxeterGroup("matrix 4 3 4 6 0 2 3") as group:
            self.assertEqual([group.order(w) for w in ("12", "13", "14", "23", "24", "34")], [3, 4, 6, math.inf, 2, 3])
            self.assertEqual((group.order("321423"), group.order("132341")), (6, math.inf))

    def test_the_greatest_order(self):
        """Of integer matrices: the order k needs phi(p^a) rows for each p^a > 2 that divides it exactly."""

        def rows(k):
            """So many rows, or more than 16 if there is a prime above 17."""
            total, p = 0, 2
            while k > 1 and p <= 17:
                power = 1
                while k % p == 0:
                    k, power = k // p, power * p
                if power > 2:
                    total += power - power // p
                p += 1
            return total if k == 1 else 17

        self.assertEqual(max(k for k in range(1, 20000) if rows(k) <= 16), kinds.MOST_ORDER)

    def test_reduced_words(self):
        """Stanley: of the longest element of A n as many as standard tableaux of shape n, n-1, .., 1. Haiman: of that of B n
        as many as standard tableaux of a square."""
        for kind, count in [("A 1", 1), ("A 2", 2), ("A 3", 16), ("A 4", 768), ("B 2", 2), ("B 3", 42), ("G 2", 2)]:
            with CoxeterGroup(kind) as group:
                longest = group.long_element()
                words = group.reduced_words(longest)
                self.assertEqual((len(words), len(set(words)), words), (count, count, sorted(words)))
                self.assertEqual({group.normal_form(it) for it in words}, {longest})
        real = reference.group(3)
        with CoxeterGroup("A", 3) as group:
            for word in real.words.values():
                tried = itertools.product((1, 2, 3), repeat=len(word))
                expected = [it for it in tried if real.words[real.element(it)] == word]
                self.assertEqual(group.reduced_words(word), expected)
                self.assertEqual(next(group.iter_reduced_words(word)), word)

    def test_covers(self):
        for n in (2, 3, 4):
            real = reference.group(n)
            by_length = {}
            for x in real:
                by_length.setdefault(reference.length(x), []).append(x)
            with CoxeterGroup("A", n) as group:
                for w, word in real.words.items():
                    upper = [real.words[x] for x in by_length.get(len(word) + 1, ()) if reference.below(w, x)]
                    lower = [real.words[x] for x in by_length.get(len(word) - 1, ()) if reference.below(x, w)]
                    self.assertEqual((group.bruhat_upper_covers(word), group.bruhat_lower_covers(word)), (upper, lower))
                    if n < 4:
                        self.assertEqual(sorted(group._upper_covers(word, {})), upper)

    def test_covers_in_infinite_groups(self):
        """An element is covered by those of the next length that it is a coatom of: those with a subword of one letter less."""
        for kind, most in (("a 2", 5), ("matrix 3 4 4 4", 4), ("matrix 2 0", 6), ("matrix 3 0 3 2", 4)):
            with CoxeterGroup(kind) as group:
                elements = list(group.elements(most))
                for w in elements:
                    if len(w) < most:
                        above = [x for x in elements if len(x) == len(w) + 1]
                        expected = [x for x in above if any(group.normal_form(x[:k] + x[k + 1 :]) == w for k in range(len(x)))]
                        self.assertEqual(group.bruhat_upper_covers(w), expected)


class Cosets(unittest.TestCase):
    def test_representatives(self):
        """The shortest elements of the cosets of permutations."""
        for n, letters in ((3, (1, 3)), (3, ()), (3, (1, 2, 3)), (4, (2, 3)), (4, (1, 2, 4))):
            real = reference.group(n)
            subgroup = {real.element(it) for k in range(7) for it in itertools.product(letters, repeat=k)}
            left, right = {}, {}
            for w, word in real.words.items():
                left.setdefault(frozenset(tuple(w[it] for it in u) for u in subgroup), word)
                right.setdefault(frozenset(tuple(u[it] for it in w) for u in subgroup), word)
            with CoxeterGroup("A", n) as group:
                self.assertEqual(list(group.coset_representatives(letters)), list(left.values()))
                self.assertEqual(list(group.coset_representatives(letters, side="right")), list(right.values()))
                text = "".join(map(str, letters)) or "e"
                self.assertEqual(list(group.coset_representatives(text)), list(left.values()))

    def test_numbers_of_cosets(self):
        """E 7 has this index in E 8, and so on, by the orders of the groups."""
        numbers = [("E 8", range(1, 8), 240), ("E 7", range(1, 7), 56), ("E 6", range(1, 6), 27), ("F 4", "123", 24)]
        for kind, letters, count in numbers:
            with CoxeterGroup(kind) as group:
                for side in ("left", "right"):
                    self.assertEqual(len(list(group.coset_representatives(letters, side))), count)

    def test_in_an_infinite_group(self):
        """Of W over its finite part in affine A 2: Bott's formula, the product of 1 / (1 - q^e) over the exponents 1 and 2."""
        with CoxeterGroup("a", 2) as group:
            lengths = Counter(map(len, itertools.islice(group.coset_representatives([1, 2]), 20)))
        self.assertEqual([lengths[k] for k in range(8)], [1, 1, 2, 2, 3, 3, 4, 4])

    def test_wrong_letters(self):
        with CoxeterGroup("A", 3) as group:
            for letters in ([4], "14", [0]):
                with self.assertRaises(ValueError):
                    group.coset_representatives(letters)
            with self.assertRaises(TypeError):
                group.coset_representatives([1.5])
            with self.assertRaises(ValueError):
                group.coset_representatives([1], side="both")


class Random(unittest.TestCase):
    def test_each_element_once(self):
        for kind in ("A 3", "B 3", "G 2", "D 4", "matrix 3 2 3 4"):
            with CoxeterGroup(kind) as group:
                products = [group.product(*it) for it in itertools.product(*group._chain())]
                self.assertEqual(sorted(products), sorted(group.elements()))

    def test_of_a_length(self):
        rng = random.Random(4)
        with CoxeterGroup("a", 2) as group:
            for length in (0, 1, 5, 20):
                self.assertEqual(group.length(group.random_element(length, rng)), length)
            with self.assertRaises(ValueError):
                group.random_element()
        with CoxeterGroup("A", 2) as group:
            self.assertEqual(group.random_element(3), (1, 2, 1))
            with self.assertRaises(ValueError):
                group.random_element(4)

    def test_as_it_is_seeded(self):
        with CoxeterGroup("E", 8) as group:
            some = [group.random_element(random=random.Random(seed)) for seed in (1, 1, 2)]
            self.assertEqual(some[0], some[1])
            self.assertNotEqual(some[0], some[2])
            lengths = [len(group.random_element(random=random.Random(seed))) for seed in range(60)]
            # The mean is 60, and the deviation of the mean of 60 is less than 2.
            self.assertLess(abs(sum(lengths) / 60 - 60), 8)


class Permutations(unittest.TestCase):
    def test_symmetric_groups(self):
        for n in (1, 2, 3, 4):
            with CoxeterGroup("A", n) as group:
                for w, word in reference.group(n).words.items():
                    values = tuple(it + 1 for it in w)
                    self.assertEqual((group.to_permutation(word), group.from_permutation(values)), (values, word))

    def test_signed_permutations(self):
        """They multiply as maps, and lengths are by the formula of Björner and Brenti, section 8.1, whose places and values
        are numbered the other way round."""
        random.seed(6)
        for n in (2, 3):
            with CoxeterGroup("B", n) as group:
                signs = list(itertools.product((1, -1), repeat=n))
                plain = itertools.permutations(range(1, n + 1))
                listed = [tuple(map(int.__mul__, values, sign)) for values in plain for sign in signs]
                for values in listed:
                    w = group.from_permutation(values)
                    self.assertEqual(group.to_permutation(w), values)
                    other = [(n + 1 - abs(it)) * (1 if it > 0 else -1) for it in reversed(values)]
                    inversions = sum(a > b for a, b in itertools.combinations(other, 2))
                    self.assertEqual(len(w), inversions - sum(it for it in other if it < 0))
                    u = random.choice(listed)
                    self.assertEqual(group.product(w, group.from_permutation(u)), group.from_permutation(times(values, u)))

    def test_even_signed_permutations(self):
        """Of D n: all of D 4 with their products, and some of D 6; lengths are by the formula of section 8.2."""
        random.seed(7)
        for n, count in ((4, None), (6, 150)):
            with CoxeterGroup("D", n) as group:
                signs = [it for it in itertools.product((1, -1), repeat=n) if it.count(-1) % 2 == 0]
                plain = itertools.permutations(range(1, n + 1))
                listed = [tuple(map(int.__mul__, values, sign)) for values in plain for sign in signs]
                self.assertEqual(len(listed), group.cardinality())
                found = set()
                for values in random.sample(listed, count or len(listed)):
                    w = group.from_permutation(values)
                    found.add(w)
                    self.assertEqual(group.to_permutation(w), values)
                    other = [(n + 1 - abs(it)) * (1 if it > 0 else -1) for it in reversed(values)]
                    inversions = sum(a > b for a, b in itertools.combinations(other, 2))
                    self.assertEqual(len(w), inversions - sum(it + 1 for it in other if it < 0))
                    u = random.choice(listed)
                    self.assertEqual(group.product(w, group.from_permutation(u)), group.from_permutation(times(values, u)))
                self.assertEqual(len(found), count or len(listed))

    def test_words_of_any_form(self):
        with CoxeterGroup("A", 3) as group:
            self.assertEqual(group.to_permutation("2312"), group.to_permutation([2, 1, 3, 2]))
            self.assertEqual(group.from_permutation([4, 3, 2, 1]), group.long_element())

    def test_what_is_none(self):
        with CoxeterGroup("A", 3) as group:
            for values in ([1, 2, 3], [1, 2, 3, 3], [0, 1, 2, 3], [1, 2, 3, -4], []):
                with self.assertRaises(ValueError):
                    group.from_permutation(values)
        with CoxeterGroup("B", 3) as group:
            for values in ([1, 2], [1, 2, -2], [1, 2, 4]):
                with self.assertRaises(ValueError):
                    group.from_permutation(values)
        with CoxeterGroup("D", 4) as group:
            for values in ([1, 2, 3, -4], [-1, -2, -3, 4], [1, 2, 3], [1, 2, 3, 4, 5], [1, 2, 2, 3]):
                with self.assertRaises(ValueError):
                    group.from_permutation(values)
        for kind in ("E 6", "G 2", "a 3"):
            with CoxeterGroup(kind) as group, self.assertRaises(ValueError):
                group.to_permutation("1")


class AnyWord(unittest.TestCase):
    """Any word of an element is a key of the dictionaries that are answered."""

    def test_keys(self):
        with CoxeterGroup("A", 3) as group:
            basis = group.kazhdan_lusztig_basis("12321")
            for word in ((1, 3), "13", "31", [3, 1], "1131", (3, 1)):
                self.assertEqual((basis[word], basis.get(word)), ([1, 1], [1, 1]))
                self.assertIn(word, basis)
            self.assertEqual((basis["e"], basis[""], basis[[]]), ([1, 1],) * 3)
            for word in ("2132", "121321", "213213"):
                self.assertNotIn(word, basis)
                self.assertEqual((basis.get(word), basis.get(word, 5)), (None, 5))
                with self.assertRaises(KeyError):
                    basis[word]
            with self.assertRaises(Refusal):
                basis["4"]
            self.assertEqual(basis, dict(basis))
            self.assertEqual(group.extremal_pairs("2132")["2"], [1, 1])
            self.assertEqual(group.hasse_diagram("e", "31")["31"], [(1,), (3,)])
            graph = group.W_graph()
            self.assertEqual((graph["31"].descents, graph[[3, 1]].edges["3"], "31" in graph), ((1, 3), 1, True))

    def test_copies(self):
        import copy
        import pickle

        with CoxeterGroup("A", 2) as group:
            for table in (group.kazhdan_lusztig_basis("12"), group.hasse_diagram("e", "12"), group.left_cells()):
                for other in (pickle.loads(pickle.dumps(table)), copy.copy(table)):
                    self.assertEqual((other, type(other), other.columns), (table, type(table), table.columns))
                    other.group.close()


if __name__ == "__main__":
    unittest.main()
