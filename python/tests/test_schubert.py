"""Schubert varieties and parabolic polynomials, compared with patterns, tangent spaces and definitions."""
import itertools
import random
import unittest
from collections import Counter

import reference
from coxeter_shell import CoxeterGroup

Q, MINUS = (0, 1), (-1,)


def maximal(elements):
    """The maximal ones of some permutations in Bruhat order."""
    return [x for x in elements if not any(x != y and reference.below(x, y) for y in elements)]


class Smoothness(unittest.TestCase):
    def test_by_patterns(self):
        """Lakshmibai and Sandhya: of S 2, S 3, .. so many varieties are smooth, and these are those without two patterns."""
        for n, count in ((1, 2), (2, 6), (3, 22), (4, 88), (5, 366)):
            with CoxeterGroup("A", n) as group:
                found = {word: group.is_rationally_smooth(word) for word in reference.group(n).words.values()}
            self.assertEqual(sum(found.values()), count)
            self.assertEqual(found, {word: reference.is_smooth(w) for w, word in reference.group(n).words.items()})

    def test_by_betti_numbers(self):
        """Carrell and Peterson: a variety is rationally smooth where its Betti numbers are a palindrome. The counts are those of Richmond
        and Slofstra."""
        for kind, count in (("B 2", 8), ("B 3", 34), ("D 4", 108), ("G 2", 12)):
            with CoxeterGroup(kind) as group:
                elements = list(group.elements())
                smooth = [w for w in elements if group.is_rationally_smooth(w)]
                palindromes = [w for w in elements if group.betti_numbers(w) == group.betti_numbers(w)[::-1]]
            self.assertEqual((len(smooth), smooth), (count, palindromes))

    def test_words_of_any_form(self):
        with CoxeterGroup("A", 3) as group:
            self.assertIs(group.is_rationally_smooth("2312"), False)
            self.assertIs(group.is_rationally_smooth([2, 3, 2, 2]), True)
            self.assertEqual(group.schubert("2312"), group.schubert([2, 1, 3, 2]))

    def test_laces(self):
        laced = [kind for kind in ("A 3", "B 3", "D 5", "E 6", "F 4", "G 2", "a 1", "a 2", "A 1") if CoxeterGroup(kind).is_simply_laced()]
        self.assertEqual(laced, ["A 3", "D 5", "E 6", "a 2", "A 1"])


class Singularities(unittest.TestCase):
    def test_locus_by_tangent_spaces(self):
        for n in (2, 3, 4):
            real = reference.group(n)
            with CoxeterGroup("A", n) as group:
                for w, word in real.words.items():
                    singular = [x for x in real if reference.below(x, w) and not reference.is_smooth_at(w, x)]
                    self.assertEqual(group.singular_locus(word), [real.words[x] for x in maximal(singular)])

    def test_locus_of_several_lengths(self):
        """In S 6 there are w whose singular locus has components of two dimensions."""
        real = reference.group(5)
        with CoxeterGroup("A", 5) as group:
            for word in ("12432154", "124354"):
                w = real.element(map(int, word))
                singular = [x for x in real if reference.below(x, w) and not reference.is_smooth_at(w, x)]
                self.assertEqual(group.singular_locus(word), [real.words[x] for x in maximal(singular)])
            self.assertEqual(len(set(map(len, group.singular_locus("12432154")))), 2)

    def test_locus_by_edges(self):
        """Carrell and Peterson: that of w is rationally smooth at x where for x <= y <= w there are l(w) reflections t with yt <= w."""
        with CoxeterGroup("B", 3) as group:
            reflections = sorted({group.product(w, [s], group.inverse(w)) for w in group.elements() for s in (1, 2, 3)})
            self.assertEqual(len(reflections), 9)
            turned = {(y, t): group.product(y, t) for y in group.elements() for t in reflections}
            below = {y: group.bruhat_interval("e", y) for y in group.elements()}
            for w, interval in below.items():
                members = set(interval)
                wide = {y for y in interval if sum(turned[y, t] in members for t in reflections) != len(w)}
                rough = {x for y in wide for x in below[y]}
                locus = [x for x in interval if x in rough and not any(x != y and x in below[y] for y in rough)]
                self.assertEqual(group.singular_locus(w), locus)

    def test_strata(self):
        """The maximal elements with the same polynomial, by the definition of the polynomials."""
        real = reference.group(3)
        with CoxeterGroup("A", 3) as group:
            for w, word in real.words.items():
                classes = {}
                for x in real:
                    if reference.polynomial(x, w) not in ((), (1,)):
                        classes.setdefault(reference.polynomial(x, w), []).append(x)
                strata = {p: [real.words[x] for x in maximal(some)] for p, some in classes.items()}
                self.assertEqual({p.coefficients: some for p, some in group.singular_strata(word).items()}, strata)

    def test_strata_of_whole_rows(self):
        """In B 3 all x <= w are asked for, not the extremal ones alone. Some of these are below others with the same polynomial."""
        with CoxeterGroup("B", 3) as group:
            below = {y: set(group.bruhat_interval("e", y)) for y in group.elements()}
            for w in group.elements():
                classes = {}
                for x, p in group.iter_kazhdan_lusztig_basis(w):
                    classes.setdefault(p, []).append(x)
                strata = {p: [x for x in some if not any(x != y and x in below[y] for y in some)] for p, some in classes.items() if p != 1}
                self.assertEqual(group.singular_strata(w), strata)

    def test_strata_of_more_than_one_polynomial(self):
        """The same in S 5, of 52341 and others."""
        real = reference.group(4)
        with CoxeterGroup("A", 4) as group:
            for word in ("1234321", "2132432", "12132432", "1232143212"):
                row = group.kazhdan_lusztig_basis(word)
                strata = group.singular_strata(word)
                self.assertEqual(list(strata), sorted(set(row.values()) - {1}, key=lambda p: p.coefficients))
                for p, some in strata.items():
                    same = [real.element(x) for x, it in row.items() if it == p]
                    self.assertEqual(some, [real.words[x] for x in maximal(same)])
            self.assertEqual(len(group.singular_strata("1234321")), 2)

    def test_all_at_once(self):
        """Each field, by its definition. The permutations 3412 and 4231 have the singular varieties of S 4."""
        real = reference.group(3)
        with CoxeterGroup("A", 3) as group:
            for w, word in real.words.items():
                X = group.schubert(word)
                below = [x for x in real if reference.below(x, w)]
                betti = Counter(map(reference.length, below))
                self.assertEqual((X.element, X.dimension, X.size), (word, reference.length(w), len(below)))
                self.assertEqual((X.left_descents, X.right_descents), (reference.left_descents(w), reference.right_descents(w)))
                self.assertEqual(X.coatoms, [real.words[x] for x in below if reference.length(x) == reference.length(w) - 1])
                self.assertEqual(X.betti_numbers, tuple(betti[k] for k in range(len(word) + 1)))
                self.assertEqual(X.intersection_betti_numbers, reference.intersection_betti(w))
                self.assertEqual(X.is_rationally_smooth, reference.is_smooth(w))
                self.assertEqual((X.singular_locus, X.singular_strata), (group.singular_locus(word), group.singular_strata(word)))
                self.assertEqual(X.extremal_pairs, group.extremal_pairs(word))
            singular = [X for X in map(group.schubert, real.words.values()) if X.singular_locus]
            self.assertEqual([(group.to_permutation(X.element), X.singular_locus) for X in singular],
                             [((3, 4, 1, 2), [(2,)]), ((4, 2, 3, 1), [(1, 3)])])

    def test_in_an_infinite_group(self):
        with CoxeterGroup("matrix 2 0") as group:
            self.assertEqual((group.singular_locus("12121"), group.singular_strata("12121")), ([], {}))
            self.assertTrue(group.is_rationally_smooth("12121"))


class Parabolic(unittest.TestCase):
    def test_by_the_definition(self):
        for n in (1, 2, 3):
            real = reference.group(n)
            with CoxeterGroup("A", n) as group:
                for k in range(n + 1):
                    for letters in itertools.combinations(range(1, n + 1), k):
                        shortest = [w for w in real if reference.is_shortest(w, letters)]
                        for u, v in itertools.product(shortest, repeat=2):
                            for kind, name in ((Q, "q"), (MINUS, "-1")):
                                found = group.parabolic_kazhdan_lusztig_polynomial(real.words[u], real.words[v], letters, kind=name)
                                self.assertEqual(found, reference.parabolic_polynomial(u, v, letters, kind))

    def test_grassmannians(self):
        """Lascoux and Schutzenberger; Brenti 2002: for maximal letters those of the kind q are powers of q, or 0."""
        random.seed(8)
        with CoxeterGroup("A", 5) as group:
            for without in (2, 3):
                letters = [s for s in range(1, 6) if s != without]
                shortest = list(group.coset_representatives(letters))
                found = Counter()
                for u, v in random.sample(list(itertools.product(shortest, repeat=2)), 80):
                    p = group.parabolic_kazhdan_lusztig_polynomial(u, v, letters)
                    self.assertTrue(p == 0 or p == [0] * p.degree() + [1], p)
                    found[p] += 1
                self.assertGreater(len(found), 2)

    def test_letters_and_words(self):
        with CoxeterGroup("A", 3) as group:
            for letters in ([1, 3], (3, 1), "13", {1, 3}):
                self.assertEqual(group.parabolic_kazhdan_lusztig_polynomial("2", "2312", letters), [0, 1])
            self.assertEqual(group.parabolic_kazhdan_lusztig_polynomial("2", "2132", ()), [1, 1])
            self.assertEqual(group.parabolic_kazhdan_lusztig_polynomial("3", "2", [1]), 0)
            for u, v, letters, kind in [("1", "2", [1], "q"), ("2", "21", [1], "q"), ("2", "2", [4], "q"), ("2", "2", [1], "both")]:
                with self.assertRaises(ValueError):
                    group.parabolic_kazhdan_lusztig_polynomial(u, v, letters, kind=kind)

    def test_in_an_infinite_group(self):
        with CoxeterGroup("a", 2) as group:
            # W over its finite part: the alternating sum over six elements, each asked for by itself.
            part = [(), (1,), (2,), (1, 2), (2, 1), (1, 2, 1)]
            for v in itertools.islice(group.coset_representatives([1, 2]), 9):
                for u in itertools.islice(group.coset_representatives([1, 2]), 9):
                    total = sum((-1) ** len(z) * group.kazhdan_lusztig_polynomial(group.product(u, z), v) for z in part)
                    self.assertEqual(group.parabolic_kazhdan_lusztig_polynomial(u, v, [1, 2]), total)
            self.assertEqual(group.parabolic_kazhdan_lusztig_polynomial("e", "1", [2, 3]), 1)
        with CoxeterGroup("matrix 3 0 3 3") as group:
            # In the infinite dihedral part of the letters 1 and 2 all z with z <= v are taken: for v = 3 that is e alone.
            self.assertEqual(group.parabolic_kazhdan_lusztig_polynomial("e", "3", [1, 2]), 1)
            with self.assertRaises(ValueError):
                group.parabolic_kazhdan_lusztig_polynomial("e", "3", [1, 2], kind="-1")


if __name__ == "__main__":
    unittest.main()
