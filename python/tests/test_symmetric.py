"""Each method in the symmetric groups, compared with permutations."""
import itertools
import random
import unittest

import reference
from coxeter_shell import CoxeterGroup, Polynomial

# Of pairs of elements of larger groups so many are tried.
SAMPLE = 400


class Reference(unittest.TestCase):
    """The permutations against what checks/definitions.py makes of their products alone."""

    def test_permutations(self):
        for n in (1, 2, 3, 4):
            real = reference.group(n)
            for x, i in real.number.items():
                self.assertEqual(real.part.length[i], reference.length(x))
                self.assertEqual(real.part.inverse[i], real.number[reference.inverse(x)])
                self.assertEqual(tuple(real.part.lefts[i]), reference.left_descents(x))
                self.assertEqual(tuple(real.part.rights[i]), reference.right_descents(x))
                self.assertEqual(real.part.below[i], [real.number[y] for y in real if reference.below(y, x)])

    def test_matrices(self):
        """A n by its reflection representation is the same."""
        for n in (1, 2, 3):
            real = reference.group(n).part
            found = reference.definitions.finite_group(n, reference.definitions.labels_of("A", n))
            self.assertEqual((found.words, found.left, found.right), (real.words, real.left, real.right))
            self.assertEqual((found.r_polynomials, found.edges), (real.r_polynomials, real.edges))
            self.assertEqual(*(list(map(part.row, range(part.size))) for part in (found, real)))
            words = [word + word[::-1] + word[:2] for word in found.words]
            normal = map(found.group.normal_form, words)
            self.assertEqual([found.words.index(it) for it in normal], list(map(found.element, words)))


class Symmetric(unittest.TestCase):
    def setUp(self):
        random.seed(20)

    def groups(self, most):
        """The groups A 1 to A `most`, each with its reference."""
        for n in range(1, most + 1):
            with self.subTest(n=n), CoxeterGroup("A", n) as group:
                yield group, reference.group(n)

    def pairs(self, real):
        """Pairs of permutations: all, or some where there are many."""
        listed = list(itertools.product(real, repeat=2))
        return listed if len(listed) < 1000 else random.sample(listed, SAMPLE)

    def test_elements(self):
        for group, real in self.groups(4):
            for w, word in real.words.items():
                self.assertEqual(group.normal_form(word), word)
                self.assertEqual(group.length(word), reference.length(w))
                self.assertEqual(group.inverse(word), real.words[reference.inverse(w)])
                self.assertEqual(group.left_descents(word), reference.left_descents(w))
                self.assertEqual(group.right_descents(word), reference.right_descents(w))
                self.assertEqual(group.descents(word), (reference.left_descents(w), reference.right_descents(w)))

    def test_words_that_are_not_reduced(self):
        for group, real in self.groups(5):
            for _ in range(100):
                word = random.choices(range(1, real.n + 1), k=random.randrange(40))
                self.assertEqual(group.normal_form(word), real.words[real.element(word)])

    def test_order(self):
        for group, real in self.groups(4):
            for x, w in self.pairs(real):
                self.assertEqual(group.bruhat_le(real.words[x], real.words[w]), reference.below(x, w))

    def test_intervals(self):
        for group, real in self.groups(4):
            for y, w in self.pairs(real)[:SAMPLE]:
                interval = [word for x, word in real.words.items() if reference.below(y, x) and reference.below(x, w)]
                self.assertEqual(group.bruhat_interval(real.words[y], real.words[w]), interval)
                self.assertEqual(list(group.iter_bruhat_interval(real.words[y], real.words[w])), interval)

    def test_below_an_element(self):
        for group, real in self.groups(4):
            for w, word in real.words.items():
                interval = [it for x, it in real.words.items() if reference.below(x, w)]
                self.assertEqual(group.coatoms(word), [it for it in interval if len(it) == len(word) - 1])
                betti = tuple(sum(len(it) == k for it in interval) for k in range(len(word) + 1))
                self.assertEqual(group.betti_numbers(word), betti)
                self.assertEqual(group.poincare_polynomial(word), list(betti))

    def test_hasse_diagram(self):
        for group, real in self.groups(3):
            for y, w in self.pairs(real):
                interval = [x for x in real if reference.below(y, x) and reference.below(x, w)]
                covers = {}
                for x in interval:
                    below = [z for z in interval if reference.below(z, x) and reference.length(z) == reference.length(x) - 1]
                    covers[real.words[x]] = [real.words[z] for z in below]
                self.assertEqual(group.hasse_diagram(real.words[y], real.words[w]), covers)

    def test_polynomials(self):
        for group, real in self.groups(4):
            for x, w in self.pairs(real):
                words = real.words[x], real.words[w]
                self.assertEqual(group.r_polynomial(*words), reference.r_polynomial(x, w))
                self.assertEqual(group.kazhdan_lusztig_polynomial(*words), reference.polynomial(x, w))
                self.assertEqual(group.inverse_kazhdan_lusztig_polynomial(*words), reference.inverse_polynomial(x, w))
                self.assertEqual(group.mu_coefficient(*words), reference.mu(x, w))

    def test_basis(self):
        for group, real in self.groups(4):
            for w in random.sample(list(real), min(24, len(list(real)))):
                word = real.words[w]
                row = {it: reference.polynomial(x, w) for x, it in real.words.items() if reference.below(x, w)}
                basis = group.kazhdan_lusztig_basis(word)
                self.assertEqual(list(basis.items()), list(row.items()))
                self.assertEqual(list(group.iter_kazhdan_lusztig_basis(word)), list(row.items()))
                left, right = set(reference.left_descents(w)), set(reference.right_descents(w))
                extremal = {}
                for it, p in row.items():
                    x = real.element(it)
                    if left <= set(reference.left_descents(x)) and right <= set(reference.right_descents(x)):
                        extremal[it] = p
                self.assertEqual(list(group.extremal_pairs(word).items()), list(extremal.items()))
                self.assertEqual(list(group.iter_extremal_pairs(word)), list(extremal.items()))
                self.assertEqual(group.intersection_betti_numbers(word), reference.intersection_betti(w))

    def test_W_graphs(self):
        for group, real in self.groups(3):
            for side, descents in (("left", reference.left_descents), ("right", reference.right_descents)):
                graph = group.W_graph(side)
                self.assertEqual((graph.side, len(graph)), (side, len(list(real))))
                self.assertEqual(list(graph), list(real.words.values()))
                seen = []
                for x, word in real.words.items():
                    edges = {real.words[y]: value for y, value in real.edges(x).items()}
                    self.assertEqual(graph[word], (word, descents(x), edges))
                    seen += [(word, it, value) for it, value in edges.items() if (len(it), it) > (len(word), word)]
                self.assertEqual(list(graph.edges()), seen)
                self.assertEqual(list(group.iter_W_graph(side)), list(graph.vertices.values()))

    def test_cells_by_their_definition(self):
        for group, real in self.groups(3):
            left, right = reference.left_descents, reference.right_descents
            self.assertEqual(group.left_cells(), real.cells_by_graph(left))
            self.assertEqual(group.right_cells(), real.cells_by_graph(right))
            self.assertEqual(group.two_sided_cells(), real.cells_by_graph(left, right))

    def test_cells_by_tableaux(self):
        for group, real in self.groups(5):
            left = real.cells_of(lambda w: reference.tableaux(w)[1])
            right = real.cells_of(lambda w: reference.tableaux(w)[0])
            both = real.cells_of(lambda w: tuple(map(len, reference.tableaux(w)[0])))
            self.assertEqual((group.left_cells(), list(group.iter_left_cells())), (left, left))
            self.assertEqual((group.right_cells(), list(group.iter_right_cells())), (right, right))
            self.assertEqual((group.two_sided_cells(), list(group.iter_two_sided_cells())), (both, both))

    def test_work(self):
        for group, real in self.groups(3):
            state, entries, degree, total = 7, 0, 0, 0
            for _ in range(20):
                word = []
                for _ in range(12):
                    state = (75 * state + 74) % 65537
                    word.append(1 + state % real.n)
                row = [reference.polynomial(x, real.element(word)) for x in real if reference.below(x, real.element(word))]
                entries += len(row)
                degree = max(degree, *(len(p) - 1 for p in row))
                total += sum(map(sum, row))
            self.assertEqual(group.work(7, 20), (20, entries, degree, total))
            self.assertEqual(group.work(7, 20).degree, degree)

    def test_types_of_answers(self):
        with CoxeterGroup("A", 3) as group:
            self.assertIs(group.bruhat_le("1", "12"), True)
            self.assertIsInstance(group.kazhdan_lusztig_polynomial("2", "2132"), Polynomial)
            self.assertEqual(str(group.kazhdan_lusztig_polynomial("2", "2132")), "1+q")
            for answer in (group.normal_form("2132"), group.left_descents("2132"), group.betti_numbers("2132")):
                self.assertIs(type(answer), tuple)
                self.assertEqual({type(it) for it in answer}, {int})


if __name__ == "__main__":
    unittest.main()
