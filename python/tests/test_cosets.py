"""Rows of parabolic polynomials, compared with the definition, alternating sums, and what is known of Grassmannians and their kin."""
import functools
import itertools
import random
import unittest

import reference
from coxeter_shell import CoxeterGroup

Q, MINUS = (0, 1), (-1,)


class Rows(unittest.TestCase):
    def test_by_the_definition(self):
        """Deodhar's, by R-polynomials, in all of S 2 to S 4 and for all letters; each row has all u <= v, and those alone."""
        for n in (1, 2, 3):
            real = reference.group(n)
            with CoxeterGroup("A", n) as group:
                for k in range(n + 1):
                    for letters in itertools.combinations(range(1, n + 1), k):
                        shortest = [w for w in real if reference.is_shortest(w, letters)]
                        for v, (kind, name) in itertools.product(shortest, ((Q, "q"), (MINUS, "-1"))):
                            wanted = {real.words[u]: reference.parabolic_polynomial(u, v, letters, kind) for u in shortest if reference.below(u, v)}
                            found = group.parabolic_kazhdan_lusztig_basis(real.words[v], letters, kind=name)
                            self.assertEqual({u: p.coefficients for u, p in found.items()}, wanted)
                            self.assertEqual(list(found), list(wanted))

    def test_by_alternating_sums(self):
        """Deodhar 1987: of the kind q they are alternating sums of the P(uz, v), and of the kind -1 the P of the longest elements; also in
        affine groups and others, where the polynomials themselves are proved."""
        random.seed(5)
        for kind, letters, most in (("B 3", "12", 9), ("B 3", "13", 9), ("D 4", "124", 9), ("a 2", "12", 7), ("c 2", "23", 7), ("matrix 3 4 4 4", "1", 7)):
            with CoxeterGroup(kind) as group:
                some = [v for v in itertools.takewhile(lambda v: len(v) <= most, group.coset_representatives(letters))]
                for v in random.sample(some, 4):
                    for name in ("q", "-1"):
                        row = group.parabolic_kazhdan_lusztig_basis(v, letters, kind=name)
                        self.assertEqual(list(row), [u for u in some if len(u) <= len(v) and group.bruhat_le(u, v)])
                        for u, p in row.items():
                            self.assertEqual(p, group.parabolic_kazhdan_lusztig_polynomial(u, v, letters, kind=name))

    def test_without_letters(self):
        """Both kinds are the Kazhdan-Lusztig polynomials then."""
        with CoxeterGroup("D", 4) as group:
            for word in ("1342134", "2", "e", "123124"):
                for kind in ("q", "-1"):
                    self.assertEqual(group.parabolic_kazhdan_lusztig_basis(word, [], kind=kind), group.kazhdan_lusztig_basis(word))

    def test_hermitian_symmetric_pairs(self):
        """Brenti 2009: there those of the kind q are powers of q, or 0; E 6 over D 5 has 27 cosets, and E 7 over E 6 has 56."""
        for kind, letters, count in (("E 6", "12345", 27), ("E 7", "123456", 56), ("A 5", "1245", 20), ("D 5", "2345", 10), ("D 5", "1234", 16)):
            with CoxeterGroup(kind) as group:
                *_, v = shortest = list(group.coset_representatives(letters))
                self.assertEqual(len(shortest), count)
                found = set()
                for v in [v, *shortest[count // 2 :: 3]]:
                    found.update(group.parabolic_kazhdan_lusztig_basis(v, letters).values())
                self.assertTrue(all(p == 0 or p == [0] * p.degree() + [1] for p in found))
                self.assertGreater(len(found), 1)

    def test_projective_spaces(self):
        """S n over S (n-1): all Schubert varieties are smooth, so those of the kind -1 are 1; and of the kind q all but that of the next are 0."""
        with CoxeterGroup("A", 6) as group:
            for v in group.coset_representatives("12345"):
                row = group.parabolic_kazhdan_lusztig_basis(v, "12345", kind="-1")
                self.assertEqual((len(row), set(row.values())), (len(v) + 1, {1}))

    def test_quadrics(self):
        """Over the parabolic subgroup of B n or D n whose cosets are the points of a quadric. The sum of q^l(u) P(u, v) is a palindrome, as the
        Poincare polynomial of intersection cohomology; in E 8 over E 7 too, where E 7 alone has 2,903,040 elements."""
        for kind, letters, count in (("B 5", "2345", 10), ("D 6", "23456", 12), ("E 8", "1234567", 240)):
            with CoxeterGroup(kind) as group:
                shortest = list(group.coset_representatives(letters))
                self.assertEqual(len(shortest), count)
                for v in (shortest[-1], shortest[count // 2], shortest[count // 3]):
                    row = group.parabolic_kazhdan_lusztig_basis(v, letters, kind="-1")
                    total = [0] * (len(v) + 1)
                    for u, p in row.items():
                        self.assertTrue(p.degree() * 2 < max(len(v) - len(u), 1))
                        for degree, c in enumerate(p):
                            total[len(u) + degree] += c
                    self.assertEqual(total, total[::-1])
                self.assertEqual(set(group.parabolic_kazhdan_lusztig_basis(shortest[-1], letters, kind="-1").values()), {1})

    def test_infinite_subgroups(self):
        """Where W_J is infinite there are cosets, but no longest elements in them. Those of the kind q are alternating sums over what is below."""
        with CoxeterGroup("matrix 3 0 3 3") as group:
            for v in ("3", "13", "213", "3213", "12313"):
                if set(group.right_descents(v)) <= {3}:
                    row = group.parabolic_kazhdan_lusztig_basis(v, "12")
                    for u, p in row.items():
                        self.assertEqual(p, group.parabolic_kazhdan_lusztig_polynomial(u, v, "12"))
                    self.assertEqual(group.parabolic_kazhdan_lusztig_basis(v, "12", kind="-1")[v], 1)

    def test_arguments(self):
        with CoxeterGroup("A", 3) as group:
            for letters in ([1, 3], (3, 1), "13", {1, 3}):
                row = group.parabolic_kazhdan_lusztig_basis("2312", letters)
                self.assertEqual((row["2"], row["132"], row.get("12321")), ([0, 1], 1, None))
            self.assertEqual(group.parabolic_kazhdan_lusztig_basis("2", "13").columns, ("element", "polynomial"))
            for v, letters, kind in (("1", [1], "q"), ("2", [4], "q"), ("2", [1], "both"), ("2", [1], -1)):
                with self.assertRaises(ValueError):
                    group.parabolic_kazhdan_lusztig_basis(v, letters, kind=kind)


def moved(graph, group, longest):
    """The vertices of a graph, each times an element on the right: the descents and edges by them."""
    names = {x: group.product(x, longest) for x in graph}
    return {names[x]: (graph[x].descents, {names[y]: value for y, value in graph[x].edges.items()}) for x in graph}


def hecke_matrix(graph, s):
    """How T_s acts on the module of a W-graph at q = 4, as v C'(s) - 1 with v = 2."""
    places = {x: at for at, x in enumerate(graph)}
    matrix = [[0] * len(graph) for _ in graph]
    for x, at in places.items():
        if s in graph[x].descents:
            matrix[at][at] = 4
        else:
            matrix[at][at] = -1
            for y, value in graph[x].edges.items():
                if s in graph[y].descents:
                    matrix[places[y]][at] = 2 * value
    return matrix


def product(one, two):
    columns = list(zip(*two))
    return [[sum(a * b for a, b in zip(row, column) if a and b) for column in columns] for row in one]


class WGraphs(unittest.TestCase):
    def test_part_of_the_whole(self):
        """Of the kind q it is that of the shortest elements in the W-graph of the group, which is proved; and of the kind -1 that of the longest
        ones. Those cells are left cells; which they are depends on the right descents of their elements."""
        for kind in ("A 3", "B 3", "G 2", "A1xA2"):
            with CoxeterGroup(kind) as group:
                whole, left = group.W_graph(), group.left_cells()
                for k in range(group.rank + 1):
                    for letters in itertools.combinations(range(1, group.rank + 1), k):
                        shortest = list(group.coset_representatives(letters))
                        self.assertEqual(group.parabolic_W_graph(letters), whole.part(shortest))
                        longest = group._longest_of(set(letters))
                        graph = group.parabolic_W_graph(letters, kind="-1")
                        part = whole.part([group.product(x, longest) for x in shortest])
                        self.assertEqual(moved(graph, group, longest), moved(part, group, ()))
                        self.assertEqual(group.parabolic_cells(letters), [it for it in left if it[0] in shortest])
                        of_longest = [set(it) for it in left if set(letters) <= set(group.right_descents(it[0]))]
                        cells = group.parabolic_cells(letters, kind="-1")
                        self.assertCountEqual([{group.product(x, longest) for x in it} for it in cells], of_longest)

    def test_modules(self):
        """The matrices of a W-graph satisfy the relations of the Hecke algebra."""
        for kind, letters in (("B 4", "234"), ("D 4", "13"), ("E 6", "12345"), ("A 4", "24")):
            with CoxeterGroup(kind) as group:
                for name in ("q", "-1"):
                    graph = group.parabolic_W_graph(letters, name)
                    acts = {s: hecke_matrix(graph, s) for s in range(1, group.rank + 1)}
                    for s, t in itertools.combinations(acts, 2):
                        one, two = [acts[s], acts[t]], [acts[t], acts[s]]
                        for k in range(2, group.coxeter_matrix()[s - 1][t - 1]):
                            one, two = [*one, (one[0], two[0])[k % 2]], [*two, (two[0], one[0])[k % 2]]
                        self.assertEqual(functools.reduce(product, one), functools.reduce(product, two))

    def test_known_cells(self):
        """E 6 over D 5 and E 7 over E 6 are sums of different special characters, each in a family of its own: so these are the cells."""
        for kind, letters, sizes in (("E 6", "12345", [1, 6, 20]), ("E 7", "123456", [1, 7, 21, 27]), ("A 6", "12345", [1, 6])):
            with CoxeterGroup(kind) as group:
                for name in ("q", "-1"):
                    self.assertEqual(sorted(map(len, group.parabolic_cells(letters, name))), sizes)

    def test_projective_spaces(self):
        """S n over S (n-1): a path, whose vertex of length k has the descent k from the last letter on."""
        with CoxeterGroup("A", 5) as group:
            graph = group.parabolic_W_graph("1234")
            self.assertEqual([graph[x].descents for x in graph], [(), (5,), (4,), (3,), (2,), (1,)])
            self.assertEqual([(len(x), len(y), value) for x, y, value in graph.edges()], [(k, k + 1, 1) for k in range(5)])

    def test_below(self):
        """The part of the whole; and in an infinite group that of the shortest elements below, whose W-graph is made of rows in another way."""
        with CoxeterGroup("D", 4) as group:
            for name in ("q", "-1"):
                whole = group.parabolic_W_graph("124", name)
                for v in list(whole)[3::9]:
                    graph = group.parabolic_W_graph("124", name, below=v)
                    self.assertEqual(list(graph), [x for x in whole if group.bruhat_le(x, v)])
                    self.assertEqual(graph, whole.part(graph))
        for kind, letters, v in (("a 2", "12", "123123"), ("c 2", "23", "12321321"), ("matrix 3 0 3 3", "12", "123213")):
            with CoxeterGroup(kind) as group:
                v = group.parabolic_decomposition(v, letters)[0]
                graph = group.parabolic_W_graph(letters, below=v)
                self.assertEqual(graph, group.W_graph_below(v).part(graph))
                self.assertGreater(len(graph), 3)
                self.assertEqual(sorted(sum(group.parabolic_cells(letters, below=v), []), key=lambda x: (len(x), x)), list(graph))

    def test_arguments(self):
        with CoxeterGroup("a", 2) as group:
            for letters, more in (("12", {}), ("12", {"below": "1"}), ("12", {"below": "3", "kind": "both"}), ("4", {"below": "3"})):
                for call in (group.parabolic_W_graph, group.parabolic_cells):
                    with self.assertRaises(ValueError):
                        call(letters, **more)


if __name__ == "__main__":
    unittest.main()
