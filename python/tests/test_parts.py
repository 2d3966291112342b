"""Parts of W-graphs and their cells, compared with definitions, whole W-graphs, and what Lusztig found in infinite groups."""
import itertools
import random
import unittest

import reference
from coxeter_shell import CoxeterGroup

definitions = reference.definitions

SIDES = {"left": ("left",), "right": ("right",), "two-sided": ("left", "right")}


def strong_components(elements, steps):
    """The classes of elements that chains of steps lead to and fro between, in the order of their first elements."""
    reached = {}
    for x in elements:
        seen, todo = {x}, [x]
        while todo:
            new = {y for y in steps[todo.pop()] if y not in seen}
            seen |= new
            todo += new
        reached[x] = seen
    cells = [[y for y in elements if y in reached[x] and x in reached[y]] for x in elements]
    return [cell for x, cell in zip(elements, cells) if cell[0] == x]


class Defined:
    """The elements below a word by checks/definitions.py, in a group that may be infinite."""

    def __init__(self, matrix, word):
        size = range(len(matrix))
        labels = [0 if matrix[s][t] == float("inf") else matrix[s][t] for s, t in itertools.combinations(size, 2)]
        group = definitions.Matrices(len(matrix), labels)
        self.part = definitions.Part(group, group.levels(among=group.below(word)))
        self.words = self.part.words

    def descents(self, side):
        """The descents of each element. Some products are not below the word, and are longer or shorter by their matrices."""
        group, found = self.part.group, []
        for word in self.words:
            moved = ((s, group.normal_form((s, *word) if side == "left" else (*word, s))) for s in group.letters)
            found.append(tuple(s for s, other in moved if len(other) < len(word)))
        return found

    def edges(self, x):
        return {self.words[y]: value for y, value in self.part.edges[x].items()}

    def cells(self, side):
        descents = [self.descents(it) for it in SIDES[side]]
        steps = {}
        for x, word in enumerate(self.words):
            near = self.part.edges[x]
            steps[word] = [self.words[y] for y in near if any(set(of[x]) - set(of[y]) for of in descents)]
        return strong_components(self.words, steps)


class Intervals(unittest.TestCase):
    def test_by_the_definition(self):
        """In finite and infinite groups, of elements whose W-graphs have edges of lengths 1 and 3."""
        tried = 0
        for kind, word in (("A 4", "1234321"), ("B 3", "21323"), ("a 2", "12312"), ("c 2", "313213"), ("matrix 3 0 3 4", "123123"), ("a 1", "12121"), ("A 2", "")):
            with CoxeterGroup(kind) as group:
                defined = Defined(group.coxeter_matrix(), tuple(map(int, word)))
                for side in ("left", "right"):
                    graph = group.W_graph_below(word, side)
                    self.assertEqual((graph.side, list(graph)), (side, defined.words))
                    for x, (element, descents) in enumerate(zip(defined.words, defined.descents(side))):
                        self.assertEqual(graph[element], (element, descents, defined.edges(x)))
                        tried += sum(abs(len(y) - len(element)) > 1 for y in defined.edges(x))
                for side in SIDES:
                    self.assertEqual(group.cells_below(word, side), defined.cells(side))
        self.assertGreater(tried, 4)

    def test_of_whole_groups(self):
        """Below the longest element are all: the W-graph and the cells are those that the program gives, with proof."""
        for kind in ("A 3", "B 3", "G 2"):
            with CoxeterGroup(kind) as group:
                longest = group.long_element()
                for side in ("left", "right"):
                    self.assertEqual(group.W_graph_below(longest, side), group.W_graph(side))
                found = [group.cells_below(longest, side) for side in SIDES]
                self.assertEqual(found, [group.left_cells(), group.right_cells(), group.two_sided_cells()])

    def test_part_of_the_whole(self):
        """The same as the part of the whole W-graph; and each cell lies in one of the group."""
        random.seed(4)
        with CoxeterGroup("A", 4) as group:
            graph, whole = group.W_graph("right"), {x: k for k, cell in enumerate(group.right_cells()) for x in cell}
            for w in random.sample(list(group.elements()), 12):
                below = group.bruhat_interval("e", w)
                self.assertEqual(group.W_graph_below(w, side="right"), graph.part(below))
                cells = group.cells_below(w, "right")
                self.assertEqual(sorted(x for cell in cells for x in cell), sorted(below))
                self.assertTrue(all(len({whole[x] for x in cell}) == 1 for cell in cells))

    def test_values_other_than_one(self):
        """The first of symmetric groups are in S 10; in hyperbolic groups there are some below short elements. Each is asked for by itself."""
        for kind, word, wanted in (("matrix 3 0 0 0", "123132321", {1, 2, 3, 4}), ("matrix 3 3 0 4", "232313121", {1, 2})):
            with CoxeterGroup(kind) as group:
                graph = group.W_graph_below(word)
                self.assertEqual({value for _, _, value in graph.edges()}, wanted)
                below = list(graph)
                pairs = [(x, y) for x in below for y in below if len(x) < len(y)]
                asked = group.jobs([[f"mu {group.text(x)} {group.text(y)}" for x, y in pairs]])[0]
                self.assertEqual([graph[x].edges.get(y, 0) for x, y in pairs], [int(it) for [it] in asked])

    def test_elements_with_one_reduced_word(self):
        """Lusztig 1983: they are a two-sided cell but for the identity, and those that end with the same letter are a left cell. With each of
        them all its ends are below it, so they are one piece below any element."""
        for kind, word in (("a 2", "123123121"), ("a 3", "1234123"), ("E 8", "87654231435"), ("E 7", "12345671")):
            with CoxeterGroup(kind) as group:
                cells = group.cells_below(word)
                single = {x for cell in cells for x in cell if x and len(group.reduced_words(x)) == 1}
                for s in range(1, group.rank + 1):
                    wanted = sorted((x for x in single if x[-1] == s), key=lambda x: (len(x), x))
                    self.assertTrue(wanted in cells or not wanted, (kind, s, wanted))
                right = group.cells_below(word, "right")
                for s in range(1, group.rank + 1):
                    wanted = sorted((x for x in single if x[0] == s), key=lambda x: (len(x), x))
                    self.assertTrue(wanted in right or not wanted, (kind, s, wanted))

    def test_arguments(self):
        with CoxeterGroup("A", 2) as group:
            for call in (group.W_graph_below, group.cells_below):
                for side in ("both", "", None):
                    with self.assertRaises(ValueError):
                        call("12", side)
            with self.assertRaises(ValueError):
                group.W_graph_below("12", "two-sided")
            self.assertEqual(group.W_graph_below([2, 1, 1, 1]), group.W_graph_below("21"))
            self.assertEqual(group.cells_below("e"), [[()]])
            self.assertIn("<svg", group.W_graph_below("12")._repr_svg_())


class Cosets(unittest.TestCase):
    def test_part_of_the_whole(self):
        """The same as the part of the W-graph of the group, with proof, for cosets of all kinds."""
        for kind in ("A 3", "B 3", "D 4"):
            with CoxeterGroup(kind) as group:
                graphs = {side: group.W_graph(side) for side in ("left", "right")}
                words = list(group.elements())
                random.seed(kind)
                for letters in itertools.chain.from_iterable(itertools.combinations(range(1, group.rank + 1), k) for k in (0, 1, 2, 3)):
                    w = random.choice(words)
                    part = group.bruhat_interval("e", group._longest_of(set(letters)))
                    for side, graph in graphs.items():
                        coset = {group.product(x, w) if side == "left" else group.product(w, x) for x in part}
                        found = group.W_graph_of_coset(w, letters, side)
                        self.assertEqual(found, graph.part(coset))
                        cells = group.cells_of_coset(w, letters, side)
                        steps = {x: [] for x in found}
                        for x, y, _ in found.steps():
                            steps[x].append(y)
                        self.assertEqual(cells, strong_components(list(found), steps))

    def test_in_large_groups(self):
        """With the descents among the letters it is the W-graph of the subgroup, in whatever group: here of D 4 in E 8 and in affine E 6."""
        for kind, word in (("E 8", "87654231435426543178"), ("e 6", "7243154234567")):
            with CoxeterGroup(kind) as group, CoxeterGroup("D", 4) as part:
                letters = {2: 1, 4: 2, 3: 3, 5: 4}
                shortest = group.parabolic_decomposition(word, letters, "right")[1]
                found, wanted = group.W_graph_of_coset(word, letters), part.W_graph()
                moved = dict(zip(found, (group.product(x, group.inverse(shortest)) for x in found)))
                names = {x: part.normal_form([letters[s] for s in moved[x]]) for x in found}
                self.assertEqual(set(names.values()), set(wanted))
                for x in found:
                    self.assertEqual(len(x), len(moved[x]) + len(shortest))
                    descents = tuple(sorted(letters[s] for s in found[x].descents if s in letters))
                    edges = {names[y]: value for y, value in found[x].edges.items()}
                    self.assertEqual((descents, edges), (wanted[names[x]].descents, wanted[names[x]].edges))

    def test_arguments(self):
        with CoxeterGroup("a", 2) as group:
            self.assertEqual(len(group.W_graph_of_coset("123", "12")), 6)
            for call in (group.W_graph_of_coset, group.cells_of_coset):
                for letters, side in (([1, 2, 3], "left"), ([4], "left"), ([1], "two-sided"), ([1], None)):
                    with self.assertRaises(ValueError):
                        call("123", letters, side)


if __name__ == "__main__":
    unittest.main()
