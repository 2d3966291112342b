"""The drop-in for Sage's interface to Coxeter 3, compared with what Sage works out by itself. It is skipped where there is no Sage.

`checks/sage` runs it, and Sage's own examples of the interface too.
"""
import gc
import itertools
import pickle
import random
import unittest
import weakref

import reference
from coxeter_shell import CoxeterGroup, Refusal
from test_optional import has

if has("sage"):
    # Sage has to be complete before its parts.
    from sage.all import CartanType, WeylGroup

    from coxeter_shell import sage as ours
    from coxeter_shell import sage_words as words

TYPES = [["A", 1], ["A", 3], ["B", 3], ["C", 3], ["D", 4], ["E", 6], ["F", 4], ["G", 2]]
TYPES += [["A", 1, 1], ["A", 3, 1], ["B", 3, 1], ["C", 2, 1], ["D", 4, 1], ["E", 6, 1]]


def first_word(element, nodes):
    """The first reduced word of an element of Sage, where the nodes come in this order: always by the first left descent there is."""
    word = []
    while True:
        descent = next((node for node in nodes if element.has_left_descent(node)), None)
        if descent is None:
            return word
        word.append(descent)
        element = element.apply_simple_reflection_left(descent)


@unittest.skipUnless(has("sage"), "Sage is not installed")
class Elements(unittest.TestCase):
    def words(self, cartan_type, count=30):
        random.seed(12)
        nodes = CartanType(cartan_type).index_set()
        return [random.choices(nodes, k=random.randrange(12)) for _ in range(count)]

    def test_normal_forms(self):
        """Coxeter 3 numbers the nodes of B, C, D and F the other way round, and of affine E the node 0 as the last one. It takes the first
        word by its numbers."""
        for cartan_type in TYPES:
            group, theirs = ours.CoxeterGroup(cartan_type), WeylGroup(cartan_type)
            nodes = list(theirs.index_set())
            nodes = nodes[::-1] if cartan_type[0] in "BCDF" else nodes
            nodes = nodes[1:] + [0] if cartan_type == ["E", 6, 1] else nodes
            for word in self.words(cartan_type):
                w, u = group(word), theirs.from_reduced_word(word)
                first = first_word(u, nodes)
                self.assertEqual((w.reduced_word(), list(w), repr(w), len(w)), (first, first, str(first), u.length()))
                self.assertEqual((group.from_reduced_word(word), group(w), group.length(word), w.length()), (w, w, u.length(), u.length()))
                self.assertEqual([w[k] for k in range(len(w))], list(w))
                self.assertEqual((w[1:], w[-1:]), (list(w)[1:], list(w)[-1:]))

    def test_products(self):
        for cartan_type in TYPES:
            group, theirs = ours.CoxeterGroup(cartan_type), WeylGroup(cartan_type)
            for one, other in zip(self.words(cartan_type), self.words(cartan_type)[::-1]):
                product = theirs.from_reduced_word(one) * theirs.from_reduced_word(other)
                w = group(one) * group(other)
                self.assertEqual((theirs.from_reduced_word(w.reduced_word()), w), (product, group(one + other)))
                self.assertEqual(theirs.from_reduced_word((~group(one)).reduced_word()), theirs.from_reduced_word(one) ** -1)
                self.assertEqual((~group(one), group(one).inverse()), (group(one[::-1]),) * 2)
                self.assertEqual((group(one).inverse() * group(one), group(one) ** 2), (group.one(), group(one + one)))
                self.assertEqual(group(one) == group(other), theirs.from_reduced_word(one) == theirs.from_reduced_word(other))
                self.assertEqual(hash(w), hash(group(one + other)))

    def test_descents(self):
        for cartan_type in TYPES:
            group, theirs = ours.CoxeterGroup(cartan_type), WeylGroup(cartan_type)
            for word in self.words(cartan_type):
                w, u = group(word), theirs.from_reduced_word(word)
                for node in group.index_set():
                    self.assertEqual(w.has_left_descent(node), u.has_left_descent(node))
                    self.assertEqual(w.has_right_descent(node), u.has_right_descent(node))
                self.assertEqual((w.descents(), w.descents(side="left")), (u.descents(), u.descents(side="left")))
                self.assertFalse(w.has_left_descent(99) or w.has_right_descent(99))

    def test_bruhat_order(self):
        for cartan_type in (["A", 3], ["B", 3], ["G", 2], ["A", 2, 1]):
            group, theirs = ours.CoxeterGroup(cartan_type), WeylGroup(cartan_type)
            for one, other in zip(self.words(cartan_type), self.words(cartan_type)[::-1]):
                x, w = theirs.from_reduced_word(one), theirs.from_reduced_word(other)
                self.assertEqual((group(one).bruhat_le(other), group(one).bruhat_le(group(other))), (x.bruhat_le(w),) * 2)
                found = group.bruhat_interval(one, other)
                if theirs.is_finite():
                    self.assertEqual({theirs.from_reduced_word(list(it)) for it in found}, set(theirs.bruhat_interval(x, w)))
                    self.assertEqual([len(it) for it in found], sorted(len(it) for it in found))
                coatoms = group(other).coatoms()
                self.assertEqual({theirs.from_reduced_word(list(it)) for it in coatoms}, set(w.bruhat_lower_covers()))
                self.assertEqual((len(set(coatoms)), {it.parent() for it in coatoms} - {group}), (len(coatoms), set()))

    def test_order_of_coatoms(self):
        """From the word without its first letter to that without its last."""
        group = ours.CoxeterGroup(["A", 3])
        for w in group:
            word = w.reduced_word()
            shorter = [group(word[:k] + word[k + 1 :]) for k in range(len(word))]
            self.assertEqual(w.coatoms(), [it for it in shorter if len(it) == len(w) - 1])

    def test_compared_as_lists(self):
        group = ours.CoxeterGroup(["B", 3])
        listed = sorted(group)
        self.assertEqual(list(map(list, listed)), sorted(map(list, group)))
        self.assertTrue(group([1, 2, 3]) < group([3, 1, 2]) and not group([3, 1, 2]) < group([1, 2, 3]))

    def test_action(self):
        """On the root space as the Weyl group acts; and on monomials, which are sums of roots."""
        from sage.all import QQ, PolynomialRing

        for cartan_type in (["A", 3], ["B", 3], ["A", 2, 1]):
            group, theirs = ours.CoxeterGroup(cartan_type), WeylGroup(CartanType(cartan_type).root_system().root_space())
            space = group.root_system().root_space()
            ring = PolynomialRing(QQ, "x", len(group.index_set())).fraction_field()
            for word in self.words(cartan_type, 8):
                w, u = group(word), theirs.from_reduced_word(word)
                for root, variable in zip(space.basis(), ring.gens()):
                    self.assertEqual(w.action(root), u.action(root))
                    image = ring.one()
                    for node, x in zip(group.index_set(), ring.gens()):
                        image *= x ** int(u.action(root).coefficient(node))
                    self.assertEqual(w.action_on_rational_function(variable), image)
                    self.assertEqual(w.action_on_rational_function(3 * variable + 5) * 2, 6 * image + 10)
                    self.assertEqual(w.action_on_rational_function(1 / (variable + 7)), 1 / (image + 7))
        with self.assertRaises(ValueError):
            ours.CoxeterGroup(["A", 3])([1]).action_on_rational_function(PolynomialRing(QQ, "x,y").fraction_field().gen(0))


@unittest.skipUnless(has("sage"), "Sage is not installed")
class Words(unittest.TestCase):
    def groups(self, cartan_type):
        """Sage's groups of a type."""
        from sage.all import CoxeterGroup

        yield WeylGroup(cartan_type)
        yield WeylGroup(CartanType(cartan_type).root_system().root_space(), prefix="s")
        yield CoxeterGroup(cartan_type, implementation="reflection")
        if CartanType(cartan_type).is_finite():
            yield CoxeterGroup(cartan_type, implementation="permutation")
            yield WeylGroup(cartan_type, implementation="permutation")

    def elements(self, theirs, count=12):
        random.seed(14)
        return [theirs.from_reduced_word(random.choices(list(theirs.index_set()), k=random.randrange(9))) for _ in range(count)]

    def test_elements_of_other_groups(self):
        """An element of another group is the product of its reduced word, both ways, and products are kept."""
        for cartan_type in (["A", 3], ["B", 3], ["C", 3], ["D", 4], ["F", 4], ["G", 2], ["A", 2, 1], ["B", 3, 1]):
            group = ours.CoxeterGroup(cartan_type)
            for theirs in self.groups(cartan_type):
                elements = self.elements(theirs)
                for u, v in zip(elements, elements[::-1]):
                    self.assertEqual((group(u), group(u * v)), (group(u.reduced_word()), group(u) * group(v)))
                    self.assertTrue(group(u).as_element_of(theirs) == u and group(u).as_element_of(theirs).parent() is theirs)
                    self.assertEqual(group.length(u), u.length())
                    self.assertTrue(group(u).bruhat_le(u) and group.kazhdan_lusztig_polynomial(u, u) == 1)
                if "permutation" not in repr(type(u)).lower():
                    self.assertEqual([theirs(group(it)) for it in elements], elements)

    def test_permutations(self):
        """Permutations are multiplied as maps, where they have the reduced words that Sage gives them; groups of permutations, and signed ones,
        have products of their own."""
        from sage.all import Permutation, Permutations, SignedPermutations, SymmetricGroup

        group = ours.CoxeterGroup(["A", 3])
        for p in Permutations(4):
            self.assertIn(list(group(p)), p.reduced_words())
            for made in (Permutation(group(p)), Permutations(4)(group(p)), group(p).as_element_of(Permutations(4))):
                self.assertTrue(made == p and isinstance(made, Permutation))
            for q in list(Permutations(4))[::7]:
                self.assertEqual(group(p) * group(q), group(p.left_action_product(q)))
        for kind, theirs in ((["A", 3], SymmetricGroup(4)), (["B", 3], SignedPermutations(3)), (["C", 3], SignedPermutations(3))):
            group = ours.CoxeterGroup(kind)
            for u in theirs:
                self.assertTrue(theirs(group(u)) == u == group(u).as_element_of(theirs) and theirs(group(u)).parent() is theirs)
                for v in list(theirs)[::7]:
                    self.assertEqual(group(u) * group(v), group(u * v))
        self.assertEqual(ours.CoxeterGroup(["B", 3])(SignedPermutations(3).one()).length(), 0)

    def test_what_is_no_element(self):
        """Elements of other groups, and what has elements but is no word."""
        from sage.all import GF, Composition, Family, Partition, Permutation, Permutations, Set, SignedPermutations, SymmetricGroup, Tableau
        from sage.all import QQ, ZZ, AlternatingGroup, CyclicPermutationGroup, matrix, vector

        group = ours.CoxeterGroup(["B", 3])
        wrong = [{1, 2}, frozenset([1]), {1: 2}, {1: 2}.keys(), Set([1, 2]), vector([1, 2, 3]), vector(QQ, [1]), matrix([[1, 2]]), Partition([2, 1])]
        wrong += [Composition([1, 2]), Tableau([[1, 2]]), Family([1, 2]), "12", b"12", 1, 1.5, None, ZZ(1), ZZ["x"]([1, 2]), group, group.simple_reflections()]
        wrong += [Permutation([1, 2, 3]), Permutations(3).one(), SymmetricGroup(4).one(), SignedPermutations(4).one(), WeylGroup(["A", 3]).one()]
        wrong += [WeylGroup(["B", 3, 1]).one(), WeylGroup(CartanType(["B", 3]).relabel({1: 3, 2: 2, 3: 1})).one(), ours.CoxeterGroup(["A", 3])([1, 2])]
        wrong += [ours.CoxeterGroup(["B", 4])([1, 2]), CyclicPermutationGroup(3).one(), GF(5)(1)]
        for it in wrong:
            for call in (group, group.length, group([1]).bruhat_le, lambda it: group.bruhat_interval([], it), group.a_value):
                with self.assertRaises(TypeError):
                    call(it)
        for it in ([True], [1.0], [QQ(1)], [GF(5)(1)], [4], [0], [-1], ["1"], [None], [1, 9], [[1]], [(1,)], [{1}]):
            with self.assertRaises(ValueError):
                group(it)
        group = ours.CoxeterGroup(["A", 3])
        for it in (Permutation([2, 1, 3]), Permutations(5).one(), SymmetricGroup(3).one(), SymmetricGroup([0, 1, 2, 3]).one(), AlternatingGroup(4).one()):
            with self.assertRaises(TypeError):
                group(it)
        for other in (WeylGroup(["B", 3]), SymmetricGroup(5), Permutations(3), SignedPermutations(3), ZZ, AlternatingGroup(4)):
            with self.assertRaises(TypeError):
                group([1, 2]).as_element_of(other)
        with self.assertRaises(TypeError):
            Permutation(ours.CoxeterGroup(["B", 3])([1, 2, 3]))
        for letters in ("13", group([1, 3]), Permutation([1, 3, 2, 4])):
            with self.assertRaises(TypeError):
                group.parabolic_kazhdan_lusztig_polynomial([2], [2, 1, 3, 2], letters)
        for letters in ([7], [True], [1, "3"]):
            with self.assertRaises(ValueError):
                group.parabolic_kazhdan_lusztig_polynomial([2], [2, 1, 3, 2], letters)
        self.assertFalse(group([1]).has_left_descent(1.0) or group([1]).has_right_descent(True))

    def test_what_is_a_word(self):
        from sage.all import ZZ, Word

        group = ours.CoxeterGroup(["A", 3])
        made = group([1, 2, 3])
        for word in ((1, 2, 3), range(1, 4), Word([1, 2, 3]), iter([1, 2, 3]), (it for it in (1, 2, 3)), [ZZ(1), 2, ZZ(3)], made, made.value):
            self.assertEqual(group(word), made)
        self.assertEqual(ours.CoxeterGroup(["B", 3])(made.value), ours.CoxeterGroup(["B", 3])([1, 2, 3]))
        self.assertEqual(group([1, 2] * 300 + [3]), group([3]))
        kind = CartanType(["A", 2]).relabel({1: "a", 2: "b"})
        self.assertEqual(list(ours.CoxeterGroup(kind)(["b", "a", "b"])), ["a", "b", "a"])

    def test_a_group_is_given_up(self):
        """Sage keeps the conversions into its permutations, and none of our groups, whose programs would run on."""
        made = ours.CoxeterGroup(["A", 2], context=7)
        self.assertEqual(made([1, 2]).as_element_of(words.Permutations(3)), words.Permutation([2, 3, 1]))
        self.assertEqual(words.Permutation(made([1, 2])), words.Permutation([2, 3, 1]))
        gone = weakref.ref(made)
        del made
        # Sage keeps the parents that were made last.
        for places in range(100, 500):
            words.Permutations(places)
        gc.collect()
        self.assertIsNone(gone())


@unittest.skipUnless(has("sage"), "Sage is not installed")
class Groups(unittest.TestCase):
    def test_of_types(self):
        from sage.all import CoxeterMatrix, oo

        for cartan_type in TYPES:
            group, theirs = ours.CoxeterGroup(cartan_type), WeylGroup(cartan_type)
            self.assertEqual((group.index_set(), group.rank()), (theirs.index_set(), CartanType(cartan_type).rank()))
            self.assertEqual(group.cartan_type(), CartanType(cartan_type))
            self.assertEqual((group.coxeter_matrix(), group.is_finite()), (CoxeterMatrix(cartan_type), theirs.is_finite()))
            self.assertEqual(group.cardinality(), theirs.cardinality() if theirs.is_finite() else oo)
            self.assertEqual(group.root_system(), CartanType(cartan_type).root_system())
            self.assertIs(group, ours.CoxeterGroup(CartanType(cartan_type)))
            self.assertEqual(repr(group), f"Coxeter group of type {cartan_type} implemented by coxeter_shell")
            self.assertEqual((list(group.one()), group.an_element()), ([], group.one()))
            self.assertEqual([list(it) for it in group.simple_reflections()], [[node] for node in group.index_set()])
            self.assertEqual(list(group.gens().keys()), list(group.index_set()))

    def test_relabelled(self):
        """The node that is called anew keeps its place in the order of letters."""
        kind = CartanType(["B", 3]).relabel({1: 2, 2: 3, 3: 1})
        group = ours.CoxeterGroup(kind)
        self.assertEqual((group.index_set(), group.coxeter_matrix()), (kind.index_set(), kind.coxeter_matrix()))
        plain = ours.CoxeterGroup(["B", 3])
        for w in plain:
            self.assertEqual(list(group([{1: 2, 2: 3, 3: 1}[node] for node in w])), [{1: 2, 2: 3, 3: 1}[node] for node in w])

    def test_iteration(self):
        for cartan_type in (["A", 3], ["B", 3], ["G", 2]):
            group, theirs = ours.CoxeterGroup(cartan_type), WeylGroup(cartan_type)
            listed = list(group)
            self.assertEqual({theirs.from_reduced_word(list(w)) for w in listed}, set(theirs))
            self.assertEqual((len(listed), [len(w) for w in listed]), (theirs.cardinality(), sorted(len(w) for w in listed)))
            self.assertEqual(theirs.from_reduced_word(list(group.long_element())), theirs.long_element())
        counts = [len(w) for w in itertools.islice(ours.CoxeterGroup(["A", 2, 1]), 19)]
        self.assertEqual(counts, [0] + [1] * 3 + [2] * 6 + [3] * 9)

    def test_types_that_are_none(self):
        for cartan_type in (["H", 3], ["H", 4], ["I", 5], ["I", 8], ["A", 17], ["B", 17]):
            with self.assertRaises(NotImplementedError):
                ours.CoxeterGroup(cartan_type)
        group = ours.CoxeterGroup(["A", 3])
        for word in ([4], [0], [1, 2, 9], ["1"]):
            with self.assertRaises(ValueError):
                group(word)
        self.assertEqual(ours.CoxeterGroup(["I", 4])([1, 2] * 4), ours.CoxeterGroup(["I", 4]).one())

    def test_given_otherwise(self):
        """Cartan matrices, Dynkin diagrams, Coxeter matrices, root systems and groups stand for their Cartan types."""
        from sage.all import CartanMatrix, CoxeterMatrix, DynkinDiagram, RootSystem, SymmetricGroup
        from sage.all import CoxeterGroup as SageGroup

        group = ours.CoxeterGroup(["B", 3])
        for given in (CartanMatrix("B3"), DynkinDiagram("B3"), CoxeterMatrix("B3"), RootSystem("B3"), WeylGroup("B3"), SageGroup("B3"), "B3", group):
            self.assertIs(ours.CoxeterGroup(given), group)
        self.assertEqual(ours.CoxeterGroup(CartanMatrix([[2, -1], [-2, 2]])).coxeter_matrix()[0, 1], 4)
        self.assertIs(ours.CoxeterGroup(SymmetricGroup(4)), ours.CoxeterGroup(["A", 3]))
        for wrong in (CartanMatrix([[2, -3], [-2, 2]]), CoxeterMatrix([[1, 7, 2], [7, 1, 4], [2, 4, 1]]), CoxeterMatrix([[1, 7], [7, 1]])):
            with self.assertRaises(NotImplementedError):
                ours.CoxeterGroup(wrong)
        for wrong in (5, [[1, 3], [3, 1]], None):
            with self.assertRaises(TypeError):
                ours.CoxeterGroup(wrong)

    def test_degrees_and_reflections(self):
        for cartan_type in (["A", 3], ["B", 3], ["C", 2], ["D", 4], ["G", 2], "A2xB2", ["F", 4]):
            group, theirs = ours.CoxeterGroup(cartan_type), WeylGroup(cartan_type)
            self.assertEqual((group.degrees(), group.codegrees()), (theirs.degrees(), theirs.codegrees()))
            reflections = list(group.reflections())
            self.assertEqual({it.as_element_of(theirs) for it in reflections}, set(theirs.reflections()))
            self.assertEqual((len(reflections), group.number_of_reflections()), (len(theirs.reflections()),) * 2)
            self.assertEqual([group.reflection(number) for number in group.reflection_index_set()], reflections)
            self.assertEqual(list(group.distinguished_reflections()), reflections)
        self.assertEqual(ours.CoxeterGroup(["E", 8]).degrees(), (2, 8, 12, 14, 18, 20, 24, 30))
        graph = ours.CoxeterGroup(["B", 2]).bruhat_graph()
        self.assertTrue(graph.is_isomorphic(WeylGroup(["B", 2]).bruhat_graph()))
        group = ours.CoxeterGroup(["A", 2, 1])
        for call in (group.degrees, group.reflections, group.reflection_index_set):
            with self.assertRaises(ValueError):
                call()
        for wrong in (0, 4, True, 1.0, "1"):
            with self.assertRaises(ValueError):
                ours.CoxeterGroup(["A", 2]).reflection(wrong)

    def test_orders(self):
        from sage.all import oo

        for cartan_type in (["B", 3], ["D", 4], ["G", 2]):
            group, theirs = ours.CoxeterGroup(cartan_type), WeylGroup(cartan_type)
            for u in theirs:
                self.assertEqual(group(u).order(), next(k for k in itertools.count(1) if u**k == theirs.one()))
                self.assertEqual(group(u).to_matrix(), u.canonical_matrix())
        affine = ours.CoxeterGroup(["A", 2, 1])
        self.assertEqual((affine([0, 1, 2]).order(), affine([0, 1]).order(), affine.one().order()), (oo, 3, 1))

    def test_closed(self):
        """Another question starts the program again."""
        group = ours.CoxeterGroup(["A", 3])
        group.close()
        self.assertEqual(group([2, 1, 2]).length(), 3)

    def test_no_other_numbers(self):
        """What is public of a group and of an element is in nodes."""
        group = ours.CoxeterGroup(["B", 3])
        self.assertFalse(hasattr(group, "shell"))
        self.assertEqual(group([3, 1]).value, (3, 1))

    def test_products_of_types(self):
        group = ours.CoxeterGroup(CartanType("A2xB2"))
        self.assertEqual((group.cardinality(), list(group([3, 1])), group([1, 3]) == group([3, 1])), (48, [1, 3], True))

    def test_options(self):
        group = ours.CoxeterGroup(["A", 3], context=23)
        self.assertEqual((group._shell.program.options, group.cardinality()), ({"context": 23}, 24))
        with self.assertRaises(Refusal):
            group.kazhdan_lusztig_polynomial([], group.long_element())

    def test_the_suite_of_sage(self):
        """As in Sage's own examples, and degrees and codegrees too."""
        from sage.all import TestSuite

        for cartan_type in (["A", 2], ["B", 3], ["A", 2, 1]):
            TestSuite(ours.CoxeterGroup(cartan_type)).run(raise_on_failure=True)
        group = ours.CoxeterGroup(["B", 3])
        again = pickle.loads(pickle.dumps((group, group([3, 1]))))
        self.assertTrue(again[0] is group and again[1] == group([1, 3]) and again[1].parent() is group)


@unittest.skipUnless(has("sage"), "Sage is not installed")
class Polynomials(unittest.TestCase):
    def test_by_sage(self):
        """Sage computes them by itself, slowly."""
        from sage.all import ZZ
        from sage.combinat.kazhdan_lusztig import KazhdanLusztigPolynomial

        q = ZZ["q"].gen()
        for cartan_type in (["A", 3], ["B", 2], ["G", 2]):
            group, theirs = ours.CoxeterGroup(cartan_type), WeylGroup(cartan_type, prefix="s")
            polynomials = KazhdanLusztigPolynomial(theirs, q)
            for x, w in itertools.product(theirs, repeat=2):
                p, distance = polynomials.P(x, w), w.length() - x.length()
                found = group.kazhdan_lusztig_polynomial(x.reduced_word(), group(w.reduced_word()))
                self.assertTrue(found == p and found.parent() is ZZ["q"])
                other = group.kazhdan_lusztig_polynomial(x.reduced_word(), w.reduced_word(), constant_term_one=False)
                self.assertEqual(other, sum(c * q ** (distance - 2 * k) for k, c in enumerate(p)))
                self.assertTrue(other.parent().is_sparse())
                mu = p[(distance - 1) // 2] if distance > 0 and distance % 2 else 0
                self.assertEqual(group(x.reduced_word()).mu_coefficient(w.reduced_word()), mu)
                self.assertEqual(group(x.reduced_word()).kazhdan_lusztig_polynomial(w.reduced_word()), p)

    def test_parabolic(self):
        """By Deodhar's definition."""
        from sage.all import ZZ

        real, group, q = reference.group(3), ours.CoxeterGroup(["A", 3]), ZZ["q"].gen()
        for letters in ((), (2,), (1, 3), (1, 2), (1, 2, 3)):
            shortest = [w for w in real if reference.is_shortest(w, letters)]
            for u, v in itertools.product(shortest, repeat=2):
                words, distance = (real.words[u], real.words[v]), reference.length(v) - reference.length(u)
                p = reference.parabolic_polynomial(u, v, letters, (0, 1))
                found = group.parabolic_kazhdan_lusztig_polynomial(*words, letters)
                self.assertTrue(found == ZZ["q"](list(p)) and found.parent() is ZZ["q"])
                other = group.parabolic_kazhdan_lusztig_polynomial(*words, letters, constant_term_one=False)
                self.assertEqual(other, sum(c * q ** (distance - 2 * k) for k, c in enumerate(p)))
        for u, v in (([1], [2, 1]), ([2], [2, 1]), ([1], [2])):
            with self.assertRaises(ValueError):
                group.parabolic_kazhdan_lusztig_polynomial(u, v, [1, 3])

    def test_poincare(self):
        """The numbers of elements of each length of the intervals that Sage makes."""
        group, theirs = ours.CoxeterGroup(["B", 3]), WeylGroup(["B", 3])
        for w in random.Random(13).sample(list(theirs), 10):
            below = theirs.bruhat_interval(theirs.one(), w)
            found = group(w.reduced_word()).poincare_polynomial()
            counts = [sum(x.length() == k for x in below) for k in range(w.length() + 1)]
            self.assertEqual((str(found.parent().gen()), list(found)), ("t", counts))


@unittest.skipUnless(has("sage"), "Sage is not installed")
class Cells(unittest.TestCase):
    """What is known of cells, in types whose letters are other numbers than the nodes."""

    TYPES = (["B", 3], ["C", 2], ["D", 4], ["A", 3])

    def graph(self, theirs, side):
        """The W-graph by the polynomials that Sage computes, or by the Python package where they are too many: elements, descents and mu."""
        group = CoxeterGroup(theirs)
        found = group.W_graph(side)
        element = {x: theirs.from_reduced_word(x) for x in found}
        return {element[x]: set(found[x].descents) for x in found}, {frozenset((element[x], element[y])): value for x, y, value in found.edges()}

    def test_w_graphs(self):
        for cartan_type in self.TYPES:
            group, theirs = ours.CoxeterGroup(cartan_type), WeylGroup(cartan_type)
            for side in ("left", "right"):
                graph, (descents, edges) = group.W_graph(side), self.graph(theirs, side)
                self.assertEqual({w.as_element_of(theirs): set(graph.get_vertex(w)) for w in graph}, descents)
                self.assertEqual({w.as_element_of(theirs): set(w.descents(side=side)) for w in graph}, descents)
                found = {frozenset((x.as_element_of(theirs), y.as_element_of(theirs))): value for x, y, value in graph.edges(sort=False)}
                self.assertEqual(found, edges)
        group = ours.CoxeterGroup(["B", 2])
        for x, y, value in group.W_graph().edges(sort=False):
            self.assertEqual(max(x.mu_coefficient(y), y.mu_coefficient(x)), value)
        with self.assertRaises(ValueError):
            group.W_graph("both")

    def test_cells(self):
        """They are the strong components of the steps of the W-graph: from x to a neighbour y where some descent of x is no descent of y."""
        from sage.all import DiGraph

        for cartan_type in self.TYPES:
            group, theirs = ours.CoxeterGroup(cartan_type), WeylGroup(cartan_type)
            steps = {"two-sided": []}
            for side in ("left", "right"):
                descents, edges = self.graph(theirs, side)
                pairs = [pair for edge in edges for pair in itertools.permutations(edge)]
                steps[side] = [(x, y) for x, y in pairs if descents[x] - descents[y]]
                steps["two-sided"] += steps[side]
            for side, listed in (("left", group.left_cells()), ("right", group.right_cells()), ("two-sided", group.two_sided_cells())):
                graph = DiGraph([list(theirs), steps[side]], format="vertices_and_edges")
                components = set(map(frozenset, graph.strongly_connected_components()))
                self.assertEqual({frozenset(w.as_element_of(theirs) for w in cell) for cell in listed}, components)
                self.assertEqual((len(listed), group.kazhdan_lusztig_cells(side)), (len(components), set(map(frozenset, listed))))
                for cell in listed:
                    self.assertEqual(cell[-1].kazhdan_lusztig_cell(side), set(cell))
                order = group.cell_order(side)
                self.assertEqual((set(order), order.top()), (set(map(tuple, listed)), (group.one(),)))
                self.assertEqual(order.bottom(), (group.long_element(),))
        for call in (group.kazhdan_lusztig_cells, group.one().kazhdan_lusztig_cell, group.cell_order):
            with self.assertRaises(ValueError):
                call("both")
        with self.assertRaises(Refusal):
            ours.CoxeterGroup(["A", 2, 1]).left_cells()

    def test_a_values(self):
        """The least l(x) - 2 deg P(e, x) of the left cell, which the Duflo involution has alone; and -a is the least power of v in the traces
        of T(w) v^-l(w) on the module of the cell."""
        for cartan_type in self.TYPES:
            group = ours.CoxeterGroup(cartan_type)
            one, listed = group.one(), group.left_cells()
            duflo = group.duflo_involutions()
            self.assertEqual(len(duflo), len(listed))
            for cell, involution in zip(listed, duflo):
                values = {x: x.length() - 2 * one.kazhdan_lusztig_polynomial(x).degree() for x in cell}
                least = min(values.values())
                self.assertEqual([x for x in cell if values[x] == least], [involution])
                self.assertEqual({group.a_value(x) for x in cell}, {least})

    def test_inverse_polynomials(self):
        """The sum of (-1)^(l(z) - l(x)) P(x, z) Q(z, w) is 1 where x = w, else 0; and R by the KL polynomials that Sage has."""
        from sage.all import ZZ
        from sage.combinat.kazhdan_lusztig import KazhdanLusztigPolynomial

        for cartan_type in (["B", 2], ["A", 3]):
            group, theirs = ours.CoxeterGroup(cartan_type), WeylGroup(cartan_type)
            by_sage = KazhdanLusztigPolynomial(theirs, ZZ["q"].gen())
            for x, w in itertools.product(list(theirs)[::3], theirs):
                between = group.bruhat_interval(x, w)
                terms = (
                    (-1) ** (z.length() + x.length()) * group.kazhdan_lusztig_polynomial(x, z) * group.inverse_kazhdan_lusztig_polynomial(z, w)
                    for z in between
                )
                self.assertEqual(sum(terms), 1 if x == w else 0)
                found = group.r_polynomial(x, w)
                self.assertTrue(found == by_sage.R(x, w) and found.parent() is ZZ["q"])
        self.assertTrue(group.inverse_kazhdan_lusztig_polynomial([1], [2]).parent() is ZZ["q"])

    def test_modules(self):
        """The matrices obey the relations of the Hecke algebra for the labels between the nodes, and characters at v = 1 are those of the group:
        all left cells together are the regular representation."""
        from sage.all import matrix

        for cartan_type in self.TYPES[:2] + (["F", 4],):
            group = ours.CoxeterGroup(cartan_type)
            listed = group.left_cells()
            modules = [group.cell_module(cell[-1]) for cell in (listed if len(listed) < 20 else listed[1:4])]
            for module in modules:
                self.assertEqual(module.elements()[0].kazhdan_lusztig_cell(), set(module.elements()))
                one = matrix.identity(module.matrix(group.index_set()[0]).base_ring(), len(module))
                v = one.base_ring().gen()
                for s in group.index_set():
                    self.assertTrue(((module.matrix(s) + one) * (module.matrix(s) - v**2 * one)).is_zero())
                    for t in group.index_set():
                        m = group.coxeter_matrix()[s, t]
                        words = [[s, t] * (m // 2) + [s] * (m % 2), [t, s] * (m // 2) + [t] * (m % 2)]
                        self.assertEqual(module.act(words[0]), module.act(words[1]))
            if cartan_type != ["F", 4]:
                theirs = WeylGroup(cartan_type)
                for w in group:
                    total = sum(module.character(w)(1) for module in modules)
                    self.assertEqual(total, group.cardinality() if w == group.one() else 0)
                    self.assertEqual(modules[1].character(w), modules[1].character(w.as_element_of(theirs)))
                    self.assertEqual(modules[1].character(w), modules[1].act(w.reduced_word()).trace())
        for wrong, error in (({1}, TypeError), ([9], ValueError), (WeylGroup(["A", 3]).one(), TypeError)):
            for call in (group.cell_module, modules[0].character, modules[0].act):
                with self.assertRaises(error):
                    call(wrong)
        with self.assertRaises(ValueError):
            modules[0].matrix(9)
        self.assertTrue(group.cell_module([1]) == group.cell_module([1]) != group.cell_module([2]))


@unittest.skipUnless(has("sage"), "Sage is not installed")
class Registered(unittest.TestCase):
    def test_in_sage(self):
        """Products of the basis C', which Sage takes from the interface, are the same as by the basis T; and cells are those of ours."""
        from sage.all import ZZ, IwahoriHeckeAlgebra, LaurentPolynomialRing
        from sage.all import CoxeterGroup as SageGroup

        ours.register()
        group = SageGroup(["B", 3], implementation="coxeter3")
        self.assertIs(group, ours.CoxeterGroup(["B", 3]))
        v = LaurentPolynomialRing(ZZ, "v").gen()
        algebra = IwahoriHeckeAlgebra(group, v**2)
        C, T = algebra.Cp(), algebra.T()
        self.assertIs(C._W_Coxeter3, group)
        for x, y in (([2], [1, 3, 2]), ([3, 2], [2, 3, 2]), ([1, 2, 3, 2, 1], [2, 1])):
            self.assertEqual(T(C[x] * C[y]), T(C[x]) * T(C[y]))
        group, theirs = ours.CoxeterGroup(["B", 2]), WeylGroup(["B", 2])
        for side, cells in (("left", group.left_cells()), ("right", group.right_cells()), ("two-sided", group.two_sided_cells())):
            found = {frozenset(group(w) for w in cell) for cell in theirs.kazhdan_lusztig_cells(side=side)}
            self.assertEqual((found, len(cells)), (set(map(frozenset, cells)), len(found)))


if __name__ == "__main__":
    unittest.main()
