"""Wrong arguments: each is a TypeError or a ValueError in words, at once; and what errors say."""
import pickle
import traceback
import types
import unittest
import unittest.mock

import coxeter_shell
from coxeter_shell import CellModule, CoxeterError, CoxeterGroup, InV, Polynomial, Refusal, check, gap, magic


class Wrong(unittest.TestCase):
    def raises(self, error, said, call, *arguments, **more):
        with self.assertRaises(error) as caught:
            call(*arguments, **more)
        self.assertIn(said, str(caught.exception))

    def test_at_once(self):
        with CoxeterGroup("A", 3) as group:
            for error, said, call, *arguments in [
                (TypeError, "float", group.power, "12", 1.5),
                (TypeError, "list of words", group.kazhdan_lusztig_table, "2132"),
                (TypeError, "list of words", group.kazhdan_lusztig_table, b"2132"),
                (TypeError, "list of its elements", group.cell_w_graph, "12"),
                (TypeError, "list of words", group.W_graph().part, "12"),
                (TypeError, "is one text", group.map, "length", "12"),
                (TypeError, "is one text", group.map, "bruhat_le", ["1"], "12"),
                (ValueError, "no left cell", group.cell_w_graph, []),
                (ValueError, "no left cell", group.cell_w_graph, ["1", "2"]),
                (ValueError, "no left cell", group.cell_w_graph, ["1"]),
                (ValueError, "no right cell", group.cell_w_graph, group.left_cell("1"), "right"),
                (ValueError, "negative", group.random_element, -3),
                (TypeError, "float", group.random_element, 2.0),
                (TypeError, "no order", group.normal_form, {1, 2}),
                (TypeError, "no order", group.normal_form, {1: 2}),
                (TypeError, "no order", group.length, frozenset([1])),
                (TypeError, "b'12' is no word", group.length, b"12"),
                (TypeError, "list by rising degree", Polynomial, {0: 1}),
                (TypeError, "list by rising degree", Polynomial, {1, 2}),
                (TypeError, "list by rising degree", Polynomial, "12"),
                (TypeError, "a word is a text", group.length, 14),
                (TypeError, "a word is a text", group.length, None),
                (TypeError, "a word is a text", group.length, [1.5]),
                (TypeError, "a word is a text", group.length, ["1"]),
                (TypeError, "a permutation is a list", group.from_permutation, "2134"),
                (TypeError, "a permutation is a list", group.from_permutation, 2134),
                (TypeError, "a permutation is a list", group.from_permutation, [2, 1, 3.5, 4]),
                (ValueError, "no permutation of 1 to 4", group.from_permutation, [2, 1, 3]),
                (ValueError, "no permutation of 1 to 4", group.from_permutation, {1, 2, 3, 4}),
                (TypeError, "a word is a text", group.length, True),
                (TypeError, "a word is a text", group.length, [True]),
                (TypeError, "a word is a text", group.length, (1, True)),
                (TypeError, "a word is a text", group.length, Polynomial([1, 2])),
                (TypeError, "a word is a text", group.bruhat_le, "1", (2, 1.0)),
                (TypeError, "a word is a text", group.text, [None]),
                (TypeError, "a word is a text", group.coset_representatives, [True]),
                (TypeError, "a word is a text", group.coset_representatives, [1.5]),
                (ValueError, "a letter that the group doesn't have", group.coset_representatives, [4]),
                (ValueError, "a letter that the group doesn't have", group.parabolic_decomposition, "12", (0,)),
                (ValueError, "the letters are 1 to 3", group.cell_module("1").matrix, 4),
                (ValueError, "the letters are 1 to 3", group.cell_module("1").matrix, [[Polynomial([1])]]),
                (ValueError, "the letters are 1 to 3", group.cell_module("1").matrix, True),
                (TypeError, "a word is a text", group.cell_module("1").act, [True]),
                (TypeError, "a certificate is a text, or bytes, and not None", check, None),
                (TypeError, "a certificate is a text, or bytes, and not 3", check, 3),
                (TypeError, "a line is a text, and not None", group.jobs, [[None]]),
                (TypeError, "a line is a text, and not b'length 1'", group.jobs, [[b"length 1"]]),
                (TypeError, "a block is a list of lines, and not None", group.jobs, [None]),
                (TypeError, "a block is a list of lines, and not 'length 1'", group.jobs, ["length 1"]),
                (TypeError, "a line is a text, and not None", group.program.ask, None),
                (TypeError, "a line is a text, and not 3", group.program.ask_list, [[3]]),
            ]:
                with self.subTest(call=call.__name__, arguments=arguments):
                    self.raises(error, said, call, *arguments)
                    self.assertEqual(group.length("12"), 2)

    def test_words(self):
        """Each way to give a word, and letters that the group doesn't have, which are shown as they were given."""
        with CoxeterGroup("A", 3) as group, CoxeterGroup("A", 10) as other:
            for word in ("21", [2, 1], (2, 1), range(2, 0, -1), iter([2, 1]), " 21 "):
                self.assertEqual(group.normal_form(word), (2, 1))
            self.assertEqual((group.text([]), group.text(()), group.text(""), other.text((10, 1))), ("e", "e", "e", "10.1"))
            for word, shown in (([-1], "[-1]"), ((12,), "[12]"), ([1, 0], "[1, 0]"), ([4], "[4]")):
                for call, line in ((group.length, f"length {shown}"), (group.coatoms, f"coatoms {shown}"), (group.text, shown)):
                    self.refuses(line, call, word)
                self.refuses(f"inorder {shown}", group.bruhat_le, word, "1")
            self.refuses("length [11]", other.length, [11])
            self.refuses("[11]", other.text, (11,))

    def refuses(self, line, call, *arguments):
        with self.assertRaises(Refusal) as caught:
            call(*arguments)
        self.assertEqual((caught.exception.number, caught.exception.line), (16, line))
        self.assertIn("the letters of CoxeterGroup", str(caught.exception))

    def test_names_of_the_package(self):
        """`from coxeter_shell import *` brings no names that are too general, which are there all the same."""
        for name in ("check", "gap", "Table", "Release"):
            self.assertNotIn(name, coxeter_shell.__all__)
            self.assertTrue(hasattr(coxeter_shell, name))
        self.assertEqual([name for name in coxeter_shell.__all__ if not hasattr(coxeter_shell, name)], [])
        self.assertFalse(hasattr(coxeter_shell, "nothing"))

    def test_options(self):
        """Wrong ones are refused when the group is made."""
        for error, said, options in [
            (ValueError, "workers is a number from 1 to 16, and not 17", {"workers": 17}),
            (ValueError, "workers is a number from 1 to 16, and not 0", {"workers": 0}),
            (TypeError, "context is a whole number, and not 1.5", {"context": 1.5}),
            (ValueError, "from 1 to 1,048,576", {"context": 1_048_577}),
            (ValueError, "from 1 to 4,096", {"roots": 4097}),
            (ValueError, "coef", {"coef": 2**63}),
            (TypeError, "whole number", {"workers": "2"}),
            (TypeError, "no option 'worker'", {"worker": 2}),
        ]:
            with self.subTest(options=options):
                self.raises(error, said, CoxeterGroup, "A", 3, **options)
        with CoxeterGroup("A", 3, workers=16, context=1_048_576, roots=4096, coef=2**63 - 1) as group:
            self.assertEqual(group.length("12"), 2)
        with CoxeterGroup("A", 3, workers=True, context=None) as group:
            self.assertEqual((group.length("12"), group.program.options), (2, {"workers": 1}))

    def test_cells_of_either_kind(self):
        """A W-graph is that of a left, a right or a two-sided cell."""
        with CoxeterGroup("A", 3) as group:
            for cell in group.left_cells() + group.two_sided_cells():
                self.assertEqual(list(group.cell_w_graph(cell)), cell)
            for cell in group.right_cells() + group.two_sided_cells():
                self.assertEqual(list(group.cell_w_graph(reversed(cell), "right")), cell)

    def test_objects_of_sage(self):
        """A permutation without a size of its own, and what is no element. Stand-ins have what Sage's objects have."""

        class Permutation(list):
            def parent(self):
                return "Standard permutations"

            def reduced_word(self):
                return [1, 2, 1, 3, 2, 1]

        stranger = types.SimpleNamespace(reduced_word=list, parent=lambda: "the place")
        with CoxeterGroup("A", 3) as group, CoxeterGroup("B", 3) as other:
            whole = Permutation([4, 3, 2, 1])
            self.assertEqual((group.normal_form(whole), group.from_permutation(whole)), (group.long_element(),) * 2)
            self.raises(ValueError, "no permutation of 1 to 4", group.length, Permutation([3, 2, 1]))
            self.raises(ValueError, "no permutation with signs", CoxeterGroup("D", 4).length, whole)
            self.raises(ValueError, "not given as permutations", CoxeterGroup("E", 6).length, whole)
            self.raises(ValueError, "no permutation", other.length, Permutation([3, 2, 1]))
            self.raises(TypeError, "no element of a Coxeter group", group.length, stranger)

    def test_cartan_types_of_sage(self):
        """The letter of a Cartan type stays: C 3 comes back as C 3. Sage itself is asked by test_optional."""

        class Matrix(dict):
            def index_set(self):
                return (1, 2, 3)

        rows = CoxeterGroup("B", 3).coxeter_matrix()
        entries = Matrix({(s, t): rows[s - 1][t - 1] for s in (1, 2, 3) for t in (1, 2, 3)})
        cartan = types.SimpleNamespace(letter="C", n=3, affine=lambda: ["C", 3, 1], coxeter_matrix=lambda: entries)
        stub = unittest.mock.MagicMock()
        with unittest.mock.patch.dict("sys.modules", {"sage": types.ModuleType("sage"), "sage.all": stub}):
            for group in (CoxeterGroup(cartan), pickle.loads(pickle.dumps(CoxeterGroup(cartan))), CoxeterGroup("C3")):
                group.sage()
                self.assertEqual(stub.WeylGroup.call_args[0], (["C", 3],))
                self.assertEqual(group, CoxeterGroup("B", 3))
            CoxeterGroup(["B", 3]).sage()
            self.assertEqual(stub.WeylGroup.call_args[0], (["B", 3],))
            # Names that are none here, and those of another matrix, don't stay.
            for letter, number, affine in (("B", 2, 1), ("A", 4, 2), ("D", 3, None), ("A", 3, False)):
                other = types.SimpleNamespace(letter=letter, n=number, affine=affine, coxeter_matrix=lambda: entries)
                self.assertEqual(CoxeterGroup(other).cartan_type(), ("B", 3))
            CoxeterGroup(["C", 2, 1]).sage()
            self.assertEqual(stub.WeylGroup.call_args[0], (["C", 2, 1],))


class Values(unittest.TestCase):
    def test_equal(self):
        """What is pickled is equal to what comes back, and other things are not."""
        with CoxeterGroup("A", 3) as group, CoxeterGroup("A", 2) as other:
            for made in (lambda it: it.W_graph(), lambda it: it.cell_order("two-sided"), lambda it: it.cell_module("1")):
                one, same = made(group), pickle.loads(pickle.dumps(made(group)))
                self.assertEqual((one, hash(one)), (same, hash(same)))
                self.assertNotEqual(one, made(other))
                self.assertNotEqual(one, 3)
            self.assertNotEqual(group.W_graph("left"), group.W_graph("right"))
            self.assertNotEqual(group.cell_order("left"), group.cell_order("right"))
            self.assertNotEqual(group.cell_module("1"), group.cell_module("2"))
            self.assertNotEqual(group.W_graph(), group.W_graph().part(group.left_cell("1")))

    def test_entries_of_modules(self):
        """They are polynomials in v, which constants of any kind are added to and multiplied by."""
        with CoxeterGroup("A", 2) as group:
            entries = [it for row in group.cell_module("1").matrix(1) for it in row]
        self.assertTrue(all(isinstance(it, InV) for it in entries))
        for total in (sum(entries, Polynomial()), sum(entries, InV()), sum(entries)):
            self.assertEqual((total, type(total)), (InV([-1, 1, 1]), InV))
        v, q = InV([0, 1]), Polynomial([0, 1])
        self.assertEqual([str(it) for it in (Polynomial([2]) * v, v * Polynomial([2]), Polynomial([2]) - v)], ["2v", "2v", "2-v"])
        self.assertEqual(InV() + q, q)
        self.assertIsInstance(InV([3]) + q, Polynomial)
        self.assertNotIsInstance(InV([3]) + q, InV)
        for call in (lambda: v + q, lambda: q * v, lambda: q - v):
            with self.assertRaises(TypeError):
                call()

    def test_texts_for_gap(self):
        with CoxeterGroup("A", 2) as group:
            module = group.cell_module("1")
            self.assertIsInstance(module, CellModule)
            matrices = "[ [ [ [ -1 ], [ 0, 1 ] ], [ [ ], [ 0, 0, 1 ] ] ], [ [ [ 0, 0, 1 ], [ ] ], [ [ 0, 1 ], [ -1 ] ] ] ]"
            self.assertEqual(gap(module), f"rec( elements := [ [ 1 ], [ 2, 1 ] ], matrices := {matrices} )")
            cells = "[ [ [ ] ], [ [ 1 ], [ 2 ], [ 1, 2 ], [ 2, 1 ] ], [ [ 1, 2, 1 ] ] ]"
            self.assertEqual(gap(group.cell_order("two-sided")), f"rec( cells := {cells}, covered := [ [ 1, 2 ], [ 2, 3 ] ] )")


class Messages(unittest.TestCase):
    def says(self, number, said, call, *arguments, **more):
        with self.assertRaises(Refusal) as caught:
            call(*arguments, **more)
        self.assertEqual(caught.exception.number, number)
        self.assertIn(said, str(caught.exception))
        self.assertEqual(str(pickle.loads(pickle.dumps(caught.exception))), str(caught.exception))

    def test_types(self):
        for kind, said in [
            ("H3", "H 3 has a label other than 2, 3, 4, 6 and infinity"),
            ("I5", "has a label other than"),
            ("A17", "groups have rank 1 to 16"),
            ("a16", "groups have rank 1 to 16"),
            ("b16", "groups have rank 1 to 16"),
            ("E9", "the types of this letter are E 6 to E 8"),
            ("D3", "the types of this letter are D 4 to D 16"),
            ("F5", "the type of this letter is F 4"),
            ("X5", "the letters are A, B, C, D, E, F, G, a, b, c, d, e, f, g"),
        ]:
            self.says(13, said, CoxeterGroup, kind)

    def test_sizes(self):
        with CoxeterGroup("a", 2) as group:
            for call in (group.left_cells, group.W_graph, lambda: group.cell_module("1"), lambda: group.ask("lrcells")):
                self.says(31, "the group is infinite, and W-graphs, cells and their modules are for finite groups", call)
        with CoxeterGroup("A", 3, context=23) as group:
            self.says(31, "the group has 24 elements, and `context` allows 23", group.left_cells)
            said = "more than 23 elements of 24 below 121321, and `context` allows no more"
            self.says(31, said, group.kazhdan_lusztig_basis, "121321")
            self.says(31, said, group.bruhat_interval, "1", "121321")
            self.says(31, said, group._answers_of, "betti_numbers", ["1", "121321"])
        with CoxeterGroup("A", 6) as group:
            self.says(31, "there are 5,040 elements below", group.certificate, group.long_element())
        with CoxeterGroup("B", 16) as group:
            self.says(31, "elements, and `context` allows 1,048,576", group.left_cells)

    def test_letters(self):
        with CoxeterGroup("A", 3) as group:
            self.says(16, 'the letters of CoxeterGroup("A", 3) are 1 to 3', group.length, "14")
        with CoxeterGroup("A", 12) as group:
            self.says(16, "are 1 to 12, with dots between them", group.length, "123")

    def test_few_frames(self):
        """What is shown of a refusal are the frames of the user, the method, and one more."""
        with CoxeterGroup("A", 3) as group:
            for call in (lambda: group.length("14"), lambda: group.bruhat_interval("1", "4"), lambda: group.cell_module("4")):
                try:
                    call()
                except CoxeterError as error:
                    frames = traceback.extract_tb(error.__traceback__)
                    self.assertLessEqual(len(frames) - 2, 3, frames)
                    self.assertNotIn("program.py", "".join(traceback.format_exception(type(error), error, error.__traceback__)))

    def test_cell_magic(self):
        self.assertEqual(
            magic.with_meanings("3\nerror 13\nerror 16\n"),
            "3\nerror 13: there is no such type\nerror 16: a word has a letter that the group doesn't have\n",
        )
        self.assertEqual(magic.with_meanings("2\n12\n21\n"), "2\n12\n21\n")


class Pictures(unittest.TestCase):
    def test_numbers_of_elements(self):
        """Sets of descents stand in braces, and so do numbers of elements not."""
        with CoxeterGroup("B", 3) as group:
            order = group.cell_order("two-sided")
            texts = [text for row in order.layers()[0] for _, text in row]
            self.assertIn("1: 14 elements", texts)
            self.assertIn("e: 1 element", texts)
            self.assertIn('"1" [label="1\\n14 elements"]', order.dot())
            self.assertFalse("{14}" in order.dot() or any("{" in it for it in texts))


if __name__ == "__main__":
    unittest.main()
