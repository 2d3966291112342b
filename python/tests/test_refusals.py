"""Every refusal: its number, what it says, and that the group is as before."""
import unittest

from coxeter_shell import CoxeterError, CoxeterGroup, Program, Refusal
from coxeter_shell.errors import MEANINGS

LONG = "12" * 128


class Refusals(unittest.TestCase):
    def refused(self, number, call, *arguments):
        with self.assertRaises(Refusal) as caught:
            call(*arguments)
        error = caught.exception
        self.assertEqual((error.number, error.meaning), (number, MEANINGS[number]))
        self.assertIn(f"error {number}: {MEANINGS[number]}", str(error))
        self.assertIsInstance(error, CoxeterError)
        self.seen.add(number)

    def test_each(self):
        self.seen = set()
        with CoxeterGroup("D", 4, roots=16, coef=1) as group:
            for number, call, *arguments in [
                (10, group.ask, "foo"),
                (11, group.ask, "length"),
                (11, group.ask, "quit 1"),
                (12, group.ask, "work 1 x"),
                (12, group.work, -1, 1),
                (12, group.work, 1, 0),
                (12, group.work, 65537, 1),
                (12, group.work, 1, 1000001),
                (16, group.length, "5"),
                (16, group.length, [5]),
                (16, group.length, [10]),
                (16, group.length, [0]),
                (16, group.length, [-1]),
                (16, group.length, "1x"),
                (16, group.bruhat_le, "1", "15"),
                (17, group.length, LONG),
                (17, group.bruhat_interval, LONG, "5"),
                (18, group.length, "1" * 5000),
                (18, group.ask, "z" * 5000),
                (19, group.length, "1\t2"),
                (19, group.length, "1\n2"),
                (19, group.length, "é"),
                (19, group.ask, "length 1\r"),
                (32, group.kazhdan_lusztig_polynomial, "134", "1324213"),
            ]:
                with self.subTest(number=number, arguments=arguments):
                    self.refused(number, call, *arguments)
                    self.assertEqual(group.normal_form("2312"), (2, 1, 3, 2))
        for number, kind in [
            (12, ("A", -1)),
            (12, ([[0 if s != t else 1 for s in range(17)] for t in range(17)],)),
            (12, ([],)),
            (12, ("matrix 17",)),
            (12, ("matrix 2 x",)),
            (11, ("matrix 3 3 2",)),
            (13, ("H3",)),
            (13, (["I", 2],)),
            (13, ("D", 3)),
            (13, ("E", 9)),
            (13, ("A", 17)),
            (13, ("H", 3)),
            (13, ("a", 16)),
            (13, ("AB", 3)),
            (14, ([[1, 5], [5, 1]],)),
        ]:
            with self.subTest(kind=kind):
                self.refused(number, CoxeterGroup, *kind)
        with CoxeterGroup("A", 4, roots=9) as group:
            self.refused(21, group.length, "e")
        with CoxeterGroup("A", 3, context=23) as group:
            for call in (group.left_cells, group.right_cells, group.two_sided_cells, group.W_graph):
                self.refused(31, call)
            for call in (group.betti_numbers, group.coatoms, group.kazhdan_lusztig_basis, group.extremal_pairs):
                self.refused(31, call, "121321")
            self.refused(31, group.intersection_betti_numbers, "121321")
            polynomials = (group.kazhdan_lusztig_polynomial, group.inverse_kazhdan_lusztig_polynomial, group.mu_coefficient)
            for call in (group.bruhat_interval, *polynomials):
                self.refused(31, call, "12132", "121321")
            self.refused(31, group.iter_left_cells)
            self.refused(31, group.iter_kazhdan_lusztig_basis, "121321")
            self.assertEqual(group.length("121321"), 6)
        with CoxeterGroup("B", 2, context=7) as group:
            self.refused(31, group.work, 0, 1)
        with CoxeterGroup([[1, 0], [0, 1]]) as group:
            self.refused(31, group.left_cells)
            self.refused(34, group.r_polynomial, "e", "12" * 20)
            self.assertEqual(group.r_polynomial("e", "12" * 19 + "1").degree(), 39)
        with CoxeterGroup("A", 4, coef=1) as group:
            for call in (group.kazhdan_lusztig_polynomial, group.inverse_kazhdan_lusztig_polynomial, group.mu_coefficient):
                self.refused(32, call, "e", "1234321")
            for call in (group.kazhdan_lusztig_basis, group.extremal_pairs, group.intersection_betti_numbers):
                self.refused(32, call, "1234321")
            for call in (group.left_cells, group.right_cells, group.two_sided_cells, group.W_graph):
                self.refused(32, call)
            self.assertEqual(group.kazhdan_lusztig_polynomial("2", "2132"), [1, 1])
        with Program() as program:
            self.refused(15, program.ask, "length e")
            self.refused(13, program.ask, "type H 3")
            self.refused(15, program.ask, "length e")
            self.assertEqual(program.ask("type A 3"), [])
            self.refused(16, program.ask, "length 4")
            self.refused(13, program.ask, "type H 3")
            self.refused(14, program.ask, "matrix 2 5")
            self.assertEqual(program.ask("length 123"), ["3"])
            self.refused(19, program.ask, "\t")
            for blocks in ([[]] * 17, [["length 1"] * 501], [["length 1"] * 250, ["length 1"] * 251]):
                self.refused(35, program.ask_list, blocks)
                self.assertEqual(program.ask("length 123"), ["3"])
        self.assertEqual(self.seen, set(MEANINGS))

    def test_those_not_sent(self):
        """Lines that are refused without being sent have the numbers that the program gives them."""
        for number, line in [(18, "z" * 4097), (18, "\t" * 4097), (19, "\t"), (19, "a\x7f"), (19, "type A 3\tx"), (19, "é")]:
            with Program() as program:
                program.start()
                program._process.stdin.write(line.encode() + b"\n")
                program._process.stdin.flush()
                self.assertEqual(program._process.stdout.readline(), f"error {number}\n".encode())
                with self.assertRaises(Refusal) as caught:
                    program.ask(line)
                self.assertEqual(caught.exception.number, number)

    def test_messages(self):
        self.assertEqual(
            str(Refusal(16, "length 4")),
            "error 16: a word has a letter that the group doesn't have (the line was 'length 4')",
        )
        self.assertIn("doesn't know", str(Refusal(99, "length 4")))
        self.assertLess(len(str(Refusal(18, "z" * 10_000))), 400)


if __name__ == "__main__":
    unittest.main()
