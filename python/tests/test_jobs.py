"""Lines in blocks: that each is answered as it is alone, however many they are, and programs that do something wrong."""
import io
import itertools
import pickle
import random
import unittest
import unittest.mock

import fakes
import reference
from coxeter_shell import (
    CoxeterGroup,
    JobRefusal,
    Program,
    ProgramClosed,
    ProgramEnded,
    Refusal,
    UnexpectedAnswer,
    progress,
)
from coxeter_shell.jobs import MOST_OF_LINES

# A stand-in that keeps lists, and does at their end what its own code says, with the lines as `kept`.
LISTS = """
import os, sys
def say(*lines):
    sys.stdout.write("".join(line + chr(10) for line in lines))
    sys.stdout.flush()
kept = None
for line in iter(sys.stdin.readline, ""):
    line = line.rstrip(chr(10))
    if kept is not None and line != "end":
        kept.append(line)
    elif line == "jobs":
        kept = []
    elif line == "end":
        if kept:
            {code}
        kept = None
    elif line == chr(9):
        say("error 19")
    elif line.split(" ")[0] not in ("type", ""):
        say("7")
"""

# Of each shape of answers one, and a line that is refused.
LINES = [
    "compute 2312",
    "descent 132",
    "interval 12 1232",
    "interval 12 21",
    "klbasis 2132",
    "extremals 2132",
    "cert 132",
    "module 2",
    "lcells",
    "lwgraph",
    "ihbetti 2132",
    "work 7 3",
    "",
    "   ",
    "length 4",
    "foo",
    "length",
    "rpol e 121321",
]


def alone(group, line):
    """The lines that a line is answered with alone, or the number of its refusal."""
    try:
        return group.ask(line)
    except Refusal as refusal:
        return refusal.number


def plain(answers):
    return [[it.number if isinstance(it, Refusal) else it for it in block] for block in answers]


class Answered(unittest.TestCase):
    def test_known_answers(self):
        """Lengths and polynomials of permutations, in blocks of all sizes."""
        real = reference.group(3)
        pairs = list(itertools.product(real, repeat=2))
        blocks, rest = [], iter(pairs)
        while sum(map(len, blocks)) < len(pairs):
            blocks.append(list(itertools.islice(rest, len(blocks) % 40)))
        with CoxeterGroup("A", 3) as group:
            text = {w: group.text(word) for w, word in real.words.items()}
            asked = [[f"pol {text[x]} {text[w]}" for x, w in block] for block in blocks]
            for block, answers in zip(blocks, group.jobs(asked)):
                found = [reference.polynomial(x, w) for x, w in block]
                self.assertEqual(len(answers), len(found))
                for [line], p in zip(answers, found):
                    self.assertEqual(line, plain_polynomial(p))

    def test_each_as_it_is_alone(self):
        random.seed(11)
        with CoxeterGroup("A", 3) as group, CoxeterGroup("A", 3, workers=2) as other:
            wanted = {line: alone(group, line) for line in LINES}
            self.assertEqual(sum(isinstance(it, int) for it in wanted.values()), 3)
            for _ in range(30):
                blocks = [random.choices(LINES, k=random.randrange(9)) for _ in range(random.randrange(20))]
                for it in (group, other):
                    answers = it.jobs(blocks)
                    self.assertEqual(plain(answers), [[wanted[line] for line in block] for block in blocks])
                    self.assertEqual(plain(it.iter_jobs(iter(map(iter, blocks)))), plain(answers))

    def test_many_lines(self):
        """More blocks and lines than a list of the program may have. A block may be in two lists."""
        with CoxeterGroup("A", 2) as group:
            for sizes in ([499], [500], [501], [500, 1], [499, 1], [0, 500, 0, 1], [1] * 16, [1] * 17, [1] * 33, [2000, 0, 3], [], [0]):
                words = itertools.cycle(["12", "e", "121", "3"])
                blocks = [[f"length {next(words)}" for _ in range(size)] for size in sizes]
                wanted = {"length 12": ["2"], "length e": ["0"], "length 121": ["3"], "length 3": 16}
                self.assertEqual(plain(group.jobs(blocks)), [[wanted[line] for line in block] for block in blocks])

    def test_so_much_is_sent_at_once(self):
        """As many blocks as there may be, and then as many lines."""
        with CoxeterGroup("A", 2) as group:
            for sizes, lists in [
                ([1] * 40, [[1] * 16, [1] * 16, [1] * 8]),
                ([MOST_OF_LINES - 1, 2, 3], [[MOST_OF_LINES - 1, 1], [1, 3]]),
                ([3, 0, 4], [[3, 4]]),
                ([0, 0], []),
            ]:
                with unittest.mock.patch.object(group.program, "ask_list", wraps=group.program.ask_list) as asked:
                    group.jobs([["length 1"] * size for size in sizes])
                self.assertEqual([list(map(len, call[0][0])) for call in asked.call_args_list], lists)

    def test_blocks_come_when_they_are_answered(self):
        with CoxeterGroup("A", 2) as group:
            blocks = [["length 1"]] * 17
            with unittest.mock.patch.object(group.program, "ask_list", wraps=group.program.ask_list) as asked:
                answers = group.iter_jobs(blocks)
                self.assertEqual(([next(answers) for _ in range(16)], asked.call_count), ([[["1"]]] * 16, 1))
                # Other questions may come between.
                self.assertEqual(group.length("121"), 3)
                self.assertEqual((list(answers), asked.call_count), ([[["1"]]], 2))

    def test_between_other_questions(self):
        with CoxeterGroup("A", 3) as group:
            cells = group.iter_left_cells()
            first = next(cells)
            self.assertEqual(group.jobs([["length 12"]]), [[["2"]]])
            self.assertEqual([first, *cells], group.left_cells())
            self.assertEqual(group.jobs([["foo"]])[0][0].number, 10)
            self.assertEqual(group.length("121"), 3)
            group.close()
            self.assertEqual(group.jobs([["length 12"]]), [[["2"]]])

    def test_the_group_stays(self):
        with CoxeterGroup("A", 3) as group:
            answers = group.jobs([["type A 4", "length 4"], ["matrix 2 0", "quit", "jobs", "length 3"], ["next 1", "end 1"]])
            self.assertEqual(plain(answers), [[10, 16], [10, 10, 10, ["1"]], [11, 11]])
            self.assertEqual(group.jobs([["length 4"]])[0][0].number, 16)

    def test_a_new_process_when_it_has_read_enough(self):
        with CoxeterGroup("A", 2) as group:
            pids = set()
            for _ in range(10):
                answers = group.jobs([[f"length 12{' ' * 4000}"] * MOST_OF_LINES])
                self.assertEqual(answers, [[["2"]] * MOST_OF_LINES])
                pids.add(group.program._process.pid)
            self.assertEqual(len(pids), 2)


def plain_polynomial(coefficients):
    """The text of a polynomial of S 4, whose coefficients are not negative."""
    powers = [("" if c == 1 and k else str(c)) + ("", "q")[k > 0] + (f"^{k}" if k > 1 else "") for k, c in enumerate(coefficients) if c]
    return "+".join(powers) or "0"


class Refused(unittest.TestCase):
    def test_where_they_are(self):
        with CoxeterGroup("A", 3) as group:
            answers = group.jobs([["length 12", "length 4"], [], ["foo", "pol 2 2132", "length 1\t", "length " + "1" * 5000, "é"]])
            self.assertEqual((answers[0][0], answers[2][1]), (["2"], ["1+q"]))
            numbers = [(it.block, it.index, it.number) for it in answers.refusals]
            self.assertEqual(numbers, [(0, 1, 16), (2, 0, 10), (2, 2, 19), (2, 3, 18), (2, 4, 19)])
            for it in answers.refusals:
                self.assertIs(answers[it.block][it.index], it)
                self.assertIsInstance(it, JobRefusal)
            first = answers.refusals[0]
            self.assertEqual(first.line, "length 4")
            self.assertEqual(str(first), f"error 16: {first.meaning} (the line was 'length 4', line 1 of block 0, both from 0)")
            again = pickle.loads(pickle.dumps(first))
            self.assertEqual((str(again), again.block, again.index, again.number), (str(first), 0, 1, 16))
            self.assertEqual(group.jobs([["length 12"]]).refusals, [])

    def test_those_of_many_lists(self):
        with CoxeterGroup("A", 3) as group:
            blocks = [["length 12"] * 3 for _ in range(300)]
            for b, k in ((0, 0), (16, 2), (160, 1), (299, 2)):
                blocks[b][k] = "length 5"
            self.assertEqual([(it.block, it.index) for it in group.jobs(blocks).refusals], [(0, 0), (16, 2), (160, 1), (299, 2)])

    def test_what_is_no_block(self):
        with CoxeterGroup("A", 3) as group:
            for blocks in (["length 1"], [[1]], [["length 1", None]], [[["length 1"]]], 3, [3]):
                with self.assertRaises((TypeError, AttributeError)):
                    group.jobs(blocks)
            for line in ("next", "end", " end ", "next  "):
                with self.assertRaises(ValueError):
                    group.jobs([["length 1", line]])
                with self.assertRaises(ValueError):
                    group.program.ask_list([["length 1", line]])
            self.assertEqual(group.length("1"), 1)

    def test_lists_of_a_program(self):
        with Program() as program:
            with self.assertRaises(Refusal) as caught:
                program.ask_list([["length 1"]])
            self.assertEqual((caught.exception.number, caught.exception.line), (15, "jobs"))
            program.ask("type A 3")
            self.assertEqual(program.ask_list([["length 1"], [], ["foo", "coatoms 121"]]), [[["1"]], [], [["error 10"], ["2", "12", "21"]]])
            self.assertEqual((program.ask_list([]), program.ask_list([[]] * 16)), ([], [[]] * 16))
            for blocks in ([[]] * 17, [["length 1"] * 501], [["length 1"] * 250, ["length 1"] * 251]):
                with self.assertRaises(Refusal) as caught:
                    program.ask_list(blocks)
                self.assertEqual((caught.exception.number, caught.exception.line), (35, "jobs"))
            for line, number in (("\t", 19), ("1" * 4097, 18)):
                with self.assertRaises(Refusal) as caught:
                    program.ask_list([["length 1", line]])
                self.assertEqual(caught.exception.number, number)
            self.assertEqual(program.ask("length 123"), ["3"])

    def test_a_list_that_is_opened_by_hand(self):
        """It would not be answered before its end."""
        with CoxeterGroup("A", 3) as group:
            for line in ("jobs", " jobs "):
                with self.assertRaises(ValueError):
                    group.ask(line)
            for line, number in (("jobs 1", 11), ("next", 10), ("end", 10)):
                with self.assertRaises(Refusal) as caught:
                    group.ask(line)
                self.assertEqual(caught.exception.number, number)


class Wrong(unittest.TestCase):
    """Programs without lists, and programs that answer them wrongly or die."""

    def setUp(self):
        self.folder = fakes.Fakes()
        self.addCleanup(self.folder.folder.cleanup)

    def lists(self, code):
        return CoxeterGroup("A", 3, program=self.folder.python(LISTS.format(code=code)))

    def test_a_stand_in(self):
        with self.lists("say(*('error 19' if it == chr(9) else '7' for it in kept if it != 'next'))") as group:
            self.assertEqual(group.jobs([["length 1"], ["length 2", "length 3"]]), [[["7"]], [["7"], ["7"]]])

    def test_blocks_are_blocks_of_the_program(self):
        """The stand-in answers the number of the block that a line is in."""
        number = "sum(line == 'next' for line in kept[:at])"
        with self.lists(f"say(*('error 19' if it == chr(9) else str({number}) for at, it in enumerate(kept) if it != 'next'))") as group:
            blocks = [["length 1"], ["length 2", "length 3"], [], ["length 1"]]
            self.assertEqual(group.program.ask_list(blocks), [[["0"]], [["1"], ["1"]], [], [["3"]]])
            self.assertEqual(group.jobs(blocks), [[["0"]], [["1"], ["1"]], [], [["2"]]])

    def test_without_lists(self):
        """Such a program answers each line at once. Many long lines would fill both pipes."""
        with CoxeterGroup("A", 3, program=self.folder.fake("say('error 10')")) as group:
            for _ in range(2):
                with self.assertRaises(Refusal) as caught:
                    group.jobs([["length 1" + " " * 4000] * 400])
                self.assertEqual((caught.exception.number, caught.exception.line), (10, "jobs"))
        with CoxeterGroup("A", 3, program=self.folder.fake("say('3')")) as group, self.assertRaises(UnexpectedAnswer) as caught:
            group.jobs([["length 1"]])
        self.assertIn("nothing should have come", str(caught.exception))

    def test_smaller_limits(self):
        """The list as a whole is refused, and no mark is answered in it."""
        with self.lists("say('error 35')") as group:
            for _ in range(2):
                with self.assertRaises(Refusal) as caught:
                    group.jobs([["length 1", "length 2"], ["length 3"]])
                self.assertEqual((caught.exception.number, caught.exception.line), (35, "jobs"))
                self.assertEqual(group.length("1"), 7)

    def test_wrong_answers(self):
        for code, why in [
            ("say('1', 'error 19', '1', 'error 19', '1')", "as many answers as lines"),
            ("say('error 1', 'error 19', '1', 'error 19')", "one line"),
            ("say('error 16', '1', 'error 19', '1', 'error 19')", "one line"),
            ("say('1', 'error 19', chr(7), 'error 19')", "printing ASCII"),
        ]:
            with self.subTest(code), self.lists(code) as group:
                with self.assertRaises(UnexpectedAnswer) as caught:
                    group.jobs([["length 1"], ["length 2"]])
                self.assertIn(why, str(caught.exception))
                self.assertIsNone(group.program._process)

    def test_that_dies(self):
        for code, status in (("sys.exit(5)", 5), ("say('1', 'error 19', '1'); os._exit(4)", 4), ("os.kill(os.getpid(), 9)", -9)):
            with self.subTest(code), self.lists(code) as group:
                for _ in range(2):
                    with self.assertRaises(ProgramEnded) as caught:
                        group.jobs([["length 1"], ["length 2"]])
                    self.assertEqual((caught.exception.status, caught.exception.line), (status, "jobs"))
                    self.assertIsNone(group.program._process)

    def test_an_iterator_before_a_list_that_fails(self):
        with self.lists("os._exit(5)") as group:
            cells = group.program.stream("lcells")
            with self.assertRaises(ProgramEnded):
                group.jobs([["length 1"]])
            self.assertEqual(list(cells), ["7"])
        with self.lists("say('1')") as group:
            cells = group.program.stream("lcells")
            group.close()
            with self.assertRaises(ProgramClosed):
                list(cells)


class Shown(unittest.TestCase):
    def test_by_blocks(self):
        with CoxeterGroup("A", 3, progress=True) as group:
            for name, value in (("DELAY", 0), ("PAUSE", 0), ("WAIT", 100), ("new_bar", progress.Count)):
                patch = unittest.mock.patch.object(progress, name, value)
                patch.start()
                self.addCleanup(patch.stop)
            with unittest.mock.patch("sys.stderr", io.StringIO()) as out:
                self.assertEqual(len(group.jobs([["length 1"]] * 3)), 3)
            self.assertEqual(out.getvalue().split("\r")[1:4], ["jobs: 1 of 3", "jobs: 2 of 3", "jobs: 3 of 3"])
        with CoxeterGroup("A", 3, progress=False) as group, unittest.mock.patch("sys.stderr", io.StringIO()) as out:
            group.jobs([["length 1"]] * 3)
            self.assertEqual(out.getvalue(), "")


if __name__ == "__main__":
    unittest.main()
