"""Certificates, and the program that judges them."""
import concurrent.futures
import os
import pickle
import unittest
import unittest.mock

import fakes
import reference
from coxeter_shell import (
    CheckFailed,
    CoxeterGroup,
    Polynomial,
    ProgramError,
    ProgramNotFound,
    Refusal,
    UnexpectedAnswer,
    Verdict,
    check,
    find_program,
)

# P(x, 2132) in A 3 is 1 + q for the x below 2, and else 1: the Schubert variety of 3412 is singular along that of 1324.
SINGULAR = """\
cert 3 3 2 3
element 2132
rows 14
e:1+q
1:1
2:1+q
3:1
12:1
13:1
21:1
23:1
32:1
121:1
132:1
213:1
232:1
2132:1
end
"""


class Written(unittest.TestCase):
    """What the program writes."""

    def test_a_singular_one(self):
        with CoxeterGroup("A", 3) as group:
            for word in ("2132", "2312", [2, 3, 1, 2], (2, 1, 1, 1, 3, 2)):
                self.assertEqual(group.certificate(word), SINGULAR)

    def test_all_of_A_3(self):
        real = reference.group(3)
        with CoxeterGroup("A", 3) as group:
            for w, word in real.words.items():
                rows = [(group.text(real.words[x]), Polynomial(reference.polynomial(x, w))) for x in real if reference.below(x, w)]
                lines = ["cert 3 3 2 3", f"element {group.text(word)}", f"rows {len(rows)}", *(f"{x}:{p}" for x, p in rows), "end"]
                text = "".join(f"{line}\n" for line in lines)
                self.assertEqual(group.certificate(word), text)
                self.assertTrue(check(text))

    def test_dihedral_groups(self):
        # All polynomials are 1.
        for label, line in ((3, "cert 2 3"), (4, "cert 2 4"), (6, "cert 2 6"), (0, "cert 2 0")):
            with CoxeterGroup([[1, label], [label, 1]]) as group:
                self.assertEqual(group.certificate("12"), f"{line}\nelement 12\nrows 4\ne:1\n1:1\n2:1\n12:1\nend\n")
                self.assertEqual(group.certificate([]), f"{line}\nelement e\nrows 1\ne:1\nend\n")

    def test_of_rank_ten(self):
        with CoxeterGroup("A", 10) as group:
            first = "cert 10 3 2 2 2 2 2 2 2 2 3 2 2 2 2 2 2 2 3 2 2 2 2 2 2 3 2 2 2 2 2 3 2 2 2 2 3 2 2 2 3 2 2 3 2 3\n"
            self.assertEqual(group.certificate([10, 9]), f"{first}element 10.9\nrows 4\ne:1\n9:1\n10:1\n10.9:1\nend\n")

    def test_refusals(self):
        for kind, word, number in (([[1, 0], [0, 1]], "12" * 20, 34), ("A 2", "13", 16)):
            with CoxeterGroup(kind) as group, self.assertRaises(Refusal) as caught:
                group.certificate(word)
            self.assertEqual(caught.exception.number, number)
        with CoxeterGroup("A", 2, context=3) as group, self.assertRaises(Refusal) as caught:
            group.certificate("12")
        self.assertEqual(caught.exception.number, 31)

    def test_other_answers(self):
        right = SINGULAR.splitlines()
        with fakes.Fakes() as folder:
            wrong = [[], ["x"], right[:-1], [*right, "end"], right[:4], ["cert 3 3 3 3", *right[1:]], [right[0], "element 213", *right[2:]]]
            wrong += [[*right[:2], "rows 13", *right[3:]], [*right[:3], right[4], right[3], *right[5:]], [*right[:3], "e:q+1", *right[4:]]]
            for lines in wrong:
                with self.subTest(lines=lines), CoxeterGroup("A", 3, program=folder.saying(*lines)) as group:
                    with self.assertRaises(UnexpectedAnswer):
                        group.certificate("2132")
                    self.assertIsNone(group.program._process)


class Judged(unittest.TestCase):
    """What the checker says."""

    def test_yes(self):
        for text in (SINGULAR, SINGULAR.encode(), bytearray(SINGULAR.encode()), SINGULAR[:-1], SINGULAR.replace("\n", "\r\n")):
            said = check(text)
            self.assertTrue(said)
            self.assertEqual((said.ok, said.cause), (True, None))
        self.assertEqual(check(SINGULAR), Verdict(True, None, "its polynomials are the row of its element"))
        self.assertEqual(pickle.loads(pickle.dumps(said)), said)

    def test_each_cause(self):
        for cause, text in (
            (1, ""),
            (1, "é"),
            (1, "\udcff"),
            (1, SINGULAR[:-4]),
            (1, SINGULAR + "\n"),
            (1, SINGULAR.replace("1+q", "q+1")),
            (2, SINGULAR.replace("element 2132", "element 2312")),
            (2, SINGULAR.replace("element 2132", "element " + "1" * 40)),
            (3, SINGULAR.replace("12:1\n", "", 1).replace("14", "13")),
            (3, SINGULAR.replace("element 2132", "element 213")),
            (4, SINGULAR.replace("213:1", "213:2147483648")),
            (4, SINGULAR.replace("213:1", "213:1+q^40")),
            (5, SINGULAR.replace("213:1", "213:2147483647")),
            (5, SINGULAR.replace("1+q", "1")),
        ):
            with self.subTest(text=text):
                said = check(text)
                self.assertFalse(said)
                self.assertEqual((said.ok, said.cause), (False, cause))
                self.assertIn("it", said.meaning)

    def test_what_is_no_text(self):
        for value in (None, 7, ["cert 1"]):
            with self.assertRaises(TypeError):
                check(value)

    def test_too_much(self):
        with self.assertRaises(CheckFailed) as caught:
            check("z" * 17_000_000)
        self.assertEqual(caught.exception.status, 6)
        self.assertIn("16,777,216", str(caught.exception))

    def test_many_at_once(self):
        with concurrent.futures.ThreadPoolExecutor(8) as pool:
            said = list(pool.map(check, [SINGULAR, SINGULAR[:-1], SINGULAR + "\n"] * 20))
        self.assertEqual([it.ok for it in said], [True, True, False] * 20)

    def test_faults(self):
        with fakes.Fakes() as folder:
            for status in (2, 3, 4, 5, 6, 70, 99, -9):
                end = f"exit {status}" if status >= 0 else "kill -9 $$"
                with self.subTest(status=status), self.assertRaises(CheckFailed) as caught:
                    check(SINGULAR, program=folder.shell(f"cat >/dev/null; {end}"))
                self.assertEqual(caught.exception.status, status)
                self.assertIsInstance(caught.exception, ProgramError)
                self.assertEqual(str(pickle.loads(pickle.dumps(caught.exception))), str(caught.exception))

    def test_other_programs(self):
        with fakes.Fakes() as folder:
            wrong = ["true", "echo yes; exit 1", "echo no 5", "printf yes", "echo Yes"]
            wrong += [f"echo {it}; exit 1" for it in ("no 0", "no 6", "no")]
            for source in wrong:
                for before in ("", "cat >/dev/null; "):
                    with self.subTest(source=before + source), self.assertRaises(UnexpectedAnswer):
                        check(SINGULAR, program=folder.shell(before + source))
            # It may end before it has read all.
            early = folder.shell("echo no 1; exit 1")
            self.assertEqual(check("z" * 10_000_000, program=early).cause, 1)

    def test_not_found(self):
        with self.assertRaises(ProgramNotFound) as caught:
            check(SINGULAR, program="/nowhere/coxcheck")
        self.assertIn("/nowhere/coxcheck", str(caught.exception))
        with unittest.mock.patch.dict(os.environ, COXCHECK="/nowhere/else"), self.assertRaises(ProgramNotFound) as caught:
            check(SINGULAR)
        self.assertIn("COXCHECK", str(caught.exception))
        with fakes.Fakes() as folder:
            path = folder.shell("true")
            with open(path, "wb") as out:
                out.write(b"#!/nowhere\n")
            with self.assertRaises(ProgramNotFound):
                check(SINGULAR, program=path)

    def test_by_the_environment(self):
        with fakes.Fakes() as folder:
            fake = folder.shell("cat >/dev/null; echo no 4; exit 1")
            with unittest.mock.patch.dict(os.environ, COXCHECK=fake):
                self.assertEqual(find_program(name="coxcheck"), fake)
                self.assertEqual(check(SINGULAR).cause, 4)


if __name__ == "__main__":
    unittest.main()
