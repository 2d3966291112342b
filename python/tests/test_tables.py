"""Tables of rows: as CSV, and in a file that is written row by row and goes on after a stop."""
import concurrent.futures
import csv
import io
import os
import pickle
import subprocess
import sys
import tempfile
import unittest
import unittest.mock
import warnings

import fakes
import reference
from coxeter_shell import (
    CheckFailed,
    CoxeterGroup,
    KazhdanLusztigTable,
    Polynomial,
    Program,
    Unanswered,
    UnexpectedAnswer,
    find_program,
    provenance,
)

# Makes a table in a file, and kills itself after so many rows were written.
STOPPED = """
import os, signal, sys
from coxeter_shell import CoxeterGroup, rowfile
path, rows = sys.argv[1], int(sys.argv[2])
write = rowfile.RowFile.write
def stopped(self, w, row, origin):
    global rows
    if not rows:
        # A part of a row comes into the file, and not its end.
        self.file.write(b"121321,e,1+q\\n121321,1")
        self.file.flush()
        os.kill(os.getpid(), signal.SIGKILL)
    rows -= 1
    write(self, w, row, origin)
rowfile.RowFile.write = stopped
with CoxeterGroup("A", 3) as group:
    group.kazhdan_lusztig_table(path=path)
"""


def lines_of(n):
    """The lines of the table of all rows of S n+1, by the reference."""
    real = reference.group(n)
    found = ["w,x,polynomial"]
    for w, word in real.words.items():
        for x in real:
            if reference.below(x, w):
                text = ["".join(map(str, it)) or "e" for it in (word, real.words[x])]
                found.append(",".join([*text, str(Polynomial(reference.polynomial(x, w)))]))
    return found


class Csv(unittest.TestCase):
    def test_a_line_for_each_pair(self):
        with CoxeterGroup("A", 3) as group:
            table = group.kazhdan_lusztig_table()
            self.assertIsInstance(table, KazhdanLusztigTable)
            self.assertEqual(table.to_csv().splitlines(), lines_of(3))
            rows = list(csv.reader(io.StringIO(table.to_csv())))
            self.assertEqual({len(row) for row in rows}, {3})
            self.assertIn(["2132", "2", "1+q"], rows)

    def test_frames_and_notebooks(self):
        with CoxeterGroup("A", 2) as group:
            table = group.kazhdan_lusztig_table(["12"])
            with unittest.mock.patch.dict(sys.modules, {"pandas": unittest.mock.MagicMock()}) as modules:
                table.to_frame()
                (rows,), names = modules["pandas"].DataFrame.call_args
            self.assertEqual((rows[0], len(rows), names), (((1, 2), (), 1), 4, {"columns": ["w", "x", "polynomial"]}))
            text = table._repr_html_()
            self.assertIn("<tr><td>12</td><td>e</td><td>1</td></tr>", text)
            self.assertNotIn("{", text)
            again = pickle.loads(pickle.dumps(table))
            self.assertEqual((again, type(again), again.to_csv()), (table, KazhdanLusztigTable, table.to_csv()))


class Files(unittest.TestCase):
    def setUp(self):
        folder = tempfile.TemporaryDirectory()
        self.addCleanup(folder.cleanup)
        self.path = os.path.join(folder.name, "rows.csv")

    def text(self):
        with open(self.path, encoding="ascii") as made:
            return made.read()

    def lines(self):
        """The lines below the first, which names the group, without those that say where rows come from."""
        first, *others = self.text().splitlines()
        self.assertEqual(first, "# type A 3")
        return sorted(it for it in others if not it.startswith("# program "))

    def write(self, text):
        with open(self.path, "w", encoding="ascii") as out:
            out.write(text)

    def test_written_and_read(self):
        with CoxeterGroup("A", 3) as group:
            table = group.kazhdan_lusztig_table(path=self.path)
            self.assertEqual(self.lines(), sorted(lines_of(3)))
            self.assertEqual(table, group.kazhdan_lusztig_table())
            # All rows are there: none is asked for.
            with unittest.mock.patch.object(group, "kazhdan_lusztig_basis", side_effect=AssertionError):
                again = group.kazhdan_lusztig_table(path=self.path)
                self.assertEqual((again, list(again)), (table, list(table)))
                self.assertIs(again["2132"].group, group)
                some = group.kazhdan_lusztig_table(["2312", "1"], path=self.path)
            self.assertEqual(some, {w: table[w] for w in [(2, 1, 3, 2), (1,)]})
            self.assertEqual(self.lines(), sorted(lines_of(3)))

    def test_goes_on_after_a_stop(self):
        """Python is killed in the middle of a row. The rows before it are not asked for again, and those after it are."""
        for rows in (0, 1, 7):
            with self.subTest(rows=rows):
                ended = subprocess.run([sys.executable, "-c", STOPPED, self.path, str(rows)], env={**os.environ}, cwd=sys.path[0])
                self.assertEqual(ended.returncode, -9)
                self.assertTrue(self.text().endswith("\n121321,1"))
                with CoxeterGroup("A", 3) as group:
                    with unittest.mock.patch.object(group, "kazhdan_lusztig_basis", wraps=group.kazhdan_lusztig_basis) as asked:
                        table = group.kazhdan_lusztig_table(path=self.path)
                    self.assertEqual((asked.call_count, table), (24 - rows, group.kazhdan_lusztig_table()))
                self.assertEqual(self.lines(), sorted(lines_of(3)))
                os.remove(self.path)

    def test_a_head_that_was_cut_off(self):
        whole = "# type A 1\nw,x,polynomial\n1,e,1\n"
        for size in range(len(whole) + 1):
            self.write(whole[:size])
            with CoxeterGroup("A", 1) as group:
                group.kazhdan_lusztig_table(path=self.path)
            made_by = f"# program {Program().provenance().sha256}, not checked\n"
            self.assertEqual(self.text(), f"# type A 1\nw,x,polynomial\n{made_by}e,e,1\n1,e,1\n1,1,1\n")

    def test_rows_come_when_they_are_answered(self):
        """Each row is in the file when the next is asked for, whatever executor asks."""
        for executor in (None, concurrent.futures.ThreadPoolExecutor(1)):
            with CoxeterGroup("A", 3) as group:
                seen = []
                write = unittest.mock.patch("coxeter_shell.rowfile.RowFile.write", autospec=True, side_effect=self.noted(seen))
                with write:
                    group.kazhdan_lusztig_table(path=self.path, executor=executor)
                self.assertEqual(seen, list(range(1, 25)))
            os.remove(self.path)

    def noted(self, seen):
        from coxeter_shell.rowfile import RowFile

        real = RowFile.write

        def write(file, w, row, origin):
            real(file, w, row, origin)
            lines = [it for it in self.text().splitlines()[2:] if it[0] != "#"]
            seen.append(sum(line.split(",")[0] == line.split(",")[1] for line in lines))

        return write

    def test_other_files_are_left(self):
        with CoxeterGroup("A", 2) as group:
            head = "# type A 2\nw,x,polynomial\n"
            for text, why in [
                ("my notes\n", "line 1"),
                ("my notes", "line 1"),
                ("# notes\n", "line 1"),
                ("# type A 2\n1,e,1\n", "line 2"),
                (head + "1,e\n", "line 3"),
                (head + "e,e,1\ne,e,1\n", "line 4: its row is there twice"),
                (head + "1,e,1+\n", "line 3"),
                (head + "1,3,1\n", "line 3"),
                (head + "12,2,1\n12,1,1\n12,12,1\n", "line 5: the elements should be in ShortLex order"),
                ("# type B 2\nw,x,polynomial\n", "another group: 'type B 2'"),
                ("# matrix 2 4\nw,x,polynomial\n", "another group: 'matrix 2 4'"),
            ]:
                self.write(text)
                with self.subTest(text), self.assertRaises(ValueError) as caught:
                    group.kazhdan_lusztig_table(path=self.path)
                self.assertIn(why, str(caught.exception))
                self.assertEqual(self.text(), text)
            self.write("# matrix 2 3\nw,x,polynomial\n1,e,1\n1,1,1\n")
            self.assertEqual(len(group.kazhdan_lusztig_table(["12"], path=self.path)), 1)

    def test_one_at_a_time(self):
        from coxeter_shell.rowfile import RowFile

        with CoxeterGroup("A", 1) as group:
            with RowFile(group, self.path), self.assertRaises(OSError) as caught:
                group.kazhdan_lusztig_table(path=self.path)
            self.assertIn("another table", str(caught.exception))
            self.assertEqual(len(group.kazhdan_lusztig_table(path=self.path)), 2)

    def test_given_up_behind_all_others(self):
        """A row whose program is killed each time is given up. The others are there, and the error says which is not."""
        for make in (lambda: None, lambda: concurrent.futures.ThreadPoolExecutor(2)):
            with fakes.Fakes() as folder, CoxeterGroup("A", 3, program=folder.killed_by("klbasis 2132", 99, find_program())) as group:
                with self.assertRaises(Unanswered) as caught:
                    group.kazhdan_lusztig_table(executor=make(), path=self.path)
                error = caught.exception
                self.assertEqual((error.words, len(error.table)), ([(2, 1, 3, 2)], 23))
                self.assertIn("no rows of 1 elements", str(error))
                self.assertIn("2132", str(error))
                self.assertEqual(self.lines(), sorted(it for it in lines_of(3) if not it.startswith("2132,")))
                self.assertEqual(str(pickle.loads(pickle.dumps(error))), str(error))
            # Where it is killed twice alone, it is answered.
            with fakes.Fakes() as folder, CoxeterGroup("A", 3, program=folder.killed_by("klbasis 2132", 2, find_program())) as group:
                self.assertEqual(len(group.kazhdan_lusztig_table(executor=make(), path=self.path)), 24)
            self.assertEqual(self.lines(), sorted(lines_of(3)))
            os.remove(self.path)

    def test_certified(self):
        with CoxeterGroup("A", 2) as group:
            table = group.kazhdan_lusztig_table(path=self.path, certified=True)
            self.assertEqual((table, len(self.text().splitlines())), (group.kazhdan_lusztig_table(), 22))
            sums = Program().provenance().sha256, provenance.provenance(find_program(name="coxcheck")).sha256
            self.assertIn("# program {}, checked by {}\n".format(*sums), self.text())
            self.assertEqual(set(KazhdanLusztigTable.read(self.path).origins.values()), {sums})

    def test_rows_of_a_file_are_checked(self):
        """With `certified` they are, as all others are: by what each row has, and by the checker."""
        with CoxeterGroup("A", 3) as group:
            right = group.kazhdan_lusztig_table(path=self.path)
            self.write(self.text().replace("2132,2,1+q\n", "2132,2,1+7q\n"))
            changed = self.text()
            self.assertEqual(group.kazhdan_lusztig_table(path=self.path)["2132"]["2"], [1, 7])
            with self.assertRaises(CheckFailed), fakes.Fakes() as folder:
                group.kazhdan_lusztig_table(path=self.path, certified=True, checker=folder.shell("exit 5"))
            self.assertEqual(self.text(), changed)
            with self.assertWarnsRegex(RuntimeWarning, "the rows of 1 elements are asked for anew: 2132"):
                with unittest.mock.patch.object(group, "certificate", wraps=group.certificate) as asked:
                    self.assertEqual(group.kazhdan_lusztig_table(path=self.path, certified=True), right)
            self.assertEqual([call[0] for call in asked.call_args_list], [((2, 1, 3, 2),)])
            self.assertEqual(self.lines(), sorted(lines_of(3)))
            # The file says of which rows it was checked.
            found = KazhdanLusztigTable.read(self.path)
            self.assertEqual([w for w, origin in found.origins.items() if origin.checker], [(2, 1, 3, 2)])
            self.assertEqual(found, right)
            # A checker that says no to all has them asked for anew, and accepts none of these either.
            with self.assertWarns(RuntimeWarning), self.assertRaises(UnexpectedAnswer), fakes.Fakes() as folder:
                group.kazhdan_lusztig_table(path=self.path, certified=True, checker=folder.shell("cat >/dev/null; echo no 5; exit 1"))

    def test_lines_are_wanted(self):
        """Of a file without one of its lines no row is used that isn't whole."""
        with CoxeterGroup("A", 3) as group:
            right = group.kazhdan_lusztig_table(path=self.path)
            lines = self.text().splitlines(keepends=True)
            for number in sorted({*range(4), *range(4, len(lines), 4), len(lines) - 1}):
                self.write("".join(lines[:number] + lines[number + 1 :]))
                of = lines[number].split(",")[0]
                with self.subTest(lines[number]), warnings.catch_warnings(record=True) as said:
                    warnings.simplefilter("always")
                    if number < 2:
                        with self.assertRaises(ValueError):
                            group.kazhdan_lusztig_table(path=self.path)
                        continue
                    if of[0] == "#":
                        self.assertEqual(set(KazhdanLusztigTable.read(self.path).origins.values()), {None})
                    elif number + 1 < len(lines) and of != "e" and number % 20 == 0:
                        with self.assertRaisesRegex(ValueError, "is damaged"):
                            KazhdanLusztigTable.read(self.path)
                    self.assertEqual(group.kazhdan_lusztig_table(path=self.path), right)
                    told = [str(it.message).rpartition(" ")[2] for it in said]
                    # A row that is missing as a whole, or has no end at the end of the file, is as after a stop.
                    self.assertEqual(told, [] if of[0] == "#" or of == "e" or number + 1 == len(lines) else [of])
                self.assertEqual(self.lines(), sorted(lines_of(3)))
                self.assertEqual(os.listdir(os.path.dirname(self.path)), ["rows.csv"])

    def test_polynomials_that_cannot_be(self):
        with CoxeterGroup("A", 3) as group:
            right = group.kazhdan_lusztig_table(path=self.path)
            whole = self.text()
            for old, new in (("2132,2132,1", "2132,2132,1+q"), ("2132,2,1+q", "2132,2,0"), ("2132,2,1+q", "2132,2,1+q+q^2"), ("121,1,1", "121,1,2")):
                self.write(whole.replace(f"\n{old}\n", f"\n{new}\n"))
                self.assertNotEqual(self.text(), whole)
                with self.assertWarns(RuntimeWarning):
                    self.assertEqual(group.kazhdan_lusztig_table(path=self.path), right)
                self.assertEqual(self.lines(), sorted(lines_of(3)))

    def test_files_that_are_none(self):
        """Such as have no end, or are no files."""
        with CoxeterGroup("A", 3) as group:
            os.mkfifo(self.path)
            for path in ("/dev/full", "/dev/zero", "/dev/null", self.path):
                for call in (lambda path: group.kazhdan_lusztig_table(path=path), KazhdanLusztigTable.read):
                    with self.assertRaisesRegex(ValueError, "no regular file"):
                        call(path)
            with self.assertRaises(OSError):
                group.kazhdan_lusztig_table(path=os.path.dirname(self.path))

    def test_read(self):
        with CoxeterGroup("A", 10) as group:
            table = group.kazhdan_lusztig_table(["2.1", "2.10", "10.9.10"], path=self.path)
        found = KazhdanLusztigTable.read(self.path, context=100)
        self.assertEqual((found, found.group, type(found)), (table, group, KazhdanLusztigTable))
        self.assertEqual(list(found), [(2, 1), (2, 10), (9, 10, 9)])
        self.assertEqual((found.group.program.options, found.to_csv()), ({"context": 100}, table.to_csv()))
        # A row that is being written is left out.
        self.write(self.text() + "3,e,1\n3,3")
        self.assertEqual(KazhdanLusztigTable.read(self.path), table)
        for text in ("", "# type A 3", "w,x,polynomial\n", "my notes\n", "# type A 3\nx,y\n"):
            self.write(text)
            with self.assertRaisesRegex(ValueError, "no table of this kind"):
                KazhdanLusztigTable.read(self.path)

    def test_origins(self):
        """A file that goes on with another program names both."""
        with CoxeterGroup("A", 2) as group, fakes.Fakes() as folder:
            group.kazhdan_lusztig_table(["1"], path=self.path)
            other = folder.shell(f"exec '{find_program()}' \"$@\"")
            with CoxeterGroup("A", 2, program=other) as again, concurrent.futures.ThreadPoolExecutor(1) as executor:
                again.kazhdan_lusztig_table(["2"], path=self.path)
                again.kazhdan_lusztig_table(["12", "21"], path=self.path, executor=executor)
                sums = [it.program.checksum() for it in (group, again)]
            found = KazhdanLusztigTable.read(self.path).origins
            self.assertEqual([found[w].program for w in ((1,), (2,), (1, 2), (2, 1))], [sums[0], sums[1], sums[1], sums[1]])
            self.assertEqual({it.checker for it in found.values()}, {None})


class Plain(unittest.TestCase):
    """What comes of certificates, between workers and here."""

    def test_bytes_alone(self):
        with CoxeterGroup("A", 2) as group:
            seen = []

            class Watched(concurrent.futures.ThreadPoolExecutor):
                def submit(self, call, *arguments):
                    future = super().submit(call, *arguments)
                    seen.append(future)
                    return future

            with Watched(2) as executor:
                table = group.kazhdan_lusztig_table(executor=executor, certified=True, chunksize=2)
            self.assertEqual((len(table), {type(it.result()) for it in seen}), (6, {bytes}))

    def test_errors_and_what_is_none(self):
        from coxeter_shell.many import Certificates

        group = CoxeterGroup("A", 2)
        what = Certificates(group)
        self.assertEqual(what.read(b'{"certificates": ["a", "b"]}', 2), ["a", "b"])
        for sent, error in [
            (what.work(group, [("3",)], ""), "error 16"),
            (b'{"ended": "cert 1", "status": -9}', "signal 9"),
            (b'{"ended": "cert 1", "status": null}', "had to be stopped"),
            (b'{"error": "OSError: 3"}', "a worker failed: OSError: 3"),
        ]:
            with self.assertRaises(Exception) as caught:
                what.read(sent, 1)
            self.assertIn(error, str(caught.exception))
        for sent in [
            None,
            "{}",
            pickle.dumps(3),
            b"",
            b"[" * 100000,
            b"[]",
            b"{}",
            b'{"certificates": ["a"]}',
            b'{"certificates": ["a", 1]}',
            b'{"certificates": "ab"}',
            b'{"refused": 3, "number": "x"}',
            b'{"ended": "cert 1", "status": "-9"}',
        ]:
            with self.subTest(sent=sent), self.assertRaises(Exception) as caught:
                what.read(sent, 2)
            self.assertIn("something else than the results of 2 questions", str(caught.exception))


if __name__ == "__main__":
    unittest.main()
