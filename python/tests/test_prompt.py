"""The prompt, at a terminal and in pipes."""
import os
import re
import subprocess
import sys
import tempfile
import time
import unittest
import unittest.mock

import fakes
import patience
import terminals
from coxeter_shell import CoxeterGroup, Refusal, diagrams, find_program, kinds
from coxeter_shell.documents import read_document
from coxeter_shell import prompt, prompt_editing, prompt_help, prompt_package, prompt_words

TOP = os.path.dirname(os.path.dirname(os.path.dirname(os.path.abspath(__file__))))
REMARK = r"^-- made by the package from answers of the program, not proved\n"


def document(name):
    with open(os.path.join(TOP, name), encoding="utf-8") as text:
        return text.read()


def at_prompt(*words, **more):
    return terminals.Terminal("-m", "coxeter_shell", *words, **more)


def piped(script, *words, program=None):
    """The exit status, standard output and standard error of the prompt where the script comes through a pipe."""
    environment = {**os.environ, **({"COXETER": program} if program else {})}
    words = [sys.executable, "-m", "coxeter_shell", *words]
    ran = subprocess.run(words, input=script.encode("utf-8", "surrogateescape"), capture_output=True, env=environment, timeout=300)
    return ran.returncode, ran.stdout.decode(), ran.stderr.decode()


# It runs the prompt in a group of processes of its own, as shells do. Where it is stopped, it says whether the terminal shows what is typed and
# gives lines; and lets it go on after a line.
JOB_CONTROL = """
import os, signal, sys, termios
signal.signal(signal.SIGTTOU, signal.SIG_IGN)
child = os.fork()
if child == 0:
    os.setpgid(0, 0)
    os.tcsetpgrp(0, os.getpid())
    signal.signal(signal.SIGTTOU, signal.SIG_DFL)
    os.execv(sys.executable, [sys.executable, "-m", "coxeter_shell"])
while True:
    _, status = os.waitpid(child, os.WUNTRACED)
    if not os.WIFSTOPPED(status):
        sys.exit(os.WEXITSTATUS(status))
    os.tcsetpgrp(0, os.getpid())
    modes = termios.tcgetattr(0)[3]
    print("stopped:", bool(modes & termios.ECHO), bool(modes & termios.ICANON), flush=True)
    input()
    os.tcsetpgrp(0, child)
    os.kill(child, signal.SIGCONT)
"""


class AtTerminal(unittest.TestCase):
    def ask(self, terminal, line):
        """What is shown behind a line, up to the next prompt."""
        terminal.type(f"{line}\n")
        terminal.expect(re.escape(line) + "\n")
        return terminals.TOOK.sub("", terminal.expect("^[^ >\n][^>\n]*> "))

    def test_transcripts_of_the_documents(self):
        tried = 0
        for name in ("README.md", "docs/MANUAL.md", "docs/EXAMPLES.md"):
            for text in re.findall("^```prompt\n(.*?)^```$", document(name), re.M | re.S):
                tried += 1
                lines = [line.partition("> ")[2] for line in text.splitlines() if re.match("[a-zA-Z][ a-zA-Z0-9.]*> ", line)]
                with at_prompt() as terminal:
                    terminal.expect("^coxeter> ")
                    for line in lines:
                        terminal.type(f"{line}\n")
                        terminal.expect(re.escape(line) + "\n")
                        if line != "q":
                            terminal.expect("^[a-zA-Z][ a-zA-Z0-9.]*> ")
                    if lines[-1] != "q":
                        terminal.type("q\n")
                    self.assertEqual(terminal.ended(), 0)
                    shown = terminals.TOOK.sub("", terminal.shown[terminal.shown.index("coxeter> ") :])
                    self.assertEqual(shown if lines[-1] == "q" else shown[: shown.rindex("\n", 0, -1) + 1], text, name)
        self.assertGreaterEqual(tried, 4)

    def test_prompt_and_end(self):
        for end, status in (("q\n", 0), ("qq\n", 0), ("quit\n", 0), ("\x04", 0), ("pol\nq\n", 0)):
            with at_prompt() as terminal:
                terminal.expect("^Coxeter groups by the program coxeter.*not.\n^help lists.*\n^coxeter> ")
                terminal.type(end)
                self.assertEqual(terminal.ended(), status, end)
        with at_prompt() as terminal:
            terminal.expect("coxeter> ")
            for line, name in (("type a 3", "a 3"), ("matrix 3 3 2 4", "matrix 3 3 2 4"), ("matrix 16" + " 2" * 120, "matrix 16 ..")):
                terminal.type(f"{line}\n")
                terminal.expect(f"^{re.escape(name)}> ")
            self.assertEqual(self.ask(terminal, "rank"), "16\n")

    @unittest.skipIf(prompt_editing.readline is None, "Python has no readline")
    def test_arrow_keys_and_history(self):
        with tempfile.TemporaryDirectory() as folder:
            history = os.path.join(folder, "history")
            with at_prompt(COXETER_HISTORY=history) as terminal:
                terminal.expect("coxeter> ")
                self.ask(terminal, "type A 3")
                self.assertEqual(self.ask(terminal, "length 123"), "3\n")
                # Up, left, and a letter more.
                terminal.type("\x1b[A\x1b[D1\n")
                terminal.expect("^4\nA 3> ")
                terminal.type("q\n")
                self.assertEqual(terminal.ended(), 0)
                self.assertNotIn("error", terminal.shown)
            with open(history, encoding="utf-8") as kept:
                self.assertEqual(kept.read().split("\n"), ["type A 3", "length 123", "length 1213", "q", ""])
            with at_prompt(COXETER_HISTORY=history) as terminal:
                terminal.expect("coxeter> ")
                terminal.type("\x1b[A\x1b[A\x1b[A\x1b[A\n")
                terminal.expect("A 3> ")
                terminal.type("\x1b[A\x1b[A\x1b[A\n")
                terminal.expect("^4\nA 3> ")
            with at_prompt(COXETER_HISTORY=os.path.join(folder, "no", "such", "folder")) as terminal:
                terminal.expect("coxeter> ")
                terminal.type("\x04")
                self.assertEqual(terminal.ended(), 0)

    def test_without_readline(self):
        """The keys send sequences, which are left out."""
        with tempfile.TemporaryDirectory() as folder:
            with open(os.path.join(folder, "readline.py"), "w", encoding="ascii") as out:
                out.write("raise ImportError\n")
            path = os.pathsep.join(filter(None, [folder, os.environ.get("PYTHONPATH")]))
            with at_prompt(PYTHONPATH=path) as terminal:
                terminal.expect("coxeter> ")
                terminal.type("type A 3\n")
                terminal.expect("A 3> ")
                terminal.type("\x1b[A\x1b[Dlength 1\x1bOC2\n")
                terminal.expect("^2\nA 3> ")

    @unittest.skipIf(prompt_editing.readline is None, "Python has no readline")
    def test_completion(self):
        with at_prompt() as terminal:
            terminal.expect("coxeter> ")
            terminal.type("ty\tF\t4\n")
            terminal.expect("^F 4> ")
            terminal.type("type \t\t")
            terminal.expect("A +B +C +D +E +F +G +a +b +c +d +e +f +g")
            terminal.type("E \t\t")
            terminal.expect("6 +7 +8")
            terminal.type("6\n")
            terminal.expect("^E 6> ")
            terminal.type("type f\t4\n")
            terminal.expect("^f 4> ")
            terminal.type("type A 1 \tA\t1\n")
            terminal.expect("type A 1 x A 1\n")
            terminal.expect("^A 1 x A 1> ")
            terminal.type("type C 6\n")
            terminal.expect("^C 6> ")
            terminal.type("ihb\t13\n")
            terminal.expect("ihbetti 13\n1 2 1\nC 6> ")
            terminal.type("help slo\t\n")
            terminal.expect("help slocus ?\n")
            terminal.expect("^C 6> ")

    def test_page_by_page(self):
        with at_prompt(rows=10, columns=60) as terminal:
            terminal.expect("coxeter> ")
            self.ask(terminal, "type A 4")
            cells = subprocess.run([find_program()], input=b"type A 4\nlcells\n", stdout=subprocess.PIPE, check=True).stdout.decode()
            terminal.type("lcells\n")
            terminal.expect("lcells\n")
            first = terminal.expect("-- 8 of 26; space: the next page, a: all, q: no more --")
            terminal.type(" ")
            second = terminal.expect("-- 17 of 26; space")
            terminal.type("a")
            rest = terminal.expect(r"^-- 26 items, \d+\.\d s\nA 4> ")
            shown = "".join(re.sub(".*\r *\r", "", it) for it in (first, second, rest))
            self.assertEqual(shown, cells)
            terminal.type("lcells\n")
            terminal.expect("-- 8 of 26; ")
            for stop in ("q", "\x1b", "\x03"):
                terminal.type(stop)
                terminal.expect("A 4> ")
                self.assertEqual(self.ask(terminal, "length 12"), "2\n")
                # The remark on the word takes a row of the first page.
                terminal.type("klbasis *\n")
                terminal.expect("^-- \\* by the package.*\n120\n")
                terminal.expect("-- 7 of 120; ")
            # What is typed ahead is no answer to the question whether to go on.
            terminal.type("a")
            terminal.expect(r"^-- 120 items, .*\nA 4> ")

    def test_a_line_that_is_longer_than_a_page(self):
        with fakes.Fakes() as folder, at_prompt("--program", folder.fake("say('x' * 1000 + 'y')"), rows=6, columns=50) as terminal:
            terminal.expect("coxeter> ")
            self.ask(terminal, "type A 4")
            terminal.type("lcells\n")
            terminal.expect("lcells\n")
            shown = ""
            for _ in range(4):
                shown += terminal.expect("-- 0 lines; space")
                terminal.type(" ")
            shown += terminal.expect(r"^-- 1 line, .*\nA 4> ")
            self.assertEqual("".join(re.findall("[xy]", re.sub(": [^\r]*\r", "", shown))), "x" * 1000 + "y")

    def test_typed_ahead(self):
        """While the program computes two lines are typed, of which one is blank. The answer is shown without a stop then."""
        with fakes.Fakes() as folder:
            typed = os.path.join(folder.folder.name, "typed")
            waiting = f"while line == 'lcells' and not os.path.exists({typed!r}):\n    time.sleep(0.01)\n"
            slow = folder.fake(f"{waiting}say(*(['30'] + ['e'] * 30 if line == 'lcells' else ['7']))")
            with at_prompt("--program", slow, rows=10) as terminal:
                terminal.expect("coxeter> ")
                self.ask(terminal, "type A 4")
                terminal.type("lcells\n")
                terminal.expect("lcells\n")
                terminal.type("\nlength 12\n")
                open(typed, "w", encoding="ascii").close()
                shown = terminal.expect(r"^(?:-- 30 items, \d+\.\d s\n)?A 4> length 12\n7\nA 4> ")
                # The terminal may have shown what was typed at once.
                self.assertEqual([it for it in shown.split("\n") if it not in ("", "length 12")], ["30"] + ["e"] * 30)

    def slow(self, folder):
        """A program that answers `lcells` by 30 elements, once there is a file, and a path that a test makes it at; else by 7."""
        path = os.path.join(folder.folder.name, "typed")
        waiting = f"while line == 'lcells' and not os.path.exists({path!r}):\n    time.sleep(0.01)\n"
        return folder.fake(f"{waiting}say(*(['30'] + ['e'] * 30 if line == 'lcells' else ['7']))"), path

    @unittest.skipIf(prompt_editing.readline is None, "Python has no readline")
    def test_the_beginning_of_a_line_typed_ahead(self):
        """It answers no question, and stands at the next prompt."""
        with fakes.Fakes() as folder:
            slow, typed = self.slow(folder)
            with at_prompt("--program", slow, rows=10) as terminal:
                terminal.expect("coxeter> ")
                self.ask(terminal, "type A 4")
                terminal.type("lcells\n")
                terminal.expect("lcells\n")
                terminal.type("quex\x7f")
                time.sleep(0.5)
                open(typed, "w", encoding="ascii").close()
                terminal.expect("-- 8 of 30; space")
                terminal.type(" ")
                terminal.expect("-- 17 of 30; space")
                terminal.type("q")
                terminal.expect("^A 4> que")
                terminal.type("\x15length 1\n")
                terminal.expect("length 1\n7\nA 4> ")
                # The up arrow brings what was typed last.
                terminal.type("\x1b[A2\n")
                terminal.expect("length 12\n7\nA 4> ")

    @unittest.skipIf(prompt_editing.readline is None, "Python has no readline")
    def test_lines_typed_at_a_question_and_the_end(self):
        """A line that is pasted at the end of a page is run next. It is in the history, and Ctrl-D behind it ends the shell."""
        with fakes.Fakes() as folder:
            slow, typed = self.slow(folder)
            open(typed, "w", encoding="ascii").close()
            with at_prompt("--program", slow, rows=10) as terminal:
                terminal.expect("coxeter> ")
                self.ask(terminal, "type A 4")
                terminal.type("lcells\n")
                terminal.expect("-- 8 of 30; space")
                terminal.type("length 1\n")
                terminal.expect(r"^-- 30 items, .*\nA 4> length 1\n7\nA 4> ")
                terminal.type("\x1b[A2\n")
                terminal.expect("length 12\n7\nA 4> ")
                os.remove(typed)
                terminal.type("lcells\n")
                terminal.expect("lcells\n")
                terminal.type("length 13\n\x04")
                time.sleep(0.5)
                open(typed, "w", encoding="ascii").close()
                terminal.expect(r"^A 4> length 13\n7\nA 4> \n")
                self.assertEqual(terminal.ended(), 0)

    def test_stopped_at_the_end_of_a_page(self):
        """Ctrl-Z leaves the terminal as it was, and the question is asked anew behind it."""
        with terminals.Terminal("-c", JOB_CONTROL, rows=10, columns=60) as terminal:
            terminal.expect("coxeter> ")
            self.ask(terminal, "type A 4")
            terminal.type("lcells\n")
            terminal.expect("-- 8 of 26; space: the next page")
            for keys, after in ((" ", "17"), (" ", "26")):
                terminal.type("\x1a")
                terminal.expect("stopped: True True\n")
                terminal.type("fg\n")
                terminal.expect("^fg\n")
                terminal.expect("of 26; space: the next page, a: all, q: no more --")
                terminal.type(keys)
                terminal.expect(f"-- {after} of 26; space" if after != "26" else "^-- 26 items")
            terminal.expect("A 4> ")
            self.assertEqual(self.ask(terminal, "length 12"), "2\n")

    def test_pasted_lines_behind_the_end(self):
        """What stands behind `q` in a text that was pasted is not run."""
        shell = prompt.Shell()
        taken = []
        with unittest.mock.patch.object(shell, "_taken", lambda line: taken.append(line) or line != "q"):
            with unittest.mock.patch.object(shell, "_read", lambda: "type A 3\n\x0bq\nq\nlength 1"):
                self.assertFalse(shell._turn())
        self.assertEqual(taken, ["type A 3", "\x0bq", "q"])

    def test_interrupts(self):
        with fakes.Fakes() as folder:
            asked = os.path.join(folder.folder.name, "asked")
            slow = folder.fake(f"if not line.startswith('length'):\n    open({asked!r}, 'w').close()\n    time.sleep(600)\nsay('7')")
            with at_prompt("--program", slow) as terminal:
                terminal.expect("coxeter> ")
                time.sleep(0.3)
                terminal.type("\x03")
                terminal.expect("^coxeter> ")
                self.ask(terminal, "type A 3")
                for question in ("lcells", "slocus 12321", "pol e *"):
                    terminal.type(f"{question}\n")
                    terminal.expect(f"{re.escape(question)}\n")
                    limit = patience.Patience(terminals.PATIENCE, terminal.pid)
                    while not os.path.exists(asked):
                        limit.wait(time.sleep)
                    os.remove(asked)
                    terminal.type("\x03")
                    terminal.expect("^-- stopped\nA 3> ")
                    self.assertEqual(self.ask(terminal, "length 12"), "7\n")
                # Half a line is dropped, and so are several interrupts at once.
                terminal.type("betti 1")
                time.sleep(0.3)
                terminal.type("\x03")
                terminal.expect("^A 3> ")
                terminal.type("\x03\x03\x03\x03")
                time.sleep(0.5)
                terminal.type("\n")
                self.assertEqual(self.ask(terminal, "length 12"), "7\n")
                terminal.type("q\n")
                self.assertEqual(terminal.ended(), 0)

    def test_the_real_program_is_interrupted(self):
        with at_prompt() as terminal:
            terminal.expect("coxeter> ")
            self.ask(terminal, "type D 7")
            terminal.type("lcells > /dev/null\n")
            terminal.expect("/dev/null\n")
            time.sleep(1.5)
            terminal.type("\x03")
            terminal.expect("^-- stopped\nD 7> ")
            self.assertEqual(self.ask(terminal, "length 12"), "2\n")

    def test_times(self):
        with fakes.Fakes() as folder, at_prompt("--program", folder.fake("time.sleep(1.2)\nsay('7')")) as terminal:
            terminal.expect("coxeter> ")
            self.ask(terminal, "type A 3")
            terminal.type("length 12\n")
            terminal.expect(r"7\n-- 1 line, [1-9]\d*\.\d s\nA 3> ")

    def test_lists_of_jobs(self):
        with at_prompt() as terminal:
            terminal.expect("coxeter> ")
            self.ask(terminal, "type A 3")
            for line in ("jobs", "pol 2 2132  # a comment", "", "next", "compute 14"):
                self.assertEqual(self.ask(terminal, line), "")
            self.assertEqual(self.ask(terminal, "length *"), "-- * by the package, not proved: 121321\n")
            self.assertIn("error 10", self.ask(terminal, "type B 3"))
            self.assertEqual(terminal.shown[terminal.shown.rindex("\n") + 1 :], "jobs> ")
            self.assertEqual(self.ask(terminal, "end"), f"1+q\nerror 16: {Refusal(16, '').meaning} (compute 14)\n6\n")
            self.ask(terminal, "jobs")
            time.sleep(0.5)
            terminal.type("\x03")
            terminal.expect("A 3> ")
            self.ask(terminal, "jobs")
            self.ask(terminal, "length 123")
            terminal.type("\x04")
            self.assertEqual(terminal.ended(), 0)
            self.assertTrue(terminal.shown.endswith("jobs> \n3\n"), terminal.shown)


class InPipes(unittest.TestCase):
    def test_answers_are_those_of_the_program(self):
        """The scripts of the manual are answered as by the program, but that refusals are told elsewhere."""
        manual = prompt_help.Manual(document("docs/MANUAL.md"))
        scripts = [script for section in manual.sections for script, _ in section.scripts()]
        self.assertGreater(len(scripts), 10)
        for script in scripts:
            script = re.sub(r"^matrix\n", "matrix x\n", script, flags=re.M)  # alone it shows the matrix
            ran = subprocess.run([find_program()], input=script.encode(), stdout=subprocess.PIPE)
            want = ran.stdout.decode().splitlines()
            status, out, told = piped(script)
            told = re.findall("^error [0-9]+", told, re.M) + re.findall("^error [0-9]+", out, re.M)
            shown = [line for line in out.splitlines() if not line.startswith("error")]
            self.assertEqual(shown, [it for it in want if "error" not in it])
            self.assertEqual(sorted(told), sorted(it for it in want if "error" in it), script)
            if "jobs" not in script:
                self.assertEqual(status, ran.returncode)

    def test_beginnings_of_commands(self):
        names = sorted([*prompt.PROGRAM, *prompt.OWN, *prompt_package.COMMANDS])
        shell = prompt.Shell()
        for name in names:
            for end in range(1, len(name) + 1):
                part = prompt_words.Token(0, name[:end])
                fitting = [it for it in names if it.startswith(part.text)]
                if part.text in names or len(fitting) == 1:
                    self.assertEqual(shell._command(part), part.text if part.text in names else name)
                else:
                    with self.assertRaisesRegex(prompt.Mistake, f"^{part.text} may be {', '.join(fitting)}$"):
                        shell._command(part)

    def test_refusals(self):
        tried = {
            "foo 1": (10, 0, 3),
            "length 1 2": (11, 9, 1),
            "pol 12 ": (11, 7, 1),
            "type A x": (12, 7, 1),
            "matrix 3 3 x 2": (12, 11, 1),
            "matrix 17": (12, 7, 2),
            "work 65537 1": (12, 5, 5),
            "work 1 1000001": (12, 7, 7),
            "type H 3": (13, 5, 3),
            "matrix 3 3 7 2": (14, 11, 1),
            "inorder  12 1243": (16, 14, 1),
            "compute 1212" + "12" * 127: (17, 263, 3),
            "compute " + "1" * 4100: (18, 4096, 12),
            "compute 1\x01": (19, 9, 1),
            "pol 1 2\udcff1": (19, 7, 1),
            "type E 8 > f": (21, 5, 3),
            "betti 12 13": (11, 9, 2),
            "pol e 123121": (31, 6, 6),
        }
        script = "".join(f"{line}\n" for line in ["type A 3", *tried])
        status, out, told = piped(script, "--context", "23", "--roots", "20")
        self.assertEqual((status, out), (1, ""))
        told = told.splitlines()
        self.assertEqual(len(told), 3 * len(tried), told)
        for (line, (number, place, length)), shown, marks, text in zip(tried.items(), told[::3], told[1::3], told[2::3]):
            self.assertTrue(text.startswith(f"error {number}: "), (line, text))
            if number == 11:
                self.assertRegex(text, "^error 11: .*: (length w|pol y w|betti w)")
            if len(line) < 70:
                self.assertEqual(marks, " " * (2 + place) + "^" * length, line)
            else:
                self.assertEqual((len(shown), marks.rstrip()), (2 + 76, f"{'^' * length:>78}"))

    def test_refusals_without_a_group(self):
        lines = ("compute 1", "lcells", "slocus 1", "rank", "matrix", "jobs")
        status, out, told = piped("".join(f"{line}\n" for line in lines))
        self.assertEqual((status, out), (1, ""))
        told = told.splitlines()
        self.assertEqual(told[1::3], ["  " + "^" * len(line.split()[0]) for line in lines])
        self.assertEqual(told[2::3], [f"error 15: {Refusal(15, '').meaning}"] * len(lines))

    def test_refusals_of_letters_with_two_digits(self):
        status, out, told = piped("type A 12\ncompute 1.13\ncompute 1..2\nlength " + "1." * 255 + "1\nlength 1.2\n")
        self.assertEqual((status, out), (1, "2\n"))
        self.assertRegex(told, r"compute 1\.13\n            \^\^\nerror 16.*\n  compute 1\.\.2\n            \^\nerror 16")
        self.assertIn("error 17", told)

    def test_what_coxeter_3_has_besides(self):
        told = piped("".join(f"{it}\n" for it in ["type A 2", *prompt_package.ABSENT]))[2].splitlines()
        self.assertEqual(told[2::3], [f"{name} of Coxeter 3 is not here: {why}" for name, why in prompt_package.ABSENT.items()])

    def test_files(self):
        with tempfile.TemporaryDirectory() as folder:
            path = os.path.join(folder, "cells of A 3")
            said = piped(f"type A 3\nlength 14 > {path}\n")
            self.assertEqual((said[0], os.path.exists(path)), (1, False))
            self.assertEqual(piped(f"type A 3\nlcells > {path}\n"), (0, "", ""))
            want = subprocess.run([find_program()], input=b"type A 3\nlcells\n", stdout=subprocess.PIPE, check=True).stdout.decode()
            with open(path, encoding="ascii") as made:
                self.assertEqual(made.read(), want)
            self.assertEqual(piped(f"type A 3\nlength 14 > {path}\nlength 12>>{path}\nlength 1x >> {path}\n")[0], 1)
            with open(path, encoding="ascii") as made:
                self.assertEqual(made.read(), f"{want}2\n")
            self.assertEqual(piped(f"type A 3\nlength 121 > {path}\nduflo >> {path}\n")[:2], (0, ""))
            with open(path, encoding="ascii") as made:
                self.assertEqual(made.read().split("\n", 2)[:2], ["3", "10"])
            status, out, told = piped(f"type A 3\njobs\nlength 1 > {path}\nlength 12\nend > {path}\n")
            self.assertEqual((status, out), (1, ""))
            self.assertIn("end > FILE", told)
            with open(path, encoding="ascii") as made:
                self.assertEqual(made.read(), "2\n")
            for wrong in (os.path.join(folder, "no", "file"), folder):
                status, out, told = piped(f"type A 3\nlength 12 > {wrong}\nlength 1\n")
                self.assertEqual((status, out), (1, "1\n"))
                self.assertIn(wrong, told)
            self.assertIn("only a part", self.broken_off(folder))

    def broken_off(self, folder):
        """What is told where the program ends in the middle of an answer that goes to a file."""
        with fakes.Fakes() as programs:
            dying = programs.fake("say('5', 'e', '1')\nos._exit(5)")
            status, out, told = piped(f"type A 3\nlcells > {folder}/part\n", program=dying)
        with open(os.path.join(folder, "part"), encoding="ascii") as made:
            self.assertEqual((status, out, made.read()), (1, "", "5\ne\n1\n"))
        return told

    def test_hostile_input(self):
        status, out, told = piped("type A 3\n" + "(" * 3000 + "\ncompute " + "(" * 4000 + "\ncompute " + "(1" * 1300 + ")" * 1300 + "\nlength 12")
        self.assertEqual((status, out), (1, f"{CoxeterGroup('A', 3).text([1] * 0)}\n2\n"))
        self.assertNotIn("Traceback", told)
        lines = ["\0", "\x1b[A", "\t", "  ", "#", "type", ">", "> x", "q x", "help ", "help \udcff", "rank 0", "rank x", "jobs x", "next", "end"]
        lines += ["rank 1 2", "rank 99", "lcells 1", "slocus", "matrix 3", "type A 3 4", "é", "pol é"]
        status, out, told = piped("type A 2\n" + "".join(f"{line}\nlength 1\n" for line in lines))
        self.assertEqual((status, out.splitlines().count("1")), (1, len(lines)))
        self.assertNotIn("Traceback", told)

    def test_the_reader_is_gone(self):
        words = f"printf 'type A 5\\nklbasis 121321432154321\\n' | {sys.executable} -m coxeter_shell | head -2"
        ran = subprocess.run(words, shell=True, capture_output=True, timeout=60)
        self.assertEqual((ran.stdout, ran.stderr), (b"720\ne:1\n", b""))

    def test_no_program(self):
        status, out, told = piped("type A 3\n", program="/no/such/program")
        self.assertEqual((status, out), (1, ""))
        self.assertRegex(told, "^coxeter_shell: there is no program '/no/such/program'")

    def test_options(self):
        self.assertEqual(piped("type A 3\nbetti 121321\n", "--context", "23")[0], 1)
        self.assertEqual(piped("type A 3\nbetti 121321\n", "--context", "24", "--workers", "2"), (0, "1 3 5 6 5 3 1\n", ""))

    def test_what_is_worked_out_is_marked(self):
        """Each word with signs, and each name of a group in whose place the program gets another one. The others are not."""
        long = "4" * 50
        script = ["type A 3", "pol 2 (2132)!", "length *", "compute 12^-1*", "mu e (12)^3", f"compute {long}!", "length 121", "inorder * *", "rank 5"]
        status, out, told = piped("\n".join([*script, "slocus (12321)!", "length (", "jobs", "length 1!", "end"]))
        self.assertEqual((status, out), (1, "1+q\n6\n1321\n0\n3\ntrue\n1\n13\n1\n"))
        self.assertEqual([line for line in told.splitlines() if line.startswith("--")], [
            "-- (2132)! by the package, not proved: 2132",
            "-- * by the package, not proved: 121321",
            "-- 12^-1* by the package, not proved: 1321",
            "-- (12)^3 by the package, not proved: e",
            "-- * by the package, not proved: 121321",
            "-- (12321)! by the package, not proved: 12321",
            "-- made by the package from answers of the program, not proved",
            "-- 1! by the package, not proved: 1",
        ])
        told = piped("type E8\nlength *\ntype a 3\ntype C3\nrank 4\ntype b 3\ntype A 1xG2\ntype F 4\nmatrix 2 4\n")[2].splitlines()
        other = "-- Coxeter 3 numbers the nodes of B, D and F the other way round"
        self.assertEqual(told, [
            "-- * by the package, not proved: an element of length 120",
            "-- type C 3 by the package, not proved: type B 3",
            other,
            "-- type C 4 by the package, not proved: type B 4",
            other,
            "-- type b 3 by the package, not proved: matrix 4 3 2 2 4 3 2",
            "-- type A 1 x G 2 by the package, not proved: matrix 3 2 2 6",
            other,
        ])

    def test_why_a_type_is_not_there(self):
        for name, why in (("h 3", "H 3 has a label other than"), ("H 4", "H 4 has a label"), ("E 9", "are E 6 to E 8"), ("k 3", "the letters are A,")):
            told = piped(f"type {name}\n")[2]
            self.assertRegex(told, f"^  type {name}\n +\\^+\nerror 13: there is no such type: .*{why}")
        told = piped("type a 2\nlcells\n")[2]
        self.assertRegex(told, "error 31: .*: the group is infinite")

    def test_names_of_groups(self):
        """`type`, `rank` and the prompt keep the name by which a group was set."""
        script = ["type b 3", "type", "rank", "rank 4", "type", "type C3", "rank 05", "type", "type A2xc 02", "type", "rank", "matrix 2 6", "type"]
        status, out, told = piped("\n".join(script))
        self.assertEqual((status, out), (0, "type b 3\n4\ntype b 3\ntype C 5\ntype A 2 x c 2\n5\nmatrix 2 6\n"))
        told = piped("type A 2 x B 2\nrank 3\ntype b 3\nrank 2\nrank 17\n")[2]
        self.assertRegex(told, "(?s)the group is a product.*error 13.*error 13")
        shell = prompt.Shell()
        for name, sign in (("A 2 x B 2", "A 2 x B 2> "), (" x ".join(["A 1"] * 7), "A 1 ..> "), ("b 12", "b 12> ")):
            shell.name = name
            self.assertEqual(shell.prompt(), sign)

    def test_groups(self):
        script = "type A3\nrank\nrank 5\ntype\nlength *\ntype a 3\nrank\nrank 3\ntype\nmatrix 2 0\ntype\nrank 3\n"
        status, out, told = piped(script)
        self.assertEqual((status, out), (1, "3\ntype A 5\n15\n4\ntype a 2\nmatrix 2 0\n"))
        self.assertIn("by its matrix", told)
        # A group that is refused leaves the one that was set.
        self.assertEqual(piped("type A 3\ntype H 3\nrank\n")[:2], (1, "3\n"))

    def test_answers_of_the_package(self):
        with CoxeterGroup("A", 3) as W:
            status, out, told = piped("type A 3\nduflo\nslocus 12321\nlrcorder\nlcwgraphs\n")
            self.assertEqual((status, re.sub(REMARK, "", told, flags=re.M)), (0, ""))
            self.assertEqual(told.count("not proved"), 4)
            lines = iter(out.splitlines())

            def taken():
                return [next(lines) for _ in range(int(next(lines)))]

            self.assertEqual(taken(), list(map(W.text, W.duflo_involutions())))
            self.assertEqual(taken(), list(map(W.text, W.singular_locus("12321"))))
            order = W.cell_order("two-sided")
            pairs = [(x, y) for x, _, rest in (line.partition(":") for line in taken()) for y in rest.split()]
            self.assertEqual(pairs, [(W.text(x), W.text(y)) for x, y in order.edges()])
            for cell in [None, *W.left_cells()][1 : 1 + int(next(lines))]:
                graph = W.cell_w_graph(cell)
                want = [[W.text(x), W.set_text(graph[x].descents), *(f"{W.text(y)}:{mu}" for y, mu in graph[x].edges.items())] for x in graph]
                self.assertEqual([line.split() for line in taken()], want)
            self.assertEqual(list(lines), [])


class Words(unittest.TestCase):
    def test_values(self):
        """Words with signs have the elements that products, powers and inverses of their parts have."""
        for kind in ("A 3", "B 4", "a 2", "A 11"):
            with CoxeterGroup(kind) as W:
                u, v = W.random_element(length=4), W.random_element(length=3)
                x, y = W.text(u), W.text(v)
                tried = {
                    f"{x}!": W.inverse(u),
                    f"({x})^3{'' if W.rank < 10 else '.'}{y}".replace("^3", "^3."): W.product(W.power(u, 3), v),
                    f"{x}^2": W.power(u, 2),
                    f"({x}){y}^-2": W.product(u, W.power(v, -2)),
                    f"(({x})!({y})!)!": W.product(v, u),
                    f"(({x})({y})!^2)^2!": W.inverse(W.power(W.product(u, W.power(v, -2)), 2)),
                    f"{x}^0": (),
                    "e!": (),
                    "()": (),
                }
                if W.is_finite():
                    w = W.long_element()
                    tried.update({"*": w, f"*({x})": W.product(w, u), f"{x}*": W.product(u, w), "*^3": w})
                    tried[f"(*{x}*)!"] = W.product(w, W.inverse(u), w)
                for word, want in tried.items():
                    self.assertEqual(prompt_words.value(W, word.replace("..", ".")), want, word)

    def test_mistakes(self):
        with CoxeterGroup("A", 3) as W, CoxeterGroup("a", 2) as V:
            tried = [
                (W, "(12", 0, 1, "no )"),
                (W, "1)2", 1, 1, "no ("),
                (W, "!", 0, 1, "behind"),
                (W, "(!)", 1, 1, "behind"),
                (W, "12^", 2, 1, "a number"),
                (W, "12^x", 2, 1, "a number"),
                (W, "12^9999999999", 3, 10, "digits"),
                (W, "12(14)", 4, 1, "letter"),
                (W, "1..2!", 0, 4, "missing"),
                (W, ".!", 0, 1, "missing"),
                (V, "1*", 1, 1, "longest"),
                (V, "(123)^200", 5, 4, "255"),
            ]
            for group, word, place, length, why in tried:
                with self.assertRaises(prompt_words.WordError, msg=word) as caught:
                    prompt_words.value(group, word)
                self.assertIn(why, str(caught.exception))
                self.assertEqual(caught.exception.place, place, word)

    def test_clean(self):
        for typed, line in (("pol 1 2 # x", "pol 1 2"), ("#x", ""), ("a\x1b[A\x1b[1;5Cb\x1bOH", "ab"), ("l > a#b", "l > a#b"), ("a\tb", "a b")):
            self.assertEqual(prompt_words.clean(typed), line)


class Help(unittest.TestCase):
    def setUp(self):
        self.manual = prompt_help.Manual(read_document("MANUAL.md"))

    def test_commands_of_the_manual_are_those_of_the_shell(self):
        self.assertEqual(sorted(self.manual.rows), prompt.COMMANDS)
        for name, words in {**prompt.PROGRAM, **{it: n for it, (n, _) in prompt_package.COMMANDS.items()}}.items():
            [(usages, _, _)] = self.manual.rows[name]
            for usage in usages:
                if usage.split()[0] == name and words is not None:
                    self.assertEqual(len(usage.split()) - 1, words, usage)

    def test_each_command(self):
        """What it answers, an example, and the limits of what has some."""
        for name in prompt.COMMANDS:
            shown = "\n".join(self.manual.about(name, 100))
            self.assertIn(name, shown)
            self.assertNotIn("`", shown)
            if name in {**prompt.PROGRAM, **prompt_package.COMMANDS}:
                self.assertTrue("examples:" in shown or re.search(r"(?m)^ {6}\S", shown), name)
            limited = {"compute", "length", "inverse", "descent", "inorder", "work", "jobs", "help", "rank", *prompt.QUIT}
            self.assertEqual("limits:" in shown, name not in limited, name)

    def test_the_words_are_those_of_the_manual(self):
        """Each word of help stands in the manual, but for the few that join its parts."""
        known = set(re.findall(r"\w+", prompt_help.plain(document("docs/MANUAL.md"))))
        for name in prompt.COMMANDS:
            for line in self.manual.about(name, 100):
                left = set(re.findall(r"\w+", line)) - known - {"examples", "limits", "error"}
                self.assertEqual(left, set(), (name, line))

    def test_examples(self):
        """Each answer of the examples belongs to its line: they are asked again."""
        with CoxeterGroup("A", 1) as W:
            for section in self.manual.sections:
                for script, out in section.scripts():
                    parted = list(prompt_help.parted(script, out))
                    if "jobs" not in script.splitlines():
                        self.assertEqual([it for _, _, answer in parted for it in answer], out.splitlines())
                        self.assertEqual([line for _, line, _ in parted], script.splitlines())
            self.assertEqual(W.rank, 1)
        shown = self.manual.about("coatoms", 100)
        want = ["examples:", "  type A 3", "  coatoms 1232", "    3", "    123", "    132", "    232"]
        self.assertEqual(shown[shown.index("examples:") :][:7], want)

    def test_topics(self):
        for section in self.manual.sections:
            shown = self.manual.about(section.title.lower(), 80)
            self.assertTrue(len(shown) > 2 or section.title in self.manual.rows, section.title)
            self.assertTrue(all(len(line) <= 160 for line in shown))
        with self.assertRaises(KeyError):
            self.manual.about("nothing of the kind", 80)
        self.assertIn("there is no help on x y", piped("help x y\n")[2])


class Diagrams(unittest.TestCase):
    def test_as_the_manual_draws_them(self):
        drawn = prompt_help.Manual(document("docs/MANUAL.md"))
        text = next(it.text for it in drawn.sections if it.title == "Named types")
        for letter, rank in (("F", 4), ("G", 2), ("a", 1)):
            [line] = re.findall(rf"^    {letter} {rank} +(\S.*)$", text, re.M)
            self.assertEqual(diagrams.diagram(kinds.named_matrix(letter, rank)), [line])
        self.assertEqual(diagrams.diagram(kinds.named_matrix("E", 7)), ["1 --- 3 --- 4 --- 5 --- 6 --- 7", "            |", "            2"])
        self.assertEqual(diagrams.diagram(kinds.named_matrix("a", 2)), ["1 --- 2 --- 3", "|           |", "+-----------+"])

    def edges(self, lines):
        """The edges of a drawing, read back: pairs of nodes and labels."""
        found = {}
        grid = [line.ljust(max(map(len, lines))) for line in lines]
        for line in grid:
            for it in re.finditer(r"(?=(?<!\d)(\d+) (=(\w+)=|---|-) (\d+))", line):
                found[frozenset((int(it.group(1)), int(it.group(4))))] = it.group(3) or "3"
        for y in range(1, len(grid) - 1):
            for it in re.finditer(r"\|( (\w+))?", grid[y]):
                ends = [re.match(r"\d+", grid[at][it.start() :]) for at in (y - 1, y + 1)]
                if all(ends):
                    found[frozenset(int(end.group()) for end in ends)] = it.group(2) or "3"
        return found

    def test_trees_and_others(self):
        def matrix(size, edges):
            nodes = range(1, size + 1)
            return kinds.of_rows([[1 if s == t else edges.get((min(s, t), max(s, t)), 2) for t in nodes] for s in nodes]).matrix

        trees = [
            (6, {(1, 2): 3, (2, 3): 3, (3, 4): 3, (3, 5): 3, (2, 6): 3}),
            (5, {(1, 5): 3, (2, 5): 4, (3, 5): 3, (4, 5): 6}),
            (7, {(1, 3): 3, (3, 4): 3, (4, 5): 3, (5, 6): 3, (2, 4): 3, (2, 7): 4}),
            (4, {(1, 2): 3, (3, 4): 6}),
            (5, {(1, 2): 0, (3, 4): 6, (4, 5): 4}),
            (6, {(1, s): 3 for s in range(2, 7)}),
            (4, {(s, t): 4 for s in range(1, 5) for t in range(s + 1, 5)}),
            (16, {(s, s + 1): 3 for s in range(1, 16)}),
        ]
        for size, edges in trees:
            want = {frozenset(pair): str(label) if label else "infinity" for pair, label in edges.items()}
            self.assertEqual(self.edges(diagrams.diagram(matrix(size, edges))), want)
        ring = diagrams.diagram(matrix(4, {(1, 2): 3, (2, 3): 3, (3, 4): 3, (1, 4): 4}))
        self.assertEqual(ring, ["1 --- 2 --- 3 --- 4", "|                 |", "+------- 4 -------+"])


if __name__ == "__main__":
    unittest.main()
