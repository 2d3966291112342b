"""The process behind a group: when it starts and ends, many questions, and programs that do something wrong."""
import concurrent.futures
import contextlib
import gc
import io
import math
import os
import pickle
import random
import select
import shutil
import signal
import subprocess
import sys
import tempfile
import threading
import time
import unittest
import unittest.mock

import coxeter_shell
import fakes
import patience
import reference
from coxeter_shell import (
    CoxeterGroup,
    Program,
    ProgramClosed,
    ProgramEnded,
    ProgramError,
    ProgramNotFound,
    QuestionTimeout,
    Refusal,
    UnexpectedAnswer,
    check,
    parents,
)

PACKAGE = os.path.dirname(coxeter_shell.__file__)


def alive(pid):
    """Whether there is a process of this number that has not ended."""
    try:
        with open(f"/proc/{pid}/stat", encoding="ascii") as stat:
            return stat.read().rsplit(")", 1)[1].split()[0] not in "ZX"
    except FileNotFoundError:
        return False


def gone(pid, seconds=60):
    """Whether a process ends in this time, which is long, since the machine may be busy."""
    end = time.monotonic() + seconds
    while alive(pid) and time.monotonic() < end:
        time.sleep(0.01)
    return not alive(pid)


def quiet(call, *arguments):
    """Calls something that may end by the end of the program."""
    with contextlib.suppress(ProgramError):
        call(*arguments)


def pid_of(group):
    return group.program._process.pid


class Life(unittest.TestCase):
    """A process is started when first asked, kept, and ended."""

    def test_started_when_first_asked(self):
        group = CoxeterGroup("A", 3)
        self.assertIsNone(group.program._process)
        group.length("12")
        pid = pid_of(group)
        group.length("123")
        self.assertEqual(pid_of(group), pid)
        group.close()
        self.assertFalse(alive(pid))
        group.close()
        self.assertEqual(group.length("12"), 2)
        group.close()

    def test_ended_with_the_block(self):
        with self.assertRaises(ZeroDivisionError):
            with CoxeterGroup("A", 3) as group:
                group.length("12")
                pid = pid_of(group)
                1 / 0
        self.assertFalse(alive(pid))

    def test_ended_with_the_object(self):
        group = CoxeterGroup("A", 3)
        group.length("12")
        pid = pid_of(group)
        del group
        gc.collect()
        self.assertTrue(gone(pid))

    def test_ended_with_an_iterator(self):
        cells = CoxeterGroup("A", 3).iter_left_cells()
        next(cells)
        pid = pid_of(cells._group)
        del cells
        gc.collect()
        self.assertTrue(gone(pid))

    def test_ended_with_python(self):
        source = "import coxeter_shell, os\nit = coxeter_shell.CoxeterGroup('A', 3)\nit.length('1')\n"
        source += "print(it.program._process.pid, flush=True)\n"
        for end in ("", "1 / 0", "os._exit(1)", "os.kill(os.getpid(), 9)"):
            words = [sys.executable, "-c", source + end]
            ran = subprocess.run(words, stdout=subprocess.PIPE, stderr=subprocess.DEVNULL)
            self.assertTrue(gone(int(ran.stdout)))

    def test_ended_while_it_computes(self):
        with fakes.Fakes() as folder:
            slow = CoxeterGroup("A", 3, program=folder.fake('say("3", "e"); time.sleep(1000)'))
            next(slow.iter_left_cells())
            pid, begun = pid_of(slow), time.monotonic()
            # It is not waited for, as a program is that can end by itself.
            with unittest.mock.patch("coxeter_shell.parents.PATIENCE", 600):
                slow.close()
            self.assertFalse(alive(pid))
            self.assertLess(time.monotonic() - begun, 300)

    @unittest.skipUnless(parents.tie(), "there is no setpriv")
    def test_ended_with_python_while_it_computes(self):
        """Python is killed while the program computes and reads nothing. The program was started by the first thread, by
        another one, or in a forked process."""
        asks = "coxeter_shell.CoxeterGroup('A', 3, program=sys.argv[1]).length('1')\n"
        first = "it = threading.Thread(target=coxeter_shell.CoxeterGroup('A', 3).length, args='1')\nit.start()\nit.join()\n"
        for start in (
            asks,
            f"threading.Thread(target=lambda: {asks.strip()}).start()\n",
            f"if os.fork() == 0: {asks.strip()}\n",
            f"if os.fork() == 0: threading.Thread(target=lambda: {asks.strip()}).start()\n",
            f"{first}if os.fork() == 0: threading.Thread(target=lambda: {asks.strip()}).start()\n",
        ):
            with self.subTest(start), fakes.Fakes() as folder, tempfile.TemporaryDirectory() as told:
                path = os.path.join(told, "pids")
                slow = folder.fake(f'open({path!r}, "w").write(f"{{os.getpid()}} {{os.getppid()}} "); time.sleep(100)')
                source = f"import coxeter_shell, os, sys, threading, time\n{start}time.sleep(100)"
                python = subprocess.Popen([sys.executable, "-c", source, slow])
                end = time.monotonic() + 120
                numbers = []
                while len(numbers) < 2:
                    self.assertLess(time.monotonic(), end)
                    time.sleep(0.01)
                    if os.path.exists(path):
                        with open(path, encoding="ascii") as it:
                            numbers = it.read().split(" ")[:-1]
                pid, parent = map(int, numbers)
                self.assertTrue(alive(pid))
                os.kill(parent, signal.SIGKILL)
                self.assertTrue(gone(pid))
                python.kill()
                python.wait()

    def test_without_setpriv(self):
        with unittest.mock.patch.object(parents, "tie", lambda: ()), CoxeterGroup("A", 3) as group:
            self.assertEqual(group.length("12"), 2)

    def test_kept_when_its_thread_ends(self):
        with CoxeterGroup("A", 3) as group:
            for _ in range(3):
                thread = threading.Thread(target=group.length, args=("12",))
                thread.start()
                thread.join()
                pid = pid_of(group)
                time.sleep(0.1)
                self.assertTrue(alive(pid))
                self.assertEqual((group.length("123"), pid_of(group)), (3, pid))
                group.close()

    def test_in_a_session_of_its_own(self):
        with CoxeterGroup("A", 3) as group:
            group.length("1")
            self.assertNotEqual(os.getsid(pid_of(group)), os.getsid(0))

    def test_interrupted(self):
        with fakes.Fakes() as folder:
            slow = folder.fake('time.sleep(100 if line == "length 1" else 0); say("7")')

            def interrupt(*_):
                raise KeyboardInterrupt

            before = signal.signal(signal.SIGALRM, interrupt)
            try:
                with CoxeterGroup("A", 3, program=slow) as group:
                    self.assertEqual(group.length("2"), 7)
                    pid = pid_of(group)
                    signal.setitimer(signal.ITIMER_REAL, 0.3)
                    with self.assertRaises(KeyboardInterrupt):
                        group.length("1")
                    self.assertFalse(alive(pid))
                    self.assertEqual(group.length("2"), 7)
            finally:
                signal.signal(signal.SIGALRM, before)

    def test_interrupted_anywhere(self):
        """Interrupts at any time may lose an answer, but never make a later one wrong."""

        def interrupt(*_):
            raise KeyboardInterrupt

        random.seed(5)
        before = signal.signal(signal.SIGALRM, interrupt)
        count = 0
        try:
            with CoxeterGroup("A", 3) as group:
                for number in range(200):
                    word = "123"[: number % 4] or "e"
                    try:
                        signal.setitimer(signal.ITIMER_REAL, random.uniform(1e-5, 1e-3))
                        for _ in range(20):
                            group.length("21321")
                            group.bruhat_interval("e", "12321")
                            group.jobs([["length 21321"], ["coatoms 121", "length 12"]])
                            next(group.iter_left_cells())
                        signal.setitimer(signal.ITIMER_REAL, 0)
                    except KeyboardInterrupt:
                        count += 1
                    self.assertEqual((group.length(word), len(group.left_cells())), (number % 4, 10))
                    self.assertEqual(group.jobs([[f"length {word}"], ["length 12"]]), [[[str(number % 4)]], [["2"]]])
        finally:
            signal.signal(signal.SIGALRM, before)
        self.assertGreater(count, 100)

    def test_interrupted_while_it_starts(self):
        """Then no process is left: neither a live one nor one that nobody waits for."""

        def interrupt(*_):
            raise KeyboardInterrupt

        random.seed(6)
        before = signal.signal(signal.SIGALRM, interrupt)
        others, count = set(patience.children(os.getpid())), 0
        try:
            for number in range(60):
                group = CoxeterGroup("A", 3)
                try:
                    signal.setitimer(signal.ITIMER_REAL, random.uniform(1e-4, 8e-3))
                    group.length("12")
                    signal.setitimer(signal.ITIMER_REAL, 0)
                except KeyboardInterrupt:
                    count += 1
                if number % 2:
                    self.assertEqual(group.length("12"), 2)
                    group.close()
                del group
                gc.collect()
                end = time.monotonic() + 60
                while set(patience.children(os.getpid())) - others and time.monotonic() < end:
                    time.sleep(0.001)
                self.assertEqual(set(patience.children(os.getpid())) - others, set())
        finally:
            signal.setitimer(signal.ITIMER_REAL, 0)
            signal.signal(signal.SIGALRM, before)
        self.assertGreater(count, 20)

    def test_forked_while_another_thread_asks(self):
        """The lock of the program is held then, by a thread that is not there in the forked process."""
        with fakes.Fakes() as folder:
            slow = folder.fake('time.sleep(1000 if line == "length 1" else 0); say("7")')
            with CoxeterGroup("A", 3, program=slow) as group:
                group.length("2")
                asks = threading.Thread(target=quiet, args=(group.length, "1"), daemon=True)
                asks.start()
                while group.program._asked != "length 1":
                    time.sleep(0.001)
                read, write = os.pipe()
                child = os.fork()
                if not child:
                    try:
                        os.write(write, str(group.length("2")).encode())
                        group.close()
                    finally:
                        os._exit(0)
                os.close(write)
                try:
                    self.assertTrue(select.select([read], [], [], 60)[0])
                    self.assertEqual(os.read(read, 100), b"7")
                finally:
                    os.close(read)
                    os.kill(child, signal.SIGKILL)
                    os.waitpid(child, 0)
                    os.kill(pid_of(group), signal.SIGKILL)
                    asks.join()

    def test_forked(self):
        with CoxeterGroup("A", 3) as group:
            group.length("1")
            cells = group.iter_left_cells()
            read, write = os.pipe()
            child = os.fork()
            if not child:
                try:
                    list(cells)
                except ProgramClosed:
                    answer = "".join(str(group.length("123"[:k])) for k in (1, 2, 3))
                    os.write(write, answer.encode())
                finally:
                    os._exit(0)
            os.waitpid(child, 0)
            self.assertEqual(len(list(cells)), 10)
            self.assertEqual([group.length("12"[:k]) for k in (1, 2)], [1, 2])
            self.assertEqual(os.read(read, 100), b"123")
            child = os.fork()
            if not child:
                group.close()
                os._exit(0)
            os.waitpid(child, 0)
            self.assertEqual(group.length("12"), 2)
            os.close(read)
            os.close(write)


class Finding(unittest.TestCase):
    """Where the program is looked for."""

    def found(self, package, answer, environment=(), arguments="", folder="/"):
        """What a Python that has the package in this folder finds, or what it says, where it is run in that one."""
        source = f"from coxeter_shell import *\ntry: print(find_program({arguments}))\n"
        source += "except ProgramNotFound as error: print(error)"
        environment = {"PATH": "/usr/bin:/bin", "PYTHONPATH": package, **dict(environment)}
        ran = subprocess.run([sys.executable, "-c", source], env=environment, stdout=subprocess.PIPE, cwd=folder, check=True)
        self.assertIn(answer, ran.stdout.decode())

    def test_each_place(self):
        with fakes.Fakes() as folder, tempfile.TemporaryDirectory() as base:
            fake = folder.shell("true")
            checkout, tools, elsewhere = (os.path.join(base, name) for name in ("checkout", "tools", "elsewhere"))
            package = os.path.join(checkout, "python")
            for top in (package, elsewhere):
                # Without the programs of a wheel, which are found before others.
                shutil.copytree(PACKAGE, os.path.join(top, "coxeter_shell"), ignore=shutil.ignore_patterns("programs"))
            os.makedirs(tools)
            shutil.copy(fake, os.path.join(tools, "coxeter"))
            path = {"PATH": f"{tools}:/usr/bin:/bin"}
            self.found(package, "COXETER")
            self.found(package, "not found")
            self.found(package, os.path.join(tools, "coxeter"), path)
            out = os.path.join(checkout, "crates", "coxeter", "out")
            os.makedirs(os.path.dirname(out))
            self.found(package, f"It is not built yet in {checkout}: run ./coxeter")
            self.found(package, os.path.join(tools, "coxeter"), path)
            os.makedirs(out)
            shutil.copy(fake, os.path.join(out, "coxeter"))
            self.found(package, os.path.join(out, "coxeter"), path)
            self.found(package, fake, {"COXETER": fake, **path})
            self.found(package, fake, {"COXETER": "/nowhere", **path}, repr(fake))
            self.found(package, os.path.join(tools, "coxeter"), {"COXETER": "coxeter", **path})
            # What is given is a file of the folder where there is one of this name, and else a command.
            self.found(package, os.path.join(tools, "coxeter"), path, "'coxeter'")
            self.found(package, "./coxeter\n", path, "'coxeter'", folder=out)
            nowhere = "there is no program '/nowhere', which the environment variable COXETER names"
            self.found(package, nowhere, {"COXETER": "/nowhere"})
            self.found(package, "there is no program '/nowhere'\n", {"COXETER": fake}, "'/nowhere'")
            # A package that pip installed from the checkout finds the program there.
            self.found(elsewhere, "not found")
            record = os.path.join(elsewhere, "coxeter_shell-1.0.dist-info")
            os.makedirs(record)
            with open(os.path.join(record, "METADATA"), "w", encoding="ascii") as out_file:
                out_file.write("Metadata-Version: 2.1\nName: coxeter_shell\nVersion: 1.0\n")
            self.found(elsewhere, "not found")
            with open(os.path.join(record, "direct_url.json"), "w", encoding="ascii") as out_file:
                out_file.write(f'{{"dir_info": {{}}, "url": "file://{package}"}}')
            self.found(elsewhere, os.path.join(out, "coxeter"))

    def test_not_found(self):
        group = CoxeterGroup("A", 3, program="/nowhere/coxeter")
        for _ in range(2):
            with self.assertRaises(ProgramNotFound) as caught:
                group.length("1")
            self.assertIn("/nowhere/coxeter", str(caught.exception))

    def test_that_cannot_be_run(self):
        with fakes.Fakes() as folder:
            path = folder.shell("true")
            with open(path, "wb") as out:
                out.write(b"#!/nowhere\n")
            with self.assertRaises(ProgramNotFound):
                CoxeterGroup("A", 3, program=path).length("1")
            with concurrent.futures.ThreadPoolExecutor() as pool, self.assertRaises(ProgramNotFound):
                pool.submit(CoxeterGroup("A", 3, program=path).length, "1").result()


class Many(unittest.TestCase):
    """Many questions, and several at a time."""

    def test_ten_thousand_questions(self):
        random.seed(3)
        real = reference.group(4)
        elements = list(real)
        with CoxeterGroup("A", 4) as group:
            group.length("1")
            pid = pid_of(group)
            for number in range(10_000):
                w, x = random.choice(elements), random.choice(elements)
                word = real.words[w]
                kind = number % 5
                if kind == 0:
                    self.assertEqual(group.length(word), reference.length(w))
                elif kind == 1:
                    self.assertEqual(group.inverse(word), real.words[reference.inverse(w)])
                elif kind == 2:
                    self.assertEqual(group.right_descents(word), reference.right_descents(w))
                elif kind == 3:
                    self.assertEqual(group.bruhat_le(real.words[x], word), reference.below(x, w))
                elif number % 2:
                    below = group.bruhat_interval("e", word)
                    self.assertEqual(group.coatoms(word), [it for it in below if len(it) == len(word) - 1])
                else:
                    with self.assertRaises(Refusal):
                        group.length("5")
            self.assertEqual(pid_of(group), pid)

    def test_two_groups_at_once(self):
        with CoxeterGroup("A", 3) as one, CoxeterGroup("B", 3) as two, CoxeterGroup("A", 10) as three:
            for _ in range(50):
                self.assertEqual(one.normal_form("232323"), ())
                self.assertEqual(two.normal_form("232323"), (3, 2))
                self.assertEqual(three.normal_form("10.9.10"), (9, 10, 9))
            self.assertEqual(len({pid_of(it) for it in (one, two, three)}), 3)
            cells = list(zip(one.iter_left_cells(), two.iter_left_cells()))
            self.assertEqual([list(it) for it in zip(*cells)], [one.left_cells(), two.left_cells()[:10]])

    def test_more_than_a_program_reads(self):
        """After 16 MiB a new process goes on with the same group."""
        with CoxeterGroup("B", 2, context=7) as group:
            group.length("1")
            pids, spaces = {pid_of(group)}, " " * 4000
            for number in range(4300):
                self.assertEqual(group.ask(f"length 12{spaces}"), ["2"])
                pids.add(pid_of(group))
            self.assertEqual(len(pids), 2)
            self.assertEqual(sum(map(alive, pids)), 1)
            with self.assertRaises(Refusal):
                group.betti_numbers("1212")

    def test_iterators_and_questions(self):
        with CoxeterGroup("A", 3) as group:
            cells, right = group.left_cells(), group.right_cells()
            first = group.iter_left_cells()
            self.assertEqual((next(first), first.total, first.__length_hint__()), (cells[0], 10, 9))
            second = group.iter_right_cells()
            self.assertEqual(next(second), right[0])
            self.assertEqual(group.length("12"), 2)
            with self.assertRaises(Refusal):
                group.length("4")
            self.assertEqual((list(first), list(second)), (cells[1:], right[1:]))
            self.assertEqual((list(first), list(second)), ([], []))
            pid = pid_of(group)
            for _ in range(5):
                next(group.iter_left_cells())  # it is dropped here
                self.assertEqual(group.length("12"), 2)
            self.assertEqual(pid_of(group), pid)
            third = group.iter_left_cells()
            next(third)
            group.close()
            with self.assertRaises(ProgramClosed) as caught:
                list(third)
            said = "the rest of the answer to 'lcells' can't be read: the program was ended by close()"
            self.assertEqual(str(caught.exception), said)
            self.assertEqual(str(pickle.loads(pickle.dumps(caught.exception))), str(caught.exception))
            self.assertEqual(group.length("12"), 2)
            with self.assertRaises(ProgramEnded):
                list(third)

    def test_threads(self):
        wrong = []

        def ask(group, word):
            for _ in range(200):
                if group.length(word) != len(word) or len(group.bruhat_interval("e", word)) != 2 ** len(word):
                    wrong.append(word)

        with CoxeterGroup("A", 4) as group:
            threads = [threading.Thread(target=ask, args=(group, "1234"[:k])) for k in (1, 2, 3, 4)]
            for it in threads:
                it.start()
            for it in threads:
                it.join()
        self.assertEqual(wrong, [])


class Raw(unittest.TestCase):
    """Lines that are given as they are."""

    def test_lines(self):
        with Program() as program:
            for line, lines in [
                ("", []),
                ("   ", []),
                ("type A 3", []),
                ("  length   12 ", ["2"]),
                (" matrix  2 4 ", []),
                ("interval e 12", ["4", "e", "1", "2", "12"]),
                ("interval 2 1", ["0"]),
                ("descent 12", ["L 1 R 2"]),
            ]:
                self.assertEqual(program.ask(line), lines)
            self.assertEqual(program.group, " matrix  2 4 ")
            program.close()
            self.assertEqual(program.ask("compute 2121"), ["1212"])
            for line in ("quit", "  quit "):
                with self.assertRaises(ValueError):
                    program.ask(line)
            self.assertEqual(list(program.stream("coatoms 121")), ["2", "12", "21"])

    def test_of_a_group(self):
        with CoxeterGroup("A", 3) as group:
            self.assertEqual(group.ask("length 12"), ["2"])
            for line in ("type A 4", " matrix 2 0"):
                with self.assertRaises(ValueError):
                    group.ask(line)


class Late(unittest.TestCase):
    """A limit of time for the answer to a question."""

    def test_no_answer(self):
        with fakes.Fakes() as folder:
            for code in ("time.sleep(60)", "say('2', 'e'); time.sleep(60)"):
                with CoxeterGroup("A", 2, program=folder.fake(code)) as group:
                    group.program.start()
                    group.timeout, begun = 0.5, time.monotonic()
                    with self.assertRaises(QuestionTimeout) as caught:
                        group.bruhat_interval("e", "12")
                    self.assertLess(time.monotonic() - begun, 30)
                    self.assertEqual((caught.exception.line, caught.exception.seconds), ("interval e 12", 0.5))
                    self.assertIn("no answer to 'interval e 12' after 0.5 seconds", str(caught.exception))
                    self.assertEqual(str(pickle.loads(pickle.dumps(caught.exception))), str(caught.exception))
                    with self.assertRaises(QuestionTimeout):
                        group.jobs([["length 1", "length 2"]])
            # A program that starts too slowly is late as well.
            with CoxeterGroup("A", 2, program=folder.shell("exec sleep 60"), timeout=0.5) as group:
                with self.assertRaises(QuestionTimeout):
                    group.length("1")

    def test_goes_on(self):
        """After a question that was too long the group is there as before, and so is one without a limit."""
        with CoxeterGroup("E", 7) as group:
            with group.within(0.3), self.assertRaises(QuestionTimeout):
                group.ask("work 1 1000000")
            self.assertIsNone(group.timeout)
            self.assertEqual(group.length("123"), 3)
            with group.within(300):
                self.assertEqual((group.length("12"), len(list(group.iter_bruhat_interval("e", "12")))), (2, 4))
        same = pickle.loads(pickle.dumps(CoxeterGroup("A", 2, timeout=3)))
        self.assertEqual(same.timeout, 3)

    def test_an_iterator_has_time_for_its_items(self):
        """The time in which no item is awaited doesn't count."""
        with fakes.Fakes() as folder:
            code = "say('3', 'e'); time.sleep(2); say('1', '2'); time.sleep(0 if line.endswith(' 2') else 60)"
            with CoxeterGroup("A", 2, program=folder.fake(code), timeout=30) as group:
                items = group.iter_bruhat_interval("e", "2")
                self.assertEqual(next(items), ())
                items._lines._limit.left = 20
                time.sleep(3)
                self.assertEqual(list(items), [(1,), (2,)])
                # The end of the list is awaited too, and it is one limit for all items.
                items = group.iter_bruhat_interval("e", "1")
                self.assertEqual([next(items) for _ in range(3)], [(), (1,), (2,)])
                items._lines._limit.left, begun = 0.5, time.monotonic()
                with self.assertRaises(QuestionTimeout):
                    next(items)
                self.assertLess(time.monotonic() - begun, 30)

    def test_the_whole_answer(self):
        """A program that stalls behind its first lines is late, whatever asked it."""
        cells = {"": ["lcells", "rcells", "lrcells"], "e - 1:1": ["lwgraph", "rwgraph"]}
        answers = {line: ("4", item or "e") for item, lines in cells.items() for line in lines}
        answers.update({"cert 1": ("cert 2 3", "element 1"), "module 1": ("2",), "klbasis 1": ("2", "e:1"), "extremals 1": ("2", "e:1")})
        calls = [
            lambda it: it.left_cells(),
            lambda it: it.right_cells(),
            lambda it: it.two_sided_cells(),
            lambda it: list(it.iter_left_cells()),
            lambda it: it.W_graph(),
            lambda it: list(it.iter_W_graph("right")),
            lambda it: it.cell_order(),
            lambda it: it.left_cell("1"),
            lambda it: it.a_value("1"),
            lambda it: it.duflo_involutions(),
            lambda it: it.mu_table(),
            lambda it: it.certificate("1"),
            lambda it: it.cell_module("1"),
            lambda it: it.kazhdan_lusztig_basis("1"),
            lambda it: list(it.iter_kazhdan_lusztig_basis("1")),
            lambda it: it.extremal_pairs("1"),
            lambda it: it.singular_locus("1"),
            lambda it: it.kazhdan_lusztig_table(["1"]),
        ]
        code = f"if line.startswith('compute'): say(line[8:])\nelse: say(*{answers!r}[line]); time.sleep(1000)"
        with fakes.Fakes() as folder:
            stalls = folder.fake(code)
            for number, call in enumerate(calls):
                for told in (False, True):
                    with self.subTest(number), CoxeterGroup("A", 2, program=stalls, timeout=0.3, progress=told) as group:
                        begun = time.monotonic()
                        with self.assertRaises(QuestionTimeout), contextlib.redirect_stderr(io.StringIO()):
                            call(group)
                        self.assertLess(time.monotonic() - begun, 30)
                        self.assertIsNone(group.program._process)

    def test_what_is_not_read(self):
        """A program that reads no further is late as well, when more is sent than the pipe holds."""
        stops = "import sys, time\nfor line in iter(sys.stdin.readline, ''):\n"
        stops += "    if line == chr(9) + chr(10): sys.stdout.write('error 19\\n'); sys.stdout.flush()\n"
        stops += "    elif line.startswith('length'): time.sleep(1000)\n"
        with fakes.Fakes() as folder, CoxeterGroup("A", 2, program=folder.python(stops), timeout=0.5) as group:
            begun = time.monotonic()
            with self.assertRaises(QuestionTimeout):
                group.jobs([["length 1" + " " * 4000] * 400])
            self.assertLess(time.monotonic() - begun, 30)

    def test_that_is_late_while_it_starts(self):
        """The limit ends before there is a process."""
        popen = subprocess.Popen

        def slow(*words, **more):
            time.sleep(0.5)
            return popen(*words, **more)

        with fakes.Fakes() as folder, unittest.mock.patch.object(parents.subprocess, "Popen", slow):
            for code in ("time.sleep(1000)", "say('1')"):
                with CoxeterGroup("A", 2, program=folder.fake(code), timeout=0.2) as group:
                    begun = time.monotonic()
                    with self.assertRaises(QuestionTimeout) as caught:
                        group.length("1")
                    self.assertLess(time.monotonic() - begun, 30)
                    self.assertEqual(caught.exception.line, "length 1")

    def test_just_in_time_or_late(self):
        """Whatever comes first, the answer or the end of the time: there is the answer or a QuestionTimeout."""
        random.seed(8)
        late = 0
        with CoxeterGroup("A", 6) as group:
            longest, times = group.long_element(), []
            for _ in range(5):
                begun = time.monotonic()
                group.ask(group._line("interval", ("e", longest)))
                times.append(time.monotonic() - begun)
            for _ in range(200):
                # A limit counts in whole milliseconds, and this answer takes several: so some limits are too short on any machine.
                with group.within(random.uniform(1e-5, 2 * min(times))):
                    try:
                        self.assertEqual(len(group.bruhat_interval("e", longest)), 5040)
                        self.assertEqual(sum(1 for _ in group.iter_kazhdan_lusztig_basis("1234321")), 68)
                        self.assertEqual(group.jobs([["length 1"] * 20]), [[["1"]] * 20])
                    except QuestionTimeout:
                        late += 1
                self.assertEqual(group.length("123"), 3)
        self.assertGreater(late, 10)

    def test_more_that_is_there_is_late_too(self):
        """The time is over before the whole answer is read, though its next lines are there each time."""
        with CoxeterGroup("A", 6) as group:
            longest = group.long_element()
            for _ in range(20):
                self.assertEqual(group.length("1"), 1)
                with group.within(1e-5), self.assertRaises(QuestionTimeout):
                    group.bruhat_interval("e", longest)
        with Program(group="type A 2") as program:
            program.ask("length 1")
            # The answer is there before it is read.
            program.watch, program.timeout = lambda question, comes: (comes(60), time.sleep(0.5)), 0.3
            with self.assertRaises(QuestionTimeout):
                program.ask("length 12")

    def test_a_checker_that_stalls(self):
        with fakes.Fakes() as folder, CoxeterGroup("A", 2) as group:
            stalls = folder.shell("exec sleep 1000")
            with self.assertRaises(QuestionTimeout):
                check(group.certificate("1"), stalls, timeout=0.3)
            with group.within(0.5), self.assertRaises(QuestionTimeout):
                group.kazhdan_lusztig_table(["1"], certified=True, checker=stalls)

    def test_what_is_no_limit(self):
        wrong = [(it, ValueError) for it in (0, -1, math.nan, math.inf)] + [(it, TypeError) for it in ("1", True)]
        for value, error in wrong:
            with self.assertRaises(error):
                CoxeterGroup("A", 2, timeout=value)
            with self.assertRaises(error), CoxeterGroup("A", 2).within(value):
                pass


class Wrong(unittest.TestCase):
    """Programs that die, close a pipe, or answer something else."""

    def setUp(self):
        self.folder = fakes.Fakes()
        self.addCleanup(self.folder.folder.cleanup)

    def fails(self, kind, program, call=lambda group: group.length("1"), **more):
        """A program's failure is raised, more than once, and no process is left."""
        with CoxeterGroup("A", 3, program=program, **more) as group:
            for _ in range(2):
                with self.assertRaises(kind) as caught:
                    call(group)
                self.assertIsNone(group.program._process)
                self.assertIsInstance(caught.exception, ProgramError)
        return caught.exception

    def test_that_ends_at_once(self):
        for end, status in (("exit 0", 0), ("exit 5", 5), ("kill -9 $$", -9), ("exec >&-; exit 3", 3)):
            error = self.fails(ProgramEnded, self.folder.shell(end))
            self.assertEqual(error.status, status)
            self.assertIn("before it was asked anything", str(error))

    def test_that_dies_in_the_middle(self):
        for code, status, words in [
            ("sys.exit(5)", 5, "ran out of memory"),
            ("os.kill(os.getpid(), signal.SIGKILL)", -9, "signal 9"),
            ('sys.stdout.write("1"); sys.stdout.flush(); os._exit(4)', 4, "could not write"),
            ('say("1"); os._exit(6)', 6, "16,777,216"),
            ('say("1"); sys.stdout.write("error 1"); sys.stdout.flush(); os._exit(1)', 1, "exit status 1)"),
        ]:
            error = self.fails(ProgramEnded, self.folder.fake(code))
            self.assertEqual(error.status, status)
            self.assertIn(words, str(error))
            self.assertIn("'length 1'", str(error))

    def test_that_dies_in_the_middle_of_a_list(self):
        dies = self.folder.fake('say("3", "e", "1 21"); sys.exit(5)')
        self.fails(ProgramEnded, dies, lambda group: group.left_cells())
        with CoxeterGroup("A", 3, program=dies) as group:
            cells = group.iter_left_cells()
            self.assertEqual([next(cells), next(cells)], [[()], [(1,), (2, 1)]])
            with self.assertRaises(ProgramEnded) as caught:
                next(cells)
            self.assertEqual((caught.exception.status, caught.exception.line), (5, "lcells"))

    def test_that_dies_between_questions(self):
        with CoxeterGroup("B", 3) as group:
            self.assertEqual(group.length("12"), 2)
            pid = pid_of(group)
            os.kill(pid, signal.SIGKILL)
            with self.assertRaises(ProgramEnded) as caught:
                group.length("12")
            self.assertEqual(caught.exception.status, -9)
            self.assertEqual(group.length("123232323"), 1)
            self.assertNotEqual(pid_of(group), pid)

    @unittest.mock.patch("coxeter_shell.parents.PATIENCE", 0.2)
    def test_pipes_that_close(self):
        error = self.fails(ProgramEnded, self.folder.fake('os.close(1); time.sleep(100)'))
        self.assertIsNone(error.status)
        self.assertIn("closed a pipe", str(error))
        cut = self.folder.fake('say("3", "e"); os.close(1); time.sleep(100)')
        error = self.fails(ProgramEnded, cut, lambda group: group.left_cells())
        self.assertIsNone(error.status)
        # Its standard input is closed, so that the next question can't be written.
        code = 'os.close(0); say("1", "error 19"); time.sleep(100)'
        with CoxeterGroup("A", 3, program=self.folder.fake(code)) as group:
            self.assertEqual(group.length("1"), 1)
            with self.assertRaises(ProgramEnded) as caught:
                group.length("1")
            self.assertIsNone(caught.exception.status)
            self.assertEqual(group.length("1"), 1)

    def test_other_programs(self):
        early = "for k in 1 2 3; do echo error 19; done; echo x; cat"
        for source in ("cat", "yes", "echo Welcome; cat", early, "echo error 10; cat"):
            error = self.fails(ProgramError, self.folder.shell(source))
            self.assertIsInstance(error, UnexpectedAnswer)

    def test_wrong_arguments(self):
        for options in ({"context": 0}, {"roots": "x"}, {"coef": -1}, {"roots": 4097}, {"workers": 17}):
            with CoxeterGroup("A", 3) as group, self.assertRaises(ProgramError) as caught:
                group.program.options = options
                group.length("1")
            self.assertIn("its options are wrong", str(caught.exception))
            self.assertIn("usage", str(caught.exception))

    def test_unexpected_answers(self):
        """Each method refuses answers that are not of its shape."""
        refusals = ["error", "error x", "error 7", "error 016", "error 100", "errors", "error 16 ", "error  16"]
        one = [(), ("error 16", "1"), "", "\x07", "é", *refusals]
        pairs = ["e", "e:", ":1", "e:x", "e:0+q", "e:1q", "e:q^1", "e:1+q^2+q", "e:1:1", "e 1", "4:1"]
        sets = ["L - R", "L -", "- -", "L 1 R 4", "L 21 R -", "L 11 R -", "L  R -", "L 1 R - ", "l 1 R 1", "L 1 R 1 R 1"]
        numbers = ["x", "", " 1", "1 ", "01", "+1", "1.0", "1 1", "-1"]
        polynomials = ["x", "1+0q", "q+1", "1q", "q^0", "1+", "+1", "--1", "1 + q", "2*q", "q^2+q^2", "1,1", "01", "q^01"]
        polynomials += ["-0", "-", "^2", "q^999999999999"]
        vertices = ["e", "e ", "e - 1", "e - 1:x", "e - 1:", "e - :1", "e - 4:1", "e - 1:1  2:1", "e 4", "1 21", " e -", "e - "]

        def lists(items, *unordered):
            """The same as lists of one item, lists of two items, and lists whose first line is no count, or a wrong one."""
            yield from (("2", *pair) for pair in unordered)
            yield from ((), ("x",), ("-1",), ("01",), ("1",), ("2", "e"), ("0", "e"), ("1", "e", "1"), ("1", ""), ("+0",))
            for item in items:
                yield "1", item

        work = "words 1 entries 1 degree 0 sum"
        words = ["", "4", "1e", "ee", "1 2", "1.2", "-", "0", "10", "x"]
        cells = ["", "4", "e  1", " e", "e ", "1,2", "e -", "1 1", "1 e", "12 2"]
        order = [("1", "1"), ("1", "e"), ("2", "1"), ("12", "3")]
        graphs = [("e - 1:1", "1 1"), ("e - 1:1", "1 1 e:2"), ("e -", "1 1 e:1"), ("e - 1:1 1:1", "1 1 e:1"), ("1 1", "e -")]
        graphs += [("e - 1:0", "1 1 e:0"), ("e - 1:1", "1 1 2:1"), ("e - 2:1 1:1", "1 1 e:1")]
        for call, answers in [
            (lambda it: it.normal_form("1"), words),
            (lambda it: it.inverse("1"), words),
            (lambda it: it.length("1"), numbers),
            (lambda it: it.left_descents("1"), sets),
            (lambda it: it.right_descents("1"), sets),
            (lambda it: it.bruhat_le("1", "1"), ["True", "1", "true ", "e", "yes"]),
            (lambda it: it.betti_numbers("1"), ["", "x", "1  1", " 1", "1 ", "1 -1", "01", "1,1"]),
            (lambda it: it.poincare_polynomial("1"), ["", "x", "1  1"]),
            (lambda it: it.intersection_betti_numbers("1"), ["", "x", "1  1", "1 q"]),
            (lambda it: it.r_polynomial("1", "1"), polynomials),
            (lambda it: it.kazhdan_lusztig_polynomial("1", "1"), polynomials),
            (lambda it: it.inverse_kazhdan_lusztig_polynomial("1", "1"), polynomials),
            (lambda it: it.mu_coefficient("1", "1"), ["x", "", "01", "+1", "-0", "1.0", "1 1", "--1", "q"]),
            (lambda it: it.work(1, 1), ["", "x", "words 1", work, f"{work} x", "1 1 1 1", f"{work} 1 x 1", f" {work} 1"]),
            (lambda it: it.bruhat_interval("1", "1"), lists(words, *order)),
            (lambda it: it.coatoms("1"), lists(words, *order)),
            (lambda it: it.kazhdan_lusztig_basis("1"), lists(pairs, ("1:1", "1:1"), ("1:1", "e:1"))),
            (lambda it: it.extremal_pairs("1"), lists(pairs, ("1:1", "1:1"), ("12:1", "2:1"))),
            (lambda it: list(it.W_graph("left").edges()), lists(vertices, *graphs)),
            (lambda it: list(it.W_graph("right").edges()), lists(vertices, *graphs)),
            (lambda it: it.left_cells(), lists(cells, *order)),
            (lambda it: it.right_cells(), lists(cells, *order)),
            (lambda it: it.two_sided_cells(), lists(cells, *order)),
        ]:
            for answer in [*one, *answers]:
                lines = (answer,) if isinstance(answer, str) else answer
                with self.subTest(lines=lines), CoxeterGroup("A", 3, program=self.saying(*lines)) as group:
                    with self.assertRaises(UnexpectedAnswer) as caught:
                        call(group)
                    self.assertIn("an unexpected answer to", str(caught.exception))
                    self.assertIsNone(group.program._process)

    def saying(self, *lines):
        """A stand-in that answers these lines, as a script of the shell, which starts sooner."""
        text = "".join(f"{line}\\n" for line in lines)
        return self.folder.shell(
            f"""while IFS= read -r line; do case $line in '\t') echo error 19;; type*|'') ;; *) printf %b '{text}';; esac; done"""
        )

    def test_a_group_that_is_answered(self):
        for text in ("ok", "0", "true"):
            source = f"while IFS= read -r line; do case $line in '\t') echo error 19;; type*) echo {text};; esac; done"
            error = self.fails(UnexpectedAnswer, self.folder.shell(source))
            self.assertEqual((error.line, error.answer), ("type A 3", text))
            self.assertIn("nothing should have come", str(error))

    def test_a_program_without_the_command(self):
        with CoxeterGroup("A", 3, program=self.saying("error 10")) as group:
            with self.assertRaises(Refusal) as caught:
                group.left_cells()
            self.assertEqual(caught.exception.number, 10)


if __name__ == "__main__":
    unittest.main()
