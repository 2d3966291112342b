"""How far a long list has been read, on a terminal and elsewhere."""
import os
import pty
import subprocess
import sys
import tempfile
import types
import unittest
import unittest.mock

import fakes
from coxeter_shell import progress

SOURCE = """
import sys
from coxeter_shell import CoxeterGroup, progress
progress.DELAY = progress.PAUSE = {delay}
with CoxeterGroup("A", 3, progress={shown}) as group:
    print(len(group.left_cells()), len(group.kazhdan_lusztig_basis("2132")), len(list(group.iter_W_graph())))
    cells = group.iter_right_cells()
    next(cells), next(cells)
    del cells
    print(group.length("12"))
"""

# It says what it is called with.
TQDM = """
import sys
class tqdm:
    def __init__(self, total, desc, file, leave):
        assert file is sys.stderr and leave is False
        self.count, self.total = 0, total
        file.write(f"[{desc} {total}")
    def update(self, more):
        self.count += more
    def close(self):
        sys.stderr.write(f" {self.count}]")
"""


class Progress(unittest.TestCase):
    def run_on(self, terminal, delay=0, shown=None, tqdm="raise ImportError"):
        """What comes to standard error, which is a terminal or a pipe."""
        with tempfile.TemporaryDirectory() as folder:
            with open(os.path.join(folder, "tqdm.py"), "w", encoding="ascii") as out:
                out.write(tqdm)
            near, far = pty.openpty() if terminal else os.pipe()
            words = [sys.executable, "-c", SOURCE.format(delay=delay, shown=shown)]
            path = os.pathsep.join([folder, *filter(None, [os.environ.get("PYTHONPATH")])])
            environment = {**os.environ, "PYTHONPATH": path}
            ran = subprocess.run(words, stdout=subprocess.PIPE, stderr=far, env=environment)
            os.close(far)
            said = b""
            try:
                while True:
                    more = os.read(near, 65536)
                    if not more:
                        break
                    said += more
            except OSError:  # the end of a terminal
                pass
            os.close(near)
        self.assertEqual((ran.returncode, ran.stdout), (0, b"10 14 24\n2\n"))
        return said.decode()

    def test_a_line(self):
        said = self.run_on(True)
        self.assertTrue(said.startswith("\rlcells: 1 of 10\rlcells: 2 of 10\r"))
        for last in ("lcells: 10 of 10", "klbasis 2132: 14 of 14", "lwgraph: 24 of 24"):
            self.assertIn(f"\r{last}\r{' ' * len(last)}\r", said)
        self.assertTrue(said.endswith(f"\rrcells: 2 of 10\r{' ' * len('rcells: 2 of 10')}\r"))

    def test_nothing_where_it_is_quick(self):
        self.assertEqual(self.run_on(True, delay=100), "")

    def test_nothing_where_there_is_no_terminal(self):
        self.assertEqual(self.run_on(False), "")

    def test_as_it_was_asked(self):
        self.assertEqual(self.run_on(True, shown=False), "")
        self.assertIn("lcells: 10 of 10", self.run_on(False, shown=True))

    def test_tqdm(self):
        said = self.run_on(True, tqdm=TQDM)
        self.assertEqual(said, "[lcells 10 10][klbasis 2132 14 14][lwgraph 24 24][rcells 10 2]")

    def test_while_the_first_line_is_awaited(self):
        """A stand-in takes its time before it answers, and then between two lines of a list."""
        source = """
import sys
from coxeter_shell import CoxeterGroup, progress
progress.WAIT, progress.TICK, progress.DELAY = 0.05, 0.1, 100
with CoxeterGroup("A", 2, program=sys.argv[1], progress=True) as group:
    print(len(group.left_cells()), group.length("12"))
"""
        with fakes.Fakes() as folder:
            slow = folder.fake('time.sleep(1)\nsay(*(["1", "e 1"] if line == "lcells" else ["7"]))')
            ran = subprocess.run([sys.executable, "-c", source, slow], capture_output=True, check=True)
        self.assertEqual(ran.stdout, b"1 7\n")
        said = ran.stderr.decode()
        # On a busy machine the program's start and the line that sets the group are awaited too.
        start = r"^((\rthe program starts, [0-9]+ s)+\r +\r)?((\rtype A 2: computing, [0-9]+ s)+\r +\r)?"
        one = r"(\r{0}: computing, [0-9]+ s){{2,}}\r +\r"
        self.assertRegex(said, f"{start}{one.format('lcells')}{one.format('length 12')}$")

    def test_in_a_notebook(self):
        shell = types.SimpleNamespace()
        stub = types.SimpleNamespace(get_ipython=lambda: shell)
        with unittest.mock.patch.dict(sys.modules, {"IPython": stub}):
            self.assertFalse(progress.in_notebook())
            shell.kernel = object()
            self.assertTrue(progress.in_notebook() and progress.can_show())


if __name__ == "__main__":
    unittest.main()
