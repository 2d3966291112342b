"""Pictures and the command line that makes them."""
import os
import shutil
import subprocess
import sys
import tempfile
import unittest
import unittest.mock

import coxeter_shell
import fakes
from coxeter_shell import CoxeterGroup, drawing, find_program, pictures

HASSE = """graph hasse {
  rankdir=BT
  node [shape=plaintext]
  { rank=same; "e"; }
  { rank=same; "1"; "2"; }
  { rank=same; "12"; }
  "e" -- "1"
  "e" -- "2"
  "1" -- "12"
  "2" -- "12"
}
"""

W_GRAPH = r"""graph wgraph {
  "e" [descents="-", label="e\n{}"]
  "1" [descents="1", label="1\n{1}"]
  "2" [descents="2", label="2\n{2}"]
  "12" [descents="1", label="12\n{1}"]
  "21" [descents="2", label="21\n{2}"]
  "121" [descents="12", label="121\n{12}"]
  "e" -- "1"
  "e" -- "2"
  "1" -- "12"
  "1" -- "21"
  "2" -- "12"
  "2" -- "21"
  "12" -- "121"
  "21" -- "121"
}
"""

LEFT_CELLS = """graph cells {
  subgraph cluster_1 { "e"; }
  subgraph cluster_2 { "1"; "21"; }
  subgraph cluster_3 { "2"; "12"; }
  subgraph cluster_4 { "121"; }
"""

BOTH_CELLS = """graph cells {
  subgraph cluster_1 { "e"; }
  subgraph cluster_2 { "1"; "2"; "12"; "21"; }
  subgraph cluster_3 { "121"; }
"""


def run(*words, path=None):
    """The status, output and errors of `python -m coxeter_shell`."""
    environment = {**os.environ, **({"PATH": path} if path else {})}
    ran = subprocess.run([sys.executable, "-m", "coxeter_shell", *words], capture_output=True, env=environment)
    return ran.returncode, ran.stdout.decode(), ran.stderr.decode()


class Pictures(unittest.TestCase):
    def test_texts(self):
        edges = W_GRAPH[W_GRAPH.index('  "e" --') :]
        with CoxeterGroup("A", 2) as group:
            self.assertEqual(pictures.hasse(group, "12"), HASSE)
            self.assertEqual(pictures.w_graph(group), W_GRAPH)
            self.assertEqual(pictures.cells(group), LEFT_CELLS + edges)
            self.assertEqual(pictures.cells(group, "two-sided"), BOTH_CELLS + edges)
            self.assertIn('{ "1"; "12"; }', pictures.cells(group, "right"))
            self.assertEqual(pictures.hasse(group, "21", "12"), "graph hasse {\n  rankdir=BT\n  node [shape=plaintext]\n}\n")
            for draw in (pictures.w_graph, pictures.cells):
                with self.assertRaises(ValueError):
                    draw(group, "middle")
        with CoxeterGroup("A", 10) as group:
            self.assertIn('"10" -- "9.10"', pictures.hasse(group, "9.10"))

    def test_values_of_edges(self):
        """An edge is labelled where its value is not 1. No small group has one, so a stand-in answers."""
        with fakes.Fakes() as folder:
            program = folder.saying("3", "e - 1:2 2:1", "1 1 e:2", "2 2 e:1")
            with CoxeterGroup("A", 2, program=program) as group:
                text = pictures.w_graph(group)
        self.assertIn('  "e" -- "1" [label=2]\n  "e" -- "2"\n', text)

    def test_command_line(self):
        self.assertEqual(run("hasse", "A 2", "12"), (0, HASSE, ""))
        self.assertEqual(run("hasse", "A 2", "e", "12"), (0, HASSE, ""))
        self.assertEqual(run("wgraph", "A 2"), (0, W_GRAPH, ""))
        self.assertEqual(run("wgraph", "matrix 2 3", "--side", "left"), (0, W_GRAPH, ""))
        self.assertEqual(run("cells", "A 2", "--side=two-sided")[1][: len(BOTH_CELLS)], BOTH_CELLS)
        for status, words, said in [
            (1, ("hasse", "A 2", "13"), "error 16"),
            (1, ("hasse", "H 3", "1"), "error 13"),
            (1, ("hasse", "A", "1"), "is no group"),
            (1, ("wgraph", "matrix 2 0"), "error 31"),
            (1, ("cells", "A 3", "--context", "23"), "error 31"),
            (1, ("cells", "A 3", "--program", "/nowhere"), "there is no program '/nowhere'"),
            (1, ("hasse", "A 2", "12", "--out", "h.gif"), ".svg or .png"),
            (1, ("hasse", "A 2", "12", "--out", "/nowhere/h.dot"), "/nowhere/h.dot"),
            (2, ("tree", "A 2"), "usage"),
            (2, ("hasse", "A 2"), "usage"),
            (2, ("hasse", "A 2", "1", "2", "12"), "one word or two"),
            (2, ("wgraph", "A 2", "--side", "middle"), "invalid choice"),
        ]:
            ended, out, error = run(*words)
            self.assertEqual((ended, out), (status, ""))
            self.assertIn(said, error)
            self.assertNotIn("Traceback", error)

    def test_files(self):
        with tempfile.TemporaryDirectory() as folder:
            for name in ("h.dot", "h.gv", "H.DOT"):
                path = os.path.join(folder, name)
                self.assertEqual(run("hasse", "A 2", "12", "--out", path), (0, "", ""))
                with open(path, encoding="ascii") as made:
                    self.assertEqual(made.read(), HASSE)

    def test_graphviz(self):
        """What `dot` writes comes into the file. A stand-in writes its arguments and its input."""
        with fakes.Fakes() as folder, tempfile.TemporaryDirectory() as tools:
            shutil.copy(folder.shell('echo "$*"; cat'), os.path.join(tools, "dot"))
            both = f"{tools}:{os.environ['PATH']}"
            for kind in ("svg", "png"):
                path = os.path.join(tools, f"h.{kind}")
                self.assertEqual(run("hasse", "A 2", "12", "--out", path, path=both), (0, "", ""))
                with open(path, encoding="ascii") as made:
                    self.assertEqual(made.read(), f"-T{kind}\n{HASSE}")
            shutil.copy(folder.shell("echo broken >&2; exit 3"), os.path.join(tools, "dot"))
            path = os.path.join(tools, "broken.svg")
            ended, _, error = run("hasse", "A 2", "12", "--out", path, path=both)
            self.assertEqual((ended, error, os.path.exists(path)), (1, "coxeter_shell: dot failed: broken\n", False))
            path = os.path.join(tools, "broken.png")
            words = ("hasse", "A 2", "12", "--out", path, "--program", find_program())
            ended, _, error = run(*words, path=os.path.join(tools, "none"))
            self.assertEqual(ended, 1)
            self.assertIn("is not installed (Debian: the package graphviz)", error)

    def test_svg_without_graphviz(self):
        """A plain picture is drawn, as `svg()` draws it."""
        with tempfile.TemporaryDirectory() as folder, CoxeterGroup("A", 2) as group:
            for words, graph in [
                (("hasse", "A 2", "121"), group.hasse_diagram("e", "121")),
                (("hasse", "A 2", "1", "121"), group.hasse_diagram("1", "121")),
                (("wgraph", "A 2", "--side", "right"), group.W_graph("right")),
            ]:
                path = os.path.join(folder, "p.svg")
                program = ("--program", find_program())
                self.assertEqual(run(*words, "--out", path, *program, path=os.path.join(folder, "none")), (0, "", ""))
                with open(path, encoding="utf-8") as made:
                    self.assertEqual(made.read(), drawing.layered(*graph.layers()))

    def test_png_in_notebooks(self):
        """A notebook gets the PNG of graphviz beside the SVG: none where there is no graphviz, and none of a large graph."""
        with fakes.Fakes() as folder, tempfile.TemporaryDirectory() as tools, CoxeterGroup("A", 2) as group:
            graphs = group.W_graph(), group.hasse_diagram("e", "121"), group.cell_order()
            shutil.copy(folder.shell('echo "$*"; cat'), os.path.join(tools, "dot"))
            for graph in graphs:
                with unittest.mock.patch.dict(os.environ, PATH=f"{tools}:{os.environ['PATH']}"):
                    self.assertEqual(graph._repr_png_(), f"-Tpng\n{graph.dot()}".encode("ascii"))
                    with unittest.mock.patch.object(coxeter_shell.graphs, "MOST_DRAWN", len(graph) - 1):
                        self.assertIsNone(graph._repr_png_())
                with unittest.mock.patch.dict(os.environ, PATH=os.path.join(tools, "none")):
                    self.assertIsNone(graph._repr_png_())
                    self.assertIn("</svg>", graph._repr_svg_())


if __name__ == "__main__":
    unittest.main()
