"""W-graphs, Hasse diagrams and tables, as other programs and notebooks see them."""
import copy
import csv
import io
import os
import pickle
import sys
import tempfile
import types
import unittest
import unittest.mock
import xml.etree.ElementTree

import fakes
import reference
from coxeter_shell import CoxeterGroup, Polynomial, Refusal, UnexpectedAnswer, drawing, gap, graphs, magic, pictures
from coxeter_shell.errors import CoxeterError

SVG = "{http://www.w3.org/2000/svg}"


def components(steps, vertices):
    """The strong components of a directed graph, as a set of sets."""
    after = {x: set() for x in vertices}
    for x, y, _ in steps:
        after[x].add(y)
    reach = {}
    for x in vertices:
        seen, todo = {x}, [x]
        while todo:
            new = after[todo.pop()] - seen
            seen |= new
            todo.extend(new)
        reach[x] = seen
    return {frozenset(y for y in reach[x] if x in reach[y]) for x in vertices}


class Graphs(unittest.TestCase):
    def test_steps(self):
        """The strong components of the steps are the cells of permutations with equal tableaux."""
        for n in (1, 2, 3, 4):
            real = reference.group(n)
            with CoxeterGroup("A", n) as group:
                for side, part in (("left", 1), ("right", 0)):
                    graph = group.W_graph(side)
                    steps = list(graph.steps())
                    cells = real.cells_of(lambda w: reference.tableaux(w)[part])
                    self.assertEqual(components(steps, list(graph)), set(map(frozenset, cells)))
                    for x, y, value in steps:
                        self.assertTrue(set(graph[x].descents) - set(graph[y].descents))
                        self.assertEqual(value, graph[x].edges[y])

    def test_networkx(self):
        """What networkx is asked for. A stand-in notes it; test_optional has the real one."""
        with CoxeterGroup("A", 1) as group:
            with unittest.mock.patch.dict(sys.modules, {"networkx": unittest.mock.MagicMock()}) as modules:
                made = group.W_graph().networkx()
                nodes, edges = made.add_nodes_from.call_args[0][0], made.add_edges_from.call_args[0][0]
                self.assertEqual(list(nodes), [((), {"descents": ()}), ((1,), {"descents": (1,)})])
                self.assertEqual(list(edges), [((), (1,), {"mu": 1})])
                self.assertEqual(modules["networkx"].Graph.call_args[1], {"side": "left"})
                made = group.hasse_diagram("e", "1").networkx()
                self.assertEqual(list(made.add_edges_from.call_args[0][0]), [((), (1,))])
                made = group.cell_order("right").networkx()
                self.assertEqual(modules["networkx"].DiGraph.call_args[1], {"side": "right"})
                self.assertEqual(list(made.add_nodes_from.call_args[0][0]), [((), {"cell": [()]}), ((1,), {"cell": [(1,)]})])
                self.assertEqual(list(made.add_edges_from.call_args[0][0]), [((1,), ())])

    def test_sage(self):
        """What Sage is asked for. Without Sage it is an ImportError."""
        stub = unittest.mock.MagicMock()
        with CoxeterGroup("A", 1) as group:
            with unittest.mock.patch.dict(sys.modules, {"sage": types.ModuleType("sage"), "sage.all": stub}):
                Polynomial([1, 0, 2]).sage()
                self.assertEqual(stub.PolynomialRing.call_args[0], (stub.ZZ, "q"))
                Polynomial([3]).sage("v")
                self.assertEqual(stub.PolynomialRing.call_args[0], (stub.ZZ, "v"))
                self.assertEqual(stub.PolynomialRing.return_value.call_args[0], ([3],))
                made = group.W_graph().sage()
                self.assertEqual(stub.Graph.call_args[0], ([[(), (1,)], [((), (1,), 1)]],))
                self.assertEqual(made.set_vertices.call_args[0], ({(): (), (1,): (1,)},))
                group.hasse_diagram("e", "1").sage()
                self.assertEqual(stub.Poset.call_args[0], (([(), (1,)], [[(), (1,)]]),))
                group.cell_order().sage()
                self.assertEqual(stub.Poset.call_args, unittest.mock.call(([(), (1,)], [[(1,), ()]]), cover_relations=True))
                ring = unittest.mock.MagicMock()
                self.assertIs(Polynomial([1, 0, 2])._polynomial_(ring), ring.return_value)
                self.assertEqual(stub.PolynomialRing.return_value.call_args[0], ([1, 0, 2],))
                self.assertEqual(ring.call_args[0], (stub.PolynomialRing.return_value.return_value,))
            with unittest.mock.patch.dict(sys.modules, {"sage": None, "sage.all": None}):
                for call in (Polynomial([1]).sage, group.W_graph().sage, group.cell_order().sage, group.sage):
                    with self.assertRaises(ImportError):
                        call()


class Read(unittest.TestCase):
    """W-graphs as they are read, and what is no W-graph."""

    def test_vertices(self):
        """The graph, its vertices and the items of the iterator say the same."""
        for kind in (("B", 3), ("G", 2), ("A", 10)):
            with CoxeterGroup(*kind) as group:
                for side in ("left", "right"):
                    if group.cardinality() > 1000:
                        continue
                    graph = group.W_graph(side)
                    vertices = list(group.iter_W_graph(side))
                    self.assertEqual(list(graph.vertices.values()), vertices)
                    self.assertEqual([graph[x] for x in graph], vertices)
                    edges = [(x.element, y, value) for x in vertices for y, value in x.edges.items()]
                    both = [*graph.edges(), *((y, x, value) for x, y, value in graph.edges())]
                    self.assertEqual(sorted(edges), sorted(both))
                    self.assertEqual(pickle.loads(pickle.dumps(graph)), graph)

    def test_values(self):
        """Values other than 1, in a graph of a stand-in, and in a part of it."""
        lines = ["4", "e - 1:2 2:1", "1 1 e:2 21:-3", "2 2 e:1", "21 2 1:-3"]
        with fakes.Fakes() as folder, CoxeterGroup("A", 2, program=folder.saying(*lines)) as group:
            graph = group.W_graph()
            edges = [((), (1,), 2), ((), (2,), 1), ((1,), (2, 1), -3)]
            self.assertEqual(list(graph.edges()), edges)
            self.assertEqual([graph[x].edges for x in graph], [{(1,): 2, (2,): 1}, {(): 2, (2, 1): -3}, {(): 1}, {(1,): -3}])
            self.assertEqual(list(graph.part([(1,), (2, 1)]).edges()), edges[2:])
            self.assertEqual(sorted(graph.steps())[-1], ((2, 1), (1,), -3))
            self.assertEqual(graph.steps_between({x: len(x) for x in graph}), {(1, 0), (1, 2), (2, 1)})

    def test_what_is_none(self):
        for lines, why in [
            (["2", "e - 1:1", "1 1"], "the edge from e to 1 is not an edge back"),
            (["2", "e -", "1 1 e:1"], "the edge from 1 to e is not an edge back"),
            (["2", "e - 1:1", "1 1 e:2"], "is not an edge back"),
            (["3", "e - 1:1 2:1", "1 1 e:1", "2 2 1:1"], "is not an edge back"),
            (["2", "e - e:1", "1 1"], "is not an edge back"),
            (["2", "e - 1:1 1:1", "1 1 e:1"], "ShortLex"),
            (["2", "e - 2:1", "1 1 e:1"], "no vertex"),
            (["2", "e - 3:1", "1 1 e:1"], "no letter"),
            (["2", "e - 1:0", "1 1 e:0"], "no value"),
            (["2", "e - 1:x", "1 1 e:x"], "no whole number"),
            (["2", "e", "1 1"], "label is missing"),
            (["2", "e 11 1:1", "1 1 e:1"], "no set of letters"),
            (["2", "1 1 e:1", "e - 1:1"], "ShortLex"),
            (["2", "e - 1:1  2:1", "1 1 e:1"], "no whole number"),
            (["1", "e - "], "no whole number"),
            (["2", "e - 1:1", "1 1 e:1 "], "no whole number"),
            (["2", "e -  1:1", "1 1 e:1"], "no whole number"),
            (["3", "e - 2:1 1:1", "1 1 e:1", "2 2 e:1"], "ShortLex"),
            (["4", "e - 1:1 2:1", "1 1 e:1 12:1", "2 2 e:1 12:1", "12 1 2:1 1:1"], "ShortLex"),
            (["3", "e - 1:1 2:2 2:2", "1 1 e:1", "2 2 e:2 e:2"], "ShortLex"),
            (["3", "e - 1:1 2:1", "1 1 e:1", "2 2 e:2"], "the edge from e to 2 is not an edge back"),
            (["3", "e - 1:1 2:01", "1 1 e:1", "2 2 e:1"], "no whole number"),
            (["3", "e - 1:1 2:1", "1 1 e:1", "2 2 e:01"], "no whole number"),
            (["3", "e - 1:1", "1 1 e:1"], "the list should have 3 items"),
            (["1", "e - 1:1", "1 1 e:1"], "the list should have 1 items"),
        ]:
            with self.subTest(lines), fakes.Fakes() as folder, CoxeterGroup("A", 2, program=folder.saying(*lines)) as group:
                with self.assertRaises(UnexpectedAnswer) as caught:
                    list(group.W_graph().edges())
                self.assertIn(why, str(caught.exception))

    def test_wrong_vertices(self):
        """The vertices are read at once, with their labels."""
        for lines in (["2", "e", "1 1"], ["2", "e 11 1:1", "1 1 e:1"], ["2", "1 1 e:1", "e - 1:1"], ["2", "e - 1:1"], ["1", "3 - "]):
            with self.subTest(lines), fakes.Fakes() as folder, CoxeterGroup("A", 2, program=folder.saying(*lines)) as group:
                with self.assertRaises(UnexpectedAnswer):
                    group.W_graph()

    def test_wrong_edges(self):
        """They are told whenever edges are asked for, in whatever way, and the program is ended then. What needs no edges can be asked."""
        answers = {"lcells": ["2", "e", "1"], "lwgraph": ["2", "e - 1:1", "1 1 e:2"]}
        with fakes.Fakes() as folder, CoxeterGroup("A", 1, program=folder.fake(f"say(*{answers}[line])")) as group:
            graph = group.W_graph()
            self.assertEqual((len(graph), list(graph), (1,) in graph), (2, [(), (1,)], True))
            self.assertEqual((repr(graph), hash(graph)), ("<the left W-graph with 2 vertices>", hash((group, "left", 2))))
            for call in (
                lambda: graph[()],
                lambda: graph.vertices,
                lambda: next(graph.edges()),
                lambda: next(graph.edges_across(3)),
                lambda: next(graph.steps()),
                lambda: graph.steps_between({x: x for x in graph}),
                lambda: graph.part([()]),
                lambda: graph == group.W_graph(),
                lambda: pickle.dumps(graph),
                lambda: copy.copy(graph),
                lambda: gap(graph),
                graph.svg,
                graph.to_csv,
                graph.dot,
                group.mu_table,
                group.cell_order,
            ):
                with self.assertRaises(UnexpectedAnswer) as caught:
                    call()
                self.assertEqual((caught.exception.line, caught.exception.why), ("lwgraph", "the edge from e to 1 is not an edge back"))
                self.assertIsNone(group.program._process)

    def test_read_once(self):
        """A graph whose edges are not read is equal to the same one that was read, and so are their copies."""
        with CoxeterGroup("B", 3) as group:
            one, other, pickled, copied = (group.W_graph() for _ in range(4))
            with unittest.mock.patch.object(graphs.Edges, "read", side_effect=AssertionError):
                self.assertEqual((len(one), hash(one), list(one)), (48, hash(other), list(other)))
            edges = list(one.edges())
            with unittest.mock.patch.object(graphs.Edges, "read", side_effect=AssertionError):
                self.assertEqual((list(one.edges()), len(one.vertices)), (edges, 48))
            for it in (other, pickle.loads(pickle.dumps(pickled)), pickle.loads(pickle.dumps(one)), copy.deepcopy(copied), copy.copy(other)):
                self.assertEqual((it, list(it.edges())), (one, edges))
                self.assertNotEqual(it, group.W_graph("right"))
        # What was made before the group was closed is read after that too.
        with CoxeterGroup("B", 3) as group:
            closed = group.W_graph()
        self.assertEqual(list(closed.edges()), edges)

    def test_many_at_once(self):
        """What is asked for by lists of jobs is what single questions answer."""
        with CoxeterGroup("B", 3) as group, CoxeterGroup("B", 3, workers=2) as other:
            words = ["e", "1", "2312", "321", "33"] * 300
            for it in (group, other):
                for method in ("normal_form", "length", "inverse", "descents", "betti_numbers", "coatoms"):
                    single = {word: getattr(group, method)(word) for word in set(words)}
                    self.assertEqual(it._answers_of(method, words), [single[word] for word in words])
                    self.assertEqual((it._answers_of(method, []), it._answers_of(method, ["12"])), ([], [getattr(group, method)("12")]))
            pairs = [(x, y) for x in group.elements() for y in [(), (1, 2), (3, 2, 3)]]
            self.assertEqual(group._products(pairs), [group.product(*pair) for pair in pairs])
            with self.assertRaises(Refusal) as caught:
                group._normal_forms(["1", "4"])
            self.assertEqual((caught.exception.number, caught.exception.line), (16, "compute 4"))
            # The 8 representatives are asked for by their lengths. One of them alone is asked for by itself.
            with unittest.mock.patch.object(group.program, "ask", wraps=group.program.ask) as asked:
                self.assertEqual(len(list(group.coset_representatives([2, 3]))), 6)
                self.assertLessEqual(asked.call_count, 7)


class Tables(unittest.TestCase):
    def test_csv(self):
        with CoxeterGroup("A", 3) as group:
            for table, first, count in [
                (group.kazhdan_lusztig_basis("2132"), ["element", "polynomial"], 14),
                (group.left_cells(), ["cell", "element"], 24),
                (group.hasse_diagram("e", "121"), ["element", "covered"], 8),
                (group.W_graph(), ["x", "descents of x", "y", "descents of y", "mu"], len(list(group.W_graph().edges()))),
            ]:
                rows = list(csv.reader(io.StringIO(table.to_csv())))
                self.assertEqual(rows[0], first)
                self.assertEqual(len(rows) - 1, count)
                self.assertTrue(all(len(row) == len(first) for row in rows))
            self.assertIn("\n2,1+q\n", group.kazhdan_lusztig_basis("2132").to_csv())
            self.assertIn("\n1,e\n2,1\n2,21\n", group.left_cells().to_csv())
            self.assertIn("\ne,-,1,1,1\n", group.W_graph().to_csv())
            with tempfile.TemporaryDirectory() as folder:
                path = os.path.join(folder, "cells.csv")
                self.assertIsNone(group.left_cells().to_csv(path))
                with open(path, encoding="ascii", newline="") as made:
                    self.assertEqual(made.read(), group.left_cells().to_csv())

    def test_html(self):
        with CoxeterGroup("A", 3) as group:
            text = group.kazhdan_lusztig_basis("2132")._repr_html_()
            self.assertEqual((text.count("<tr>"), text.count("<td>1+q</td>"), text.count("<th>polynomial</th>")), (15, 2, 1))
            xml.etree.ElementTree.fromstring(text)
        with CoxeterGroup("A", 4) as group:
            text = group.left_cells()._repr_html_()
            self.assertEqual((text.count("<tr>"), text.count("and 60 more")), (62, 1))

    def test_pandas(self):
        """What pandas is asked for. A stand-in notes it; test_optional has the real one."""
        stub = unittest.mock.MagicMock()
        with CoxeterGroup("A", 1) as group, unittest.mock.patch.dict(sys.modules, {"pandas": stub}):
            group.kazhdan_lusztig_basis("1").to_frame()
            self.assertEqual(stub.DataFrame.call_args, unittest.mock.call([((), 1), ((1,), 1)], columns=["element", "polynomial"]))


class Drawings(unittest.TestCase):
    def test_plain(self):
        """Without graphviz there is a circle with its text for each element, and a line for each edge."""
        with CoxeterGroup("B", 3) as group:
            for graph in (group.W_graph(), group.hasse_diagram("e", "12321"), group.hasse_diagram("21", "12")):
                with unittest.mock.patch.object(pictures.shutil, "which", lambda _: None):
                    drawn = xml.etree.ElementTree.fromstring(graph._repr_svg_())
                texts = [it.text.split(" ")[0] for it in drawn.iter(f"{SVG}text")]
                self.assertEqual(sorted(texts), sorted(map(group.text, graph)))
                lines = list(drawn.iter(f"{SVG}line"))
                self.assertEqual(len(lines), len(list(graph.edges())))
                # An edge joins the middles of its two nodes.
                middles = {(it.get("cx"), it.get("cy")) for it in drawn.iter(f"{SVG}ellipse")}
                self.assertEqual(len(middles), len(texts))
                for line in lines:
                    self.assertTrue({(line.get("x1"), line.get("y1")), (line.get("x2"), line.get("y2"))} <= middles)

    def test_rows(self):
        """Longer elements stand higher, nodes of a row don't overlap, and all is within the picture."""
        text = drawing.layered([[("e", "e")], [("a", "a" * 20), ("b", "<b>")]], [("e", "a", ""), ("e", "b", "2")])
        drawn = xml.etree.ElementTree.fromstring(text)
        nodes = [{key: float(it.get(key)) for key in ("cx", "cy", "rx")} for it in drawn.iter(f"{SVG}ellipse")]
        self.assertGreater(nodes[0]["cy"], nodes[1]["cy"])
        self.assertLess(nodes[1]["cx"] + nodes[1]["rx"], nodes[2]["cx"] - nodes[2]["rx"])
        for node in nodes:
            self.assertTrue(0 <= node["cx"] - node["rx"] and node["cx"] + node["rx"] <= float(drawn.get("width")))
            self.assertTrue(0 < node["cy"] < float(drawn.get("height")))
        self.assertEqual(sorted(it.text for it in drawn.iter(f"{SVG}text")), ["2", "<b>", "a" * 20, "e"])

    def test_fewer_crossings(self):
        rows = drawing.sorted_rows([["ab", "cd"], ["xy", "zw"]], [("a", "z", ""), ("c", "x", "")])
        self.assertEqual(rows[1], ["zw", "xy"])

    def test_large_graphs(self):
        """A large graph is shown as a table."""
        with CoxeterGroup("A", 4) as group:
            graph = group.W_graph()
            self.assertEqual((graph._repr_svg_()[:4], graph._repr_html_()), ("<svg", None))
            with unittest.mock.patch.object(graphs, "MOST_DRAWN", 100):
                self.assertIsNone(graph._repr_svg_())
                self.assertEqual(graph._repr_html_()[:7], "<table>")


class Magic(unittest.TestCase):
    def test_scripts(self):
        for line, cell, text in [
            ("", "type A 3\npol e 2132\n", "1+q\n"),
            ("--workers 2", "type A 3\nlength 4\ncoatoms 121", "error 16: a word has a letter that the group doesn't have\n2\n12\n21\n"),
            ("", "", ""),
        ]:
            with unittest.mock.patch("sys.stdout", io.StringIO()) as out:
                self.assertIsNone(magic.coxeter(line, cell))
            self.assertEqual(out.getvalue(), text)

    def test_wrong_options(self):
        with unittest.mock.patch("sys.stdout", io.StringIO()) as out, self.assertRaises(CoxeterError) as caught:
            magic.coxeter("--context 0", "type A 3")
        self.assertIn("exit status 2", str(caught.exception))
        self.assertIn("usage", out.getvalue())


if __name__ == "__main__":
    unittest.main()
