"""Other programs and packages, where they are installed: Sage, GAP, graphviz, networkx, pandas, numpy, IPython.

`checks/python` says which ran.
"""
import importlib.util
import math
import os
import re
import shutil
import subprocess
import tempfile
import unittest

from coxeter_shell import CoxeterGroup, KazhdanLusztigTable, Laurent, Polynomial, gap, pictures
from coxeter_shell import kinds as known_kinds

TOP = os.path.dirname(os.path.dirname(os.path.dirname(os.path.abspath(__file__))))


def has(name):
    """Whether a package is installed."""
    try:
        return importlib.util.find_spec(name) is not None
    except (ImportError, ValueError):
        return False


@unittest.skipUnless(has("networkx"), "networkx is not installed")
class Networkx(unittest.TestCase):
    def test_graphs(self):
        import networkx

        with CoxeterGroup("B", 3) as group:
            graph = group.W_graph()
            made = graph.networkx()
            self.assertEqual((made.number_of_nodes(), made.graph["side"]), (48, "left"))
            self.assertEqual(made.nodes[1, 2]["descents"], (1,))
            theirs, ours = ({frozenset(it[:2]): it[2] for it in edges} for edges in (made.edges(data="mu"), graph.edges()))
            self.assertEqual(theirs, ours)
            # The cells are the strong components of the steps.
            steps = networkx.DiGraph()
            steps.add_nodes_from(graph)
            steps.add_edges_from(it[:2] for it in graph.steps())
            found = set(map(frozenset, networkx.strongly_connected_components(steps)))
            self.assertEqual(found, set(map(frozenset, group.left_cells())))
            # Their order is what the steps give, and its covers are those that no other chain gives.
            order, whole = group.cell_order().networkx(), networkx.condensation(steps)
            names = {number: min(members, key=lambda x: (len(x), x)) for number, members in whole.nodes(data="members")}
            covers = {(names[x], names[y]) for x, y in networkx.transitive_reduction(whole).edges()}
            self.assertEqual(set(order.edges()), covers)
            members = {names[it]: whole.nodes[it]["members"] for it in whole}
            self.assertEqual({x: set(cell) for x, cell in order.nodes(data="cell")}, members)
            self.assertEqual(order.graph["side"], "left")
            # Bruhat intervals are graded, and their Möbius function has the values 1 and -1 (Verma): so there are as many
            # elements of even as of odd length.
            diagram = group.hasse_diagram("1", "12321").networkx()
            depths = networkx.single_source_shortest_path_length(diagram, (1,))
            self.assertEqual(depths, {x: len(x) - 1 for x in diagram})
            self.assertEqual(sum((-1) ** it for it in depths.values()), 0)


@unittest.skipUnless(has("pandas"), "pandas is not installed")
class Pandas(unittest.TestCase):
    def test_frames(self):
        import pandas

        with CoxeterGroup("A", 3) as group:
            frame = group.kazhdan_lusztig_basis("12321").to_frame()
            self.assertEqual((frame.shape, list(frame.columns)), ((20, 2), ["element", "polynomial"]))
            # P(x, w) is 1 + q for the x below 13, and else 1.
            self.assertEqual(frame[frame.polynomial != 1].element.tolist(), [(), (1,), (3,), (1, 3)])
            self.assertIn("1+q", frame.to_string())
            self.assertNotIn("(1, 1)", frame.polynomial.to_string())
            cells = group.left_cells().to_frame()
            self.assertEqual(sorted(cells.groupby("cell").size()), [1, 1, 2, 2, 3, 3, 3, 3, 3, 3])
            self.assertEqual(pandas.Series([Polynomial([0, 1])] * 2).sum(), [0, 2])

    def test_tables_in_files(self):
        """By the call that the documents name words stay words: 2.1 and 2.10 are two."""
        import pandas

        page = os.path.join(TOP, "docs", "EXAMPLES.md")
        if not os.path.exists(page):
            self.skipTest("there is no checkout around these tests")
        with open(page, encoding="utf-8") as text:
            [call] = re.findall(r"`(read_csv\(.*?\))`", text.read())
        with tempfile.TemporaryDirectory() as folder, CoxeterGroup("A", 10) as group:
            path = os.path.join(folder, "ten.csv")
            group.kazhdan_lusztig_table(["2.1", "2.10"], path=path)
            frame = eval(call.replace('"ten.csv"', repr(path)), {"read_csv": pandas.read_csv})
            self.assertEqual(frame.w.unique().tolist(), ["2.1", "2.10"])
            self.assertEqual(frame[frame.w == "2.10"].x.tolist(), ["e", "2", "10", "2.10"])
            self.assertEqual(KazhdanLusztigTable.read(path).to_frame().w.unique().tolist(), [(2, 1), (2, 10)])


@unittest.skipUnless(has("numpy"), "numpy is not installed")
class Numpy(unittest.TestCase):
    def test_arrays(self):
        import numpy

        p = Polynomial([1, 1])
        made = numpy.array([[p, 0 * p], [p, p]], dtype=object)
        self.assertEqual((made.shape, made.dot(made)[1, 0]), ((2, 2), [2, 4, 2]))
        self.assertTrue(p == p * numpy.int64(1) and numpy.int64(3) * p == [3, 3] and Polynomial([2]) == numpy.int64(2))


@unittest.skipUnless(has("IPython"), "IPython is not installed")
class Ipython(unittest.TestCase):
    def test_what_is_shown(self):
        from IPython.core.interactiveshell import InteractiveShell
        from IPython.utils.capture import capture_output

        shell = InteractiveShell()
        with capture_output() as said:
            for cell in ("%load_ext coxeter_shell", "%%coxeter --workers 2\ntype A 3\npol e 2132"):
                shell.run_cell(cell).raise_error()
        self.assertEqual(said.stdout, "1+q\n")
        shown = shell.display_formatter.format
        with CoxeterGroup("A", 3) as group:
            for value, kind, text in [
                (Polynomial([1, 0, 1]), "text/latex", "$1+q^{2}$"),
                (Polynomial([1, 0, 1]), "text/plain", "1+q^2"),
                (group, "text/latex", "$A_{3}$"),
            ]:
                self.assertEqual(shown(value)[0][kind], text)
            self.assertIn("<td>1+q</td>", shown(group.kazhdan_lusztig_basis("2132"))[0]["text/html"])
            drawn = shown(group.W_graph())[0]
            self.assertIn("<svg", drawn["image/svg+xml"])
            self.assertEqual("image/png" in drawn, shutil.which("dot") is not None)
            self.assertNotIn("text/html", shown(group.hasse_diagram("e", "12"))[0])


@unittest.skipIf(shutil.which("dot") is None, "graphviz is not installed: pictures as PNG are not tried")
class Graphviz(unittest.TestCase):
    def test_svg(self):
        with CoxeterGroup("B", 3) as group:
            for text in (pictures.hasse(group, "12321"), pictures.w_graph(group), pictures.cells(group)):
                drawn = pictures.draw(text, "svg").decode()
                nodes = set(re.findall('^  (?:{ rank=same; |subgraph cluster_[0-9]+ { )?"([0-9e]+)"', text, re.M))
                nodes |= set(re.findall('"([0-9e]+)";', text))
                self.assertEqual(len(re.findall('class="node"', drawn)), len(nodes))
                self.assertEqual(len(re.findall('class="edge"', drawn)), text.count(" -- "))
                self.assertEqual(len(re.findall('class="cluster"', drawn)), text.count("subgraph"))

    def test_png(self):
        """The PNG is the same picture as the SVG: as large, with 96 dots to an inch."""
        with CoxeterGroup("B", 3) as group, tempfile.TemporaryDirectory() as folder:
            for graph in (group.W_graph(), group.hasse_diagram("e", "12321"), group.cell_order()):
                png = graph._repr_png_()
                self.assertEqual((png[:8], png[12:16]), (b"\x89PNG\r\n\x1a\n", b"IHDR"))
                size = [int.from_bytes(png[at : at + 4], "big") for at in (16, 20)]
                points = re.search('<svg width="([0-9]+)pt" height="([0-9]+)pt"', graph._repr_svg_()).groups()
                for dots, wanted in zip(size, points):
                    self.assertAlmostEqual(dots, int(wanted) * 96 / 72, delta=3)
                path = os.path.join(folder, "picture.png")
                pictures.save(graph.dot(), path, graph)
                with open(path, "rb") as made:
                    self.assertEqual(made.read(), png)


@unittest.skipIf(shutil.which("gap") is None, "GAP is not installed")
class Gap(unittest.TestCase):
    def says(self, script):
        ran = subprocess.run(["gap", "-q", "-b"], input=script.encode(), stdout=subprocess.PIPE, check=True)
        return ran.stdout.decode().split()

    def test_texts(self):
        with CoxeterGroup("A", 3) as group:
            graph, cells = gap(group.W_graph()), gap(group.left_cells())
            table = gap(group.kazhdan_lusztig_basis("2132"))
        said = self.says(
            f"""Print(Length({graph}), "\\n"); Print(Set(List({cells}, Length)), "\\n");
            Print(Number({table}, p -> p[2] = [ 1, 1 ]), "\\n");
            Print(Length({gap('a"b' + chr(92) + chr(10))}), "\\n"); Print(IsSet({gap({(2,), (1, 3), (1,)})}), "\\n");
            """
        )
        # The 6 left cells of 3 elements, 2 of 2 and 2 of 1; P(e, w) = P(2, w) = 1 + q.
        self.assertEqual(said[1:], ["[", "1,", "2,", "3", "]", "2", "5", "true"])
        self.assertGreater(int(said[0]), 23)


@unittest.skipUnless(has("sage"), "Sage is not installed")
class Sage(unittest.TestCase):
    def test_polynomials(self):
        from sage.all import QQ, ZZ, LaurentPolynomialRing, latex

        ring = ZZ["q"]
        q = ring.gen()
        p = Polynomial([1, 0, 2])
        self.assertTrue(p == 1 + 2 * q**2 and 1 + 2 * q**2 == p and p != 1 + q and Polynomial([3]) == ZZ(3))
        for made in (ring(p), p.sage(), ring.one() * p, p * ring.one(), p + ring.zero(), ring.zero() + p):
            self.assertTrue(made == 1 + 2 * q**2 and made.parent() is ring)
        self.assertEqual((QQ["q"](p), p(q + 1), latex(p)), (1 + 2 * q**2, 3 + 4 * q + 2 * q**2, "1+2q^{2}"))
        self.assertEqual((ZZ(2) * p, p * ZZ(2), p**3), (2 * p, 2 * p, (1 + 2 * q**2) ** 3))
        v = LaurentPolynomialRing(ZZ, "v").gen()
        self.assertEqual(p(v**2) * v**-2, v**-2 + 2 * v**2)
        # The same polynomial in another unknown is another one.
        self.assertFalse(p == ZZ["v"]([1, 0, 2]) or ZZ["v"]([1, 0, 2]) == p)

    def test_other_rings(self):
        """Where they go is where a polynomial of Sage goes."""
        from sage.all import GF, QQ, SR, ZZ, FractionField, IwahoriHeckeAlgebra, LaurentPolynomialRing, LaurentSeriesRing, PolynomialRing
        from sage.all import PowerSeriesRing

        p, ours = ZZ["q"]([1, 0, 2]), Polynomial([1, 0, 2])
        rings = [ZZ["q,t"], QQ["t,q"], ZZ["q"]["t"], ZZ["t"]["q"], ZZ["x"], GF(2)["q"], LaurentPolynomialRing(ZZ, "q"), FractionField(ZZ["q"])]
        rings += [LaurentPolynomialRing(ZZ, "q,t"), PowerSeriesRing(QQ, "q"), SR, PolynomialRing(ZZ, "q", sparse=True)]
        for ring in rings:
            self.assertTrue(ring(ours) == ring(p) and ring(ours).parent() is ring)
        self.assertEqual((ZZ(Polynomial([5])), QQ(Polynomial()), ZZ(Laurent({0: 5}))), (5, 0, 5))
        for wrong in (lambda: ZZ["x,y"](ours), lambda: ZZ(ours), lambda: ZZ(Laurent({1: 1})), lambda: ZZ["v"](Laurent({-1: 1}))):
            with self.assertRaises((TypeError, ValueError)):
                wrong()
        v = LaurentPolynomialRing(ZZ, "v").gen()
        h = Laurent({-1: 1, 2: -3})
        theirs = v**-1 - 3 * v**2
        for ring in (v.parent(), LaurentPolynomialRing(GF(2), "v"), LaurentPolynomialRing(QQ, "x"), LaurentSeriesRing(QQ, "v"), SR):
            self.assertTrue(ring(h) == ring(theirs) and ring(h).parent() is ring)
        self.assertTrue(h.sage() == theirs == h and h.sage().parent() is v.parent() and (h**3).sage() == theirs**3)
        self.assertEqual(ZZ["v"](Laurent({0: 1, 2: 3})), ZZ["v"]([1, 0, 3]))
        self.assertEqual((v * h, h * v, h - v), (v * theirs, theirs * v, theirs - v))
        self.assertTrue(ours < p**2 and not ours < 1 + ZZ["q"].gen())
        with CoxeterGroup("A", 3) as group:
            C = IwahoriHeckeAlgebra("A3", v**2).Cp()
            found = {tuple(w.reduced_word()): c for w, c in C[1, 2] * C[2, 1]}
            self.assertEqual(found, {x: C.base_ring()(c) for x, c in group.c_prime_product("12", "21").items()})

    def test_kazhdan_lusztig_polynomials(self):
        """Sage computes them by itself, slowly."""
        from sage.all import ZZ, WeylGroup
        from sage.combinat.kazhdan_lusztig import KazhdanLusztigPolynomial

        q = ZZ["q"].gen()
        for cartan_type in (["A", 3], ["B", 2], ["G", 2]):
            theirs = WeylGroup(cartan_type, prefix="s")
            polynomials = KazhdanLusztigPolynomial(theirs, q)
            with CoxeterGroup(theirs) as group:
                for w in theirs:
                    basis = group.kazhdan_lusztig_basis(w)
                    for x in theirs:
                        self.assertEqual(basis.get(x, 0), polynomials.P(x, w))
                        self.assertEqual(group.r_polynomial(x, w), polynomials.R(x, w))

    def test_groups(self):
        from sage.all import CartanType, CoxeterMatrix, WeylGroup
        from sage.all import CoxeterGroup as SageGroup

        for cartan_type, line in [
            (["A", 3], "type A 3"),
            (["B", 3], "type B 3"),
            (["C", 4], "type B 4"),
            (["D", 5], "type D 5"),
            (["E", 6], "type E 6"),
            (["F", 4], "type F 4"),
            (["G", 2], "type G 2"),
            (["A", 1, 1], "type a 1"),
            (["A", 3, 1], "type a 3"),
            (["C", 2, 1], "matrix 3 4 4 2"),
        ]:
            kinds = [CartanType(cartan_type), CoxeterMatrix(cartan_type), WeylGroup(cartan_type), SageGroup(cartan_type)]
            self.assertEqual(CoxeterGroup(kinds[0]).sage().cartan_type(), kinds[0])
            self.assertEqual(CoxeterGroup(cartan_type)._matrix, CoxeterGroup(kinds[0])._matrix)
            for kind in kinds:
                with CoxeterGroup(kind) as group:
                    self.assertEqual(group.line, line)
                    for made in (kinds[2], group.sage()):
                        for nodes in (made.index_set(), made.index_set()[::-1] * 2):
                            w = made.from_reduced_word(nodes[: group.rank])
                            self.assertEqual(group.length(w), w.length())
                            descents = sorted(group._nodes.index(it) + 1 for it in w.descents(side="left"))
                            self.assertEqual(group.left_descents(w), tuple(descents))
                    self.assertEqual(group.sage_element(group.sage().from_reduced_word(group._nodes)).length(), group.rank)

    def test_cartan_matrices(self):
        """A Cartan matrix and a Dynkin diagram stand for their Cartan types."""
        from sage.all import CartanMatrix, DynkinDiagram

        for kind in (["B", 3], ["C", 3], ["A", 2, 1], ["G", 2]):
            for given in (CartanMatrix(kind), DynkinDiagram(kind)):
                group = CoxeterGroup(given)
                self.assertEqual((group, group.cartan_type()), (CoxeterGroup(kind), tuple(kind)))
        self.assertEqual(CoxeterGroup(CartanMatrix([[2, -1], [-2, 2]])), CoxeterGroup("B2"))
        with self.assertRaises(ValueError):
            CoxeterGroup(CartanMatrix([[2, -3], [-2, 2]]))

    def test_affine_types(self):
        """The nodes of affine types by their names are Sage's, with the node 0 as the last letter."""
        from sage.all import CartanType

        for letter, (least, greatest) in known_kinds.AFFINE.items():
            for number in range(least, min(greatest, 8) + 1):
                cartan_type = [letter.upper(), number, 1]
                self.assertEqual(CoxeterGroup(cartan_type)._matrix, CoxeterGroup(CartanType(cartan_type))._matrix)

    def test_permutations(self):
        """Permutations of Sage are maps, as here. Its groups of permutations and of signed ones multiply from left to right."""
        from sage.all import Permutation, Permutations, SymmetricGroup
        from sage.combinat.colored_permutations import SignedPermutations

        with CoxeterGroup("A", 3) as group:
            for p in Permutations(4):
                self.assertEqual((group.to_permutation(p), group.from_permutation(p)), (tuple(p), group.normal_form(p)))
            self.assertEqual(group.normal_form(Permutation([4, 3, 2, 1])), group.long_element())
            for p in SymmetricGroup(4):
                self.assertEqual(group.to_permutation(p), (~p).tuple())
        with CoxeterGroup("B", 3) as group:
            signed = SignedPermutations(3)
            self.assertEqual(CoxeterGroup(signed), group)
            for p in signed:
                self.assertEqual(group.to_permutation(p), tuple(~p))

    def test_numbers(self):
        from sage.all import WeylGroup, oo

        for cartan_type in (["A", 3], ["B", 3]):
            theirs = WeylGroup(cartan_type, prefix="s")
            with CoxeterGroup(cartan_type) as group:
                self.assertEqual(group.cardinality(), theirs.cardinality())
                self.assertEqual(group.sage_element(group.long_element()).length(), theirs.long_element().length())
                for w in theirs:
                    word = group.normal_form(w)
                    self.assertEqual(group.order(word), w.order())
                    upper = {group.normal_form(x) for x in w.bruhat_upper_covers()}
                    self.assertEqual(set(group.bruhat_upper_covers(word)), upper)
                    self.assertEqual(len(group.reduced_words(word)), len(w.reduced_words()))
        self.assertTrue(math.inf == oo)

    def test_graphs(self):
        with CoxeterGroup("A", 3) as group:
            graph = group.W_graph().sage()
            self.assertEqual((graph.order(), graph.get_vertex((1, 3))), (24, (1, 3)))
            poset = group.hasse_diagram("e", "2132").sage()
            self.assertEqual((poset.cardinality(), poset.is_eulerian()), (14, True))
            order = group.cell_order()
            poset = order.sage()
            self.assertEqual((poset.cardinality(), poset.top(), poset.bottom()), (10, (), group.long_element()))
            self.assertTrue(all(poset.is_lequal(x, y) == order.le(x, y) for x in order for y in order))


if __name__ == "__main__":
    unittest.main()
