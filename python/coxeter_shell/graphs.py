"""W-graphs, Hasse diagrams of intervals, and the order of cells."""
from __future__ import annotations

import array
import bisect
import collections
import itertools
from typing import Any, Dict, Iterable, Iterator, List, Optional, Set, Tuple

from . import drawing, pictures
from .base import Base, Element, Word
from .edges import Edges
from .tables import ElementDict, Table
from .texts import check_rising, counted, gap

Vertex = collections.namedtuple("Vertex", "element descents edges")
Vertex.__doc__ = "A vertex of a W-graph: the element, its descents, and the values of its edges by its neighbours."

# The nodes of a plain picture, row by row, each as its name and its text; and its edges, as two names and a text.
Layers = Tuple[List[List[Tuple[str, str]]], List[Tuple[str, str, str]]]

# Larger graphs are not drawn in a notebook.
MOST_DRAWN = 200


class Drawn:
    """A graph that a notebook shows as a picture, and as a table where it has too many vertices."""

    __slots__ = ()

    def _repr_svg_(self):
        return self.svg() if len(self) <= MOST_DRAWN else None

    def _repr_html_(self):
        return super()._repr_html_() if len(self) > MOST_DRAWN else None

    def svg(self) -> str:
        """The picture as SVG: by graphviz where it is installed, and else a plain one.

        >>> CoxeterGroup("A", 2).W_graph().svg()[-7:]
        '</svg>\\n'
        """
        return pictures.svg(self.dot()) or drawing.layered(*self.layers())

    def dot(self) -> str:
        """The graph as a DOT text."""
        raise NotImplementedError

    def tikz(self) -> str:
        """The plain picture as a text for LaTeX, with the package tikz.

        >>> CoxeterGroup("A", 1).hasse_diagram("e", "1").tikz().count("node")
        2
        """
        return drawing.tikz(*self.layers())

    def _repr_png_(self):
        """The picture for notebooks whose SVG is taken out, where graphviz is installed."""
        return pictures.draw(self.dot(), "png") if len(self) <= MOST_DRAWN and pictures.shutil.which("dot") else None

    def layers(self) -> Layers:
        """What the plain picture is drawn of: the nodes by the lengths of their elements, and the edges, as texts."""
        raise NotImplementedError


class WGraph(Drawn, Table):
    """A W-graph. `vertices` is a dictionary from each element to its vertex, in ShortLex order.

    As a table it has its edges, each once, with the descents of both elements.

    >>> graph = CoxeterGroup("A", 2).W_graph()
    >>> graph["21"].descents, graph["21"].edges, len(graph)
    ((2,), {(1,): 1, (2,): 1, (1, 2, 1): 1}, 6)
    """

    columns = "x", "descents of x", "y", "descents of y", "mu"

    # A large graph has millions of edges. So they are kept as rising tuples of places, for each vertex those of its neighbours behind it, and
    # vertices are made when they are asked for. `_other` has the values other than 1, by pairs of places. `_unread` has the edges until one is
    # asked for, and `_around` all neighbours of each vertex, once they are.
    _unread: Optional[Edges] = None
    _around: Optional[List[Any]] = None

    def __init__(
        self,
        group: Base,
        side: str,
        elements: Iterable[Element],
        descents: List[Element],
        behind: List[Tuple[int, ...]],
        other: Dict[Tuple[int, int], int],
    ) -> None:
        self.group = group
        self.side = side
        self._descents, self._behind, self._other = descents, behind, other
        self._places = ElementDict(group, zip(elements, itertools.count()), "place")
        self._elements = list(elements)
        self._vertices = None

    @classmethod
    def read(cls, group: Base, side: str, items: Iterable[str]) -> WGraph:
        """The graph of the texts of its vertices. Others are a ValueError; but wrong edges are an UnexpectedAnswer, once edges are asked for.

        >>> texts = ["e - 1:1", "1 1 e:1"]
        >>> WGraph.read(CoxeterGroup("A", 1), "left", texts) == CoxeterGroup("A", 1).W_graph()
        True
        """
        unread = Edges(group._spelling, list(items))
        elements = list(map(group._spelling.element, unread.elements))
        check_rising(elements)
        sets = {text: group._spelling.letter_set(text) for text in set(unread.labels)}
        graph = cls(group, side, elements, list(map(sets.__getitem__, unread.labels)), [], {})
        graph._unread = unread
        return graph

    def _edges(self):
        """For each vertex the rising places of its neighbours behind it, and the values other than 1 by pairs of places. The first call reads
        them."""
        unread = self._unread
        if unread is not None:
            try:
                self._behind, self._other = unread.read()
            except ValueError as error:
                line = self.group._graph_line(self.side)
                self.group.program.unexpected(line, f"a list of {len(self)} vertices", str(error))
            self._unread = None
        return self._behind, self._other

    def _near(self):
        """The rising places of all neighbours of each vertex."""
        if self._around is None:
            behind, _ = self._edges()
            around = [array.array("I") for _ in behind]
            for x, places in enumerate(behind):
                # Those before it are there, by the turns of these.
                around[x].extend(places)
                for y in places:
                    around[y].append(x)
            self._around = around
        return self._around

    def __getstate__(self):
        self._edges()
        return self.__dict__

    @property
    def vertices(self):
        """A dictionary from each element to its vertex. For single vertices `graph[w]` is faster."""
        if self._vertices is None:
            found = zip(self._elements, map(self._vertex, range(len(self._elements))))
            self._vertices = ElementDict(self.group, found, "vertex")
        return self._vertices

    def _vertex(self, x):
        near, (_, other) = self._near()[x], self._edges()
        edges = ((self._elements[y], other.get((x, y), 1)) for y in near)
        return Vertex(self._elements[x], self._descents[x], ElementDict(self.group, edges, "mu"))

    def __repr__(self):
        return f"<the {self.side} W-graph with {len(self)} vertices>"

    def __eq__(self, other):
        if not isinstance(other, WGraph):
            return NotImplemented
        return self._all() == other._all()

    def _all(self):
        return self.group, self.side, self._elements, self._descents, self._edges()

    def __hash__(self):
        return hash((self.group, self.side, len(self)))

    def __len__(self) -> int:
        return len(self._elements)

    def __iter__(self):
        return iter(self._elements)

    def __contains__(self, word):
        return word in self._places

    def __getitem__(self, word):
        return self._vertex(self._places[word])

    def edges(self) -> Iterator[Any]:
        """Each edge once: its two elements, the first in ShortLex order first, and its value.

        >>> list(CoxeterGroup("A", 1).W_graph().edges())
        [((), (1,), 1)]
        """
        return self.edges_across(0)

    def edges_across(self, least: int) -> Iterator[Any]:
        """The same for those edges alone whose elements differ in length by at least so much.

        >>> list(CoxeterGroup("A", 3).W_graph().edges_across(3))
        [((2,), (2, 1, 3, 2), 1), ((1, 3), (1, 2, 3, 2, 1), 1)]
        """
        return itertools.chain.from_iterable(self._edges_by_vertex(least))

    def _edges_by_vertex(self, least):
        """Such edges vertex by vertex: for each those to later ones."""
        elements, lengths = self._elements, list(map(len, self._elements))
        behind, other = self._edges()
        valued = {x for x, _ in other}
        for x, places in enumerate(behind):
            if least > 1:
                # Longer elements stand behind shorter ones.
                first = bisect.bisect_left(lengths, lengths[x] + least)
                places = places[bisect.bisect_left(places, first) :]
            values = [other.get((x, y), 1) for y in places] if x in valued else itertools.repeat(1)
            yield zip(itertools.repeat(elements[x]), map(elements.__getitem__, places), values)

    def steps(self) -> Iterator[Tuple[Element, Element, int]]:
        """The directed edges that make the cells: from x to a neighbour y, with the value, where some descent of x is
        no descent of y. The cells are the strong components.

        >>> list(CoxeterGroup("A", 1).W_graph().steps())
        [((1,), (), 1)]
        """
        elements, (_, other) = self._elements, self._edges()
        for x, y in self._steps():
            yield elements[x], elements[y], other.get((x, y), 1)

    def _steps(self):
        """The steps, by the places of their elements."""
        sets = self._masks()
        for x, near in enumerate(self._near()):
            mine = sets[x]
            for y in near:
                if mine & ~sets[y]:
                    yield x, y

    def _masks(self):
        """The sets of descents, as numbers."""
        masks = {letters: sum(1 << s for s in letters) for letters in set(self._descents)}
        return [masks[letters] for letters in self._descents]

    def steps_between(self, names: Dict[Element, Any]) -> Set[Tuple[Any, Any]]:
        """The pairs of different names that a step leads from one to the other of, where `names` gives an element its name.

        >>> graph = CoxeterGroup("A", 2).W_graph()
        >>> sorted(graph.steps_between({x: len(x) for x in graph}))
        [(1, 0), (1, 2), (2, 1), (3, 2)]
        """
        # The elements of one name with the same descents are taken together.
        kinds = [*zip((names[x] for x in self._elements), self._masks())]
        numbers = {kind: number for number, kind in enumerate(dict.fromkeys(kinds))}
        listed, own = list(numbers), [numbers[kind] for kind in kinds]
        reached: List[Set[int]] = [set() for _ in listed]
        for of, places in zip(own, self._edges()[0]):
            reached[of].update(map(own.__getitem__, places))
        for of, kinds_behind in enumerate([list(it) for it in reached]):
            for it in kinds_behind:
                reached[it].add(of)
        found: Set[Tuple[Any, Any]] = set()
        for (name, mine), others in zip(listed, reached):
            found.update((name, other) for other, sets in map(listed.__getitem__, others) if mine & ~sets and other != name)
        return found

    def part(self, elements: Iterable[Word]) -> WGraph:
        """The part of the graph that has these elements alone, and the edges between them.

        >>> CoxeterGroup("A", 2).W_graph().part(["1", "21"])["21"].edges
        {(1,): 1}
        """
        if isinstance(elements, (str, bytes)):
            raise TypeError(f"the elements are a list of words, and {elements!r} is one text: write [{elements!r}]")
        chosen = sorted({self._places[it] for it in elements})
        new = {x: at for at, x in enumerate(chosen)}
        all_behind, all_other = self._edges()
        behind = [tuple([new[y] for y in all_behind[x] if y in new]) for x in chosen]
        other = {(new[x], new[y]): value for (x, y), value in all_other.items() if x in new and y in new}
        return WGraph(self.group, self.side, [self._elements[x] for x in chosen], [self._descents[x] for x in chosen], behind, other)

    def rows(self) -> Iterator[Tuple[Any, ...]]:
        sets = dict(zip(self._elements, self._descents))
        return ((x, sets[x], y, sets[y], value) for x, y, value in self.edges())

    def texts(self) -> Iterator[Tuple[str, ...]]:
        """The rows as texts. The empty set of descents is `-`."""
        for x, of_x, y, of_y, value in self.rows():
            yield self.group.text(x), self.group.set_text(of_x), self.group.text(y), self.group.set_text(of_y), str(value)

    def dot(self) -> str:
        """The graph as a DOT text. The label of a vertex has its descents in its second line."""
        return pictures.w_graph_text(self)

    def layers(self) -> Layers:
        rows: Dict[int, List[Tuple[str, str]]] = {}
        for x, descents in zip(self._elements, self._descents):
            text = self.group.text(x)
            rows.setdefault(len(x), []).append((text, f"{text} {{{self.group.set_text(descents).strip('-')}}}"))
        edges = [(self.group.text(x), self.group.text(y), str(value) if value != 1 else "") for x, y, value in self.edges()]
        return list(rows.values()), edges

    def sage(self) -> Any:
        """The same as a graph of Sage, whose labels of edges are their values. `get_vertex` gives the descents of an
        element, as a tuple. It needs Sage."""
        from sage.all import Graph

        graph = Graph([list(self), list(self.edges())], format="vertices_and_edges")
        graph.set_vertices(dict(zip(self._elements, self._descents)))
        return graph

    def networkx(self) -> Any:
        """The same as a graph of networkx: nodes have an attribute `descents`, edges an attribute `mu`. It needs networkx."""
        import networkx

        graph = networkx.Graph(side=self.side)
        graph.add_nodes_from((x, {"descents": descents}) for x, descents in zip(self._elements, self._descents))
        graph.add_edges_from((x, y, {"mu": value}) for x, y, value in self.edges())
        return graph

    def _gap_init_(self):
        return gap(list(self.edges()))


class HasseDiagram(Drawn, ElementDict):
    """The Hasse diagram of an interval: a dictionary from each element to the list of those that it covers.

    >>> diagram = CoxeterGroup("A", 3).hasse_diagram("12", "1232")
    >>> diagram["1232"]
    [(1, 2, 3), (1, 3, 2)]
    """

    __slots__ = ()

    columns = "element", "covered"

    def __init__(self, group: Base, items: Any = (), value: str = "covered") -> None:
        super().__init__(group, items, value)

    def rows(self) -> Iterator[Tuple[Any, ...]]:
        """The edges: an element, and one that it covers."""
        return self.edges()

    def edges(self) -> Iterator[Any]:
        """The pairs of an element and one that it covers.

        >>> list(CoxeterGroup("A", 3).hasse_diagram("12", "123").edges())
        [((1, 2, 3), (1, 2))]
        """
        return ((x, z) for x, covered in self.items() for z in covered)

    def dot(self) -> str:
        """The diagram as a DOT text."""
        return pictures.hasse_text(self)

    def layers(self) -> Layers:
        rows: Dict[int, List[Tuple[str, str]]] = {}
        for x in self:
            rows.setdefault(len(x), []).append((self.group.text(x),) * 2)
        return list(rows.values()), [(self.group.text(z), self.group.text(x), "") for x, z in self.edges()]

    def sage(self) -> Any:
        """The interval as a poset of Sage. It needs Sage."""
        from sage.all import Poset

        return Poset((list(self), [[z, x] for x, z in self.edges()]), cover_relations=True)

    def networkx(self) -> Any:
        """The same as a directed graph of networkx, whose edges go up. It needs networkx."""
        import networkx

        graph = networkx.DiGraph()
        graph.add_nodes_from(self)
        graph.add_edges_from((z, x) for x, z in self.edges())
        return graph


class CellOrder(Drawn, Table):
    """The order of the left, right or two-sided cells of a finite group. Each cell has the name of its first element.

    `cells` is a dictionary from the names to the lists of elements. x <= y where chains of steps of the W-graph lead from x to y (Kazhdan
    and Lusztig 1979), so that the cell of the identity is the greatest. As a table, and as a graph, it has the pairs of a cell and one that
    it covers.

    >>> order = CoxeterGroup("A", 2).cell_order()
    >>> list(order), order.le("12", "e"), order.le("1", "2")
    ([(), (1,), (2,), (1, 2, 1)], True, False)
    """

    columns = "cell", "covered"

    def __init__(self, group: Base, side: str, cells: Iterable[List[Element]], graph: WGraph) -> None:
        self.group, self.side = group, side
        self.cells = ElementDict(group, ((cell[0], cell) for cell in cells), "cell")
        self._names = ElementDict(group, ((x, cell[0]) for cell in cells for x in cell), "cell")
        self._below = self._closed(graph.steps_between(dict(self._names)))

    def _closed(self, steps):
        """For each cell the set of the cells below it, and itself. Cells that are below each other are a ValueError."""
        next_lower = {name: set() for name in self.cells}
        for lower, upper in steps:
            next_lower[upper].add(lower)
        below = {}
        for name in self.cells:
            path = [name]
            while path:
                at = path[-1]
                left = [it for it in next_lower[at] if it not in below]
                if set(left) & set(path):
                    raise ValueError("its cells should be the strong components of the steps")
                if left:
                    path.append(left[0])
                else:
                    below[at] = {at}.union(*(below[it] for it in next_lower[at]))
                    path.pop()
        return below

    def __repr__(self):
        return f"<the order of {len(self.cells)} {self.side} cells>"

    def __eq__(self, other):
        if not isinstance(other, CellOrder):
            return NotImplemented
        return (self.group, self.side, self.cells, self._below) == (other.group, other.side, other.cells, other._below)

    def __hash__(self):
        return hash((self.group, self.side, len(self)))

    def _gap_init_(self):
        numbers = {name: number for number, name in enumerate(self.cells, 1)}
        covered = [(numbers[x], numbers[y]) for x, y in self.edges()]
        return f"rec( cells := {gap(list(self.cells.values()))}, covered := {gap(covered)} )"

    def __len__(self) -> int:
        return len(self.cells)

    def __iter__(self):
        return iter(self.cells)

    def __contains__(self, word):
        return word in self._names

    def __getitem__(self, word):
        """The cell of an element.

        >>> CoxeterGroup("A", 2).cell_order()["21"]
        [(1,), (2, 1)]
        """
        return self.cells[self._names[word]]

    def le(self, x: Word, y: Word) -> bool:
        """Whether the cell of x is the cell of y, or below it.

        >>> order = CoxeterGroup("A", 2).cell_order("two-sided")
        >>> order.le("1", "2"), order.le("121", "1"), order.le("e", "1")
        (True, True, False)
        """
        return self._names[x] in self._below[self._names[y]]

    def edges(self) -> Iterator[Any]:
        """The pairs of a cell and one that it covers, by their first elements.

        >>> list(CoxeterGroup("A", 2).cell_order().edges())
        [((), (1,)), ((), (2,)), ((1,), (1, 2, 1)), ((2,), (1, 2, 1))]
        """
        for name in self.cells:
            below = self._below[name] - {name}
            further = set().union(*(self._below[it] - {it} for it in below))
            yield from ((name, it) for it in self.cells if it in below and it not in further)

    def rows(self) -> Iterator[Tuple[Any, ...]]:
        return self.edges()

    def dot(self) -> str:
        """The order as a DOT text. The label of a cell has the number of its elements in its second line."""
        return pictures.cell_order_text(self)

    def layers(self) -> Layers:
        height: Dict[Element, int] = {}
        rows: List[List[Tuple[str, str]]] = []
        for name in sorted(self.cells, key=lambda it: len(self._below[it])):
            height[name] = max((height[it] + 1 for it in self._below[name] - {name}), default=0)
            rows += [[]] * (height[name] == len(rows))
            text = self.group.text(name)
            rows[height[name]] = [*rows[height[name]], (text, f"{text}: {counted(len(self.cells[name]), 'element')}")]
        return rows, [(self.group.text(y), self.group.text(x), "") for x, y in self.edges()]

    def sage(self) -> Any:
        """The same as a poset of Sage. It needs Sage."""
        from sage.all import Poset

        return Poset((list(self), [[y, x] for x, y in self.edges()]), cover_relations=True)

    def networkx(self) -> Any:
        """The same as a directed graph of networkx, whose edges go up; nodes have an attribute `cell`. It needs networkx."""
        import networkx

        graph = networkx.DiGraph(side=self.side)
        graph.add_nodes_from((name, {"cell": cell}) for name, cell in self.cells.items())
        graph.add_edges_from((y, x) for x, y in self.edges())
        return graph
