"""Parts of W-graphs and the cells in them: of the elements below a given one, and of a coset of a parabolic subgroup. So there are some in
groups that are infinite or too large for their whole W-graph. The package makes them of rows, and they are not proved."""
from __future__ import annotations

from typing import Dict, Iterable, Iterator, List, Set, Tuple

from .base import Base, Element, Letters, Word
from .errors import Refusal
from .graphs import WGraph
from .tables import Cells
from .texts import shortlex

# So many lines are asked at once: an answer is a list, which may be long.
AT_ONCE = 100


class Parts(Base):
    """The methods of a group on parts of its W-graph.

    A part has some of the elements, and all edges between them: x < y are joined where mu(x, y) is not 0, which is the value of the edge
    (Kazhdan and Lusztig 1979). Its cells are the strong components of its own steps. So each of them lies in one cell of the group, and one
    cell of the group may be in several.
    """

    def W_graph_below(self, w: Word, side: str = "left") -> WGraph:
        """The part of the W-graph that the x <= w make, for the left or the right descents; the group may be infinite.

        The package makes it of the rows of these elements, and it is not proved, as `W_graph` is. An edge leads from y to each of its
        coatoms, with the value 1, and further down to such x alone as have all descents of y on both sides.

        >>> graph = CoxeterGroup("a", 2).W_graph_below("1231")
        >>> len(graph), graph["1231"].descents, graph["1231"].edges
        (14, (1,), {(1,): 1, (1, 2, 1): 1, (1, 2, 3): 1, (1, 3, 1): 1, (2, 3, 1): 1})
        """
        elements = self.bruhat_interval((), w)
        return self._part(side, elements, self._edges_among(elements))

    def cells_below(self, w: Word, side: str = "left") -> Cells:
        """The list of the left, right or two-sided cells ("two-sided") of that part, each the list of its elements. For the two-sided ones
        the steps of both W-graphs are taken. They are not proved.

        >>> CoxeterGroup("a", 2).cells_below("123")
        [[()], [(1,)], [(2,), (1, 2)], [(3,), (1, 3), (2, 3), (1, 2, 3)]]
        """
        if side not in SIDES:
            raise ValueError(f"the side is left, right or two-sided, not {side!r}")
        elements = self.bruhat_interval((), w)
        edges = self._edges_among(elements)
        return Cells(self, cells_of([self._part(it, elements, edges) for it in SIDES[side]]))

    def W_graph_of_coset(self, w: Word, letters: Letters, side: str = "left") -> WGraph:
        """The part of the W-graph that a coset makes of the finite subgroup W_J, which these letters generate: W_J w for the left descents,
        and wW_J for the right ones. It is not proved.

        Let d be the shortest element of the coset W_J w. An interval between two elements xd and yd of it lies in it, and is that of x and
        y times d, so P(xd, yd) = P(x, y) (Geck 2003, "On the induction of Kazhdan-Lusztig cells"). So the rows of W_J are enough, however
        long d is. With the descents in J alone it would be the W-graph of W_J.

        >>> graph = CoxeterGroup("E", 8).W_graph_of_coset("876542314", [1, 3])
        >>> list(graph)[0], [len(x) for x in graph], [graph[x].descents for x in graph][-1]
        ((8, 7, 6, 5, 4, 2, 3, 1, 4), [9, 10, 10, 11, 11, 12], (1, 3, 8))
        """
        if side not in ("left", "right"):
            raise ValueError(f"the side is left or right, not {side!r}")
        letters = self._letters_of(letters)
        shortest = self.parabolic_decomposition(w, letters, "right")[1] if side == "left" else self.parabolic_decomposition(w, letters)[0]
        subgroup = self.bruhat_interval((), self._longest_of(letters))
        pairs = ((x, shortest) if side == "left" else (shortest, x) for x in subgroup)
        moved = dict(zip(subgroup, self._products(pairs)))
        edges = [(moved[x], moved[y], value) for x, y, value in self._edges_among(subgroup)]
        return self._part(side, sorted(moved.values(), key=shortlex), edges)

    def cells_of_coset(self, w: Word, letters: Letters, side: str = "left") -> Cells:
        """The list of the left or right cells of that part, each the list of its elements. They are not proved.

        >>> CoxeterGroup("a", 2).cells_of_coset("123", [1, 2])
        [[(3,), (1, 3), (2, 3), (1, 2, 3), (2, 1, 3)], [(1, 2, 1, 3)]]
        """
        return Cells(self, cells_of([self.W_graph_of_coset(w, letters, side)]))

    def _part(self, side, elements, edges):
        """The part of the W-graph that has these elements, in ShortLex order, and these edges, whose first elements are the shorter ones."""
        if side not in ("left", "right"):
            raise ValueError(f"the side is left or right, not {side!r}")
        places = {x: at for at, x in enumerate(elements)}
        behind: List[List[int]] = [[] for _ in elements]
        other: Dict[Tuple[int, int], int] = {}
        for x, y, value in edges:
            one, two = places[x], places[y]
            behind[one].append(two)
            if value != 1:
                other[one, two] = other[two, one] = value
        descents = [it[side == "right"] for it in self._answers_of("descents", elements)]
        return WGraph(self, side, elements, descents, [tuple(sorted(it)) for it in behind], other)

    def _edges_among(self, elements):
        """The triples of an x < y among some elements, which have with y the x <= y, and the value mu(x, y) other than 0."""
        edges = []
        spelling = self._spelling
        for y, coatoms, pairs in zip(
            elements, self._lists_of("coatoms", spelling.element, elements), self._lists_of("extremals", spelling.pair, elements)
        ):
            edges += [(x, y, 1) for x in coatoms]
            for x, p in pairs:
                degree, odd = divmod(len(y) - len(x) - 1, 2)
                if not odd and degree > 0 and p.degree() == degree:
                    edges.append((x, y, p.coefficient(degree)))
        return edges

    def _lists_of(self, command, read, elements):
        """The lists that a command of one word answers for some elements, as an iterator."""
        lines = [self._line(command, (x,)) for x in elements]
        for at in range(0, len(lines), AT_ONCE):
            some = lines[at : at + AT_ONCE]
            [answers] = self.iter_jobs([some])
            for line, answer in zip(some, answers):
                if isinstance(answer, Refusal):
                    raise self._shown(Refusal(answer.number, line))
                yield self._read(lambda it: self._items(read, it), line, answer)


# The sides of the W-graphs whose steps make the cells of a kind.
SIDES = {"left": ("left",), "right": ("right",), "two-sided": ("left", "right")}


def cells_of(graphs: List[WGraph]) -> List[List[Element]]:
    """The strong components of the steps of some graphs with the same elements, in ShortLex order of their first elements."""
    elements = list(graphs[0])
    forth: List[List[int]] = [[] for _ in elements]
    back: List[List[int]] = [[] for _ in elements]
    for graph in graphs:
        for x, y in graph._steps():
            forth[x].append(y)
            back[y].append(x)
    # Kosaraju's: the last vertex that a search leaves is in a component that no step from another one leads to.
    seen: Set[int] = set()
    left = reversed(list(searched(range(len(elements)), forth, set())))
    cells = [sorted(found) for found in (list(searched([x], back, seen)) for x in left) if found]
    return [[elements[x] for x in cell] for cell in sorted(cells)]


def searched(starts: Iterable[int], near: List[List[int]], seen: Set[int]) -> Iterator[int]:
    """The vertices that are reached from some others, in the order in which a search in depth leaves them. Those in `seen` are passed over,
    and those that were reached are added to it."""
    for start in starts:
        path = [] if start in seen else [(start, iter(near[start]))]
        seen.add(start)
        while path:
            x, ahead = path[-1]
            following = next((y for y in ahead if y not in seen), None)
            if following is None:
                path.pop()
                yield x
            else:
                seen.add(following)
                path.append((following, iter(near[following])))
