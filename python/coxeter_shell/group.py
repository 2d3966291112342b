"""Coxeter groups, whose questions the program answers."""
from __future__ import annotations

import collections
import contextlib
import operator
import re
from typing import Any, Iterator, List, Optional, Sequence, Tuple

from . import certificates, kinds, progress, reasons, texts
from .base import Element, Word
from .cells import CellTheory
from .characters import Characters
from .classes import Classes
from .cosets import Cosets
from .elements import Elements
from .errors import CoxeterError, Refusal
from .graphs import HasseDiagram, Vertex, WGraph
from .hecke import Hecke
from .jobs import Jobs
from .many import Many
from .modules import CellModule
from .names import Names
from .parts import Parts
from .polynomial import Polynomial
from .program import Program, seconds
from .right_modules import RightModules
from .schubert import Schubert
from .smooth import Smoothness
from .tables import Cells, ElementDict

SIDES = ("left", "right")

Work = collections.namedtuple("Work", "words entries degree sum")
Work.__doc__ = "The answer to `work`: numbers of words and of polynomials, the largest degree, the sum of the coefficients."


class CoxeterGroup(
    Elements, Names, CellTheory, Parts, RightModules, Classes, Characters, Schubert, Smoothness, Cosets, Hecke, Many, Jobs
):
    """A Coxeter group, by its type, by its Coxeter matrix, or by a Cartan type, Coxeter matrix or group of Sage.

    >>> CoxeterGroup("A", 3) == CoxeterGroup("A 3") == CoxeterGroup("A3") == CoxeterGroup(["A", 3])
    True
    >>> CoxeterGroup([[1, 3, 2], [3, 1, 4], [2, 4, 1]]) == CoxeterGroup("B", 3)
    True
    >>> CoxeterGroup("c2"), CoxeterGroup(["C", 2, 1]), CoxeterGroup("A2xG2").cardinality()
    (CoxeterGroup("c", 2), CoxeterGroup("c", 2), 72)

    Small letters are the affine types; their node 0, as Bourbaki and Sage have it, is the last letter. The letters of a product
    such as "A2xG2" are those of its factors, one after another. In a matrix, infinity is 0, -1 or math.inf.

    `program` is the path of the program; `workers`, `context`, `roots` and `coef` are options of the program. `progress=False`
    turns off the lines that tell how long an answer is awaited and how far a list was read. `timeout` is how many seconds the
    program has for the whole answer to a question; behind it a `QuestionTimeout` is raised. A type or a matrix that the program doesn't
    take is refused here. Groups are equal where their Coxeter matrices are.

    A word is a text as the program reads it ("2132", "10.9.10", "e"), a list or tuple of ints, or an element of such a group
    in Sage. Elements are tuples of ints, the letters of the normal form. A question that the program refuses raises a
    `Refusal`. For long lists there are two methods: one gives the whole list, and the other, whose name begins with `iter_`,
    an iterator that reads the items when they are taken.

    The program is started with the first question, and ended by `close`, by the end of a `with` block, or with the object.
    """

    def __init__(
        self,
        kind: Any,
        rank: Optional[int] = None,
        *,
        program: Optional[str] = None,
        progress: Optional[bool] = None,
        timeout: Optional[float] = None,
        **options: Optional[int],
    ) -> None:
        given = kinds.read(kind, rank)
        self.line, self._matrix, self._nodes, self._cartan = given
        self.rank = len(self._matrix)
        self.program = Program(program, group=self.line, **options)
        self.timeout = timeout
        self._letters = range(1, self.rank + 1)
        self._spelling = texts.Spelling(self.rank)
        self._progress = progress
        self._long = self._reflections = self._cosets = None
        self._cells, self._a_values = {}, {}
        self._sage_group = kind if hasattr(kind, "from_reduced_word") else None
        self._parent = self._parent_letters = None

    def __repr__(self):
        if self._cartan is None:
            return f'CoxeterGroup("{self.line}")'
        letter, number, *affine = self._cartan
        return f'CoxeterGroup("{letter.lower() if affine else letter}", {number})'

    def __eq__(self, other):
        return self._matrix == other._matrix if isinstance(other, CoxeterGroup) else NotImplemented

    def __hash__(self):
        return hash(self._matrix)

    def __reduce__(self):
        made = self.line, self._nodes, self.program.path, self._progress, self.program.options, self._cartan, self.timeout
        return again, made

    def __enter__(self) -> CoxeterGroup:
        return self

    def __exit__(self, *_):
        self.close()

    def _latex_(self):
        """The text for LaTeX.

        >>> CoxeterGroup("A", 3)._latex_(), CoxeterGroup("a", 3)._latex_()
        ('A_{3}', '\\\\tilde{A}_{3}')
        """
        if self._cartan is None:
            rows = ((r"\infty" if it == float("inf") else str(it) for it in row) for row in self._matrix)
            return r"\begin{pmatrix}" + r"\\".join(map("&".join, rows)) + r"\end{pmatrix}"
        letter, number, *affine = self._cartan
        return rf"\tilde{{{letter}}}_{{{number}}}" if affine else f"{letter}_{{{number}}}"

    def _repr_latex_(self):
        return f"${self._latex_()}$"

    def close(self) -> None:
        """Ends the program. Another question would start it again."""
        self.program.close()

    @property
    def timeout(self):
        """How many seconds the program has for the whole answer to a question; None is no limit. Of an iterator those seconds count in which an
        item is awaited.

        >>> W = CoxeterGroup("A", 3, timeout=60)
        >>> W.timeout = 2.5
        >>> W.length("12"), W.timeout
        (2, 2.5)
        """
        return self.program.timeout

    @timeout.setter
    def timeout(self, value):
        self.program.timeout = seconds(value)

    @contextlib.contextmanager
    def within(self, timeout: Optional[float]) -> Iterator[CoxeterGroup]:
        """For a `with` block: each question in it has so many seconds.

        >>> W = CoxeterGroup("A", 3)
        >>> with W.within(60):
        ...     print(len(W.left_cells()))
        10
        """
        before, self.timeout = self.timeout, timeout
        try:
            yield self
        finally:
            self.timeout = before

    def text(self, word: Word) -> str:
        """A word as the program writes it.

        >>> CoxeterGroup("A", 3).text([2, 1, 3, 2]), CoxeterGroup("A", 10).text([10, 9]), CoxeterGroup("A", 3).text([])
        ('2132', '10.9', 'e')
        """
        try:
            return self._spelling.write(self._of_sage(word) if hasattr(word, "reduced_word") else word)
        except Refusal as refusal:
            raise self._shown(refusal)

    def set_text(self, letters: Sequence[int]) -> str:
        """A set of letters as the program writes it.

        >>> CoxeterGroup("A", 3).set_text((1, 3)), CoxeterGroup("A", 3).set_text(())
        ('13', '-')
        """
        return self._spelling.write(letters) if letters else "-"

    # ---- elements

    def normal_form(self, w: Word) -> Element:
        """The element of a word: its ShortLex normal form.

        >>> CoxeterGroup("A", 3).normal_form("2312")
        (2, 1, 3, 2)
        """
        return self._one(self._spelling.element, "compute", w)

    def length(self, w: Word) -> int:
        """The length of an element.

        >>> CoxeterGroup("A", 3).length("23122")
        3
        """
        return self._one(texts.number, "length", w)

    def inverse(self, w: Word) -> Element:
        """The inverse of an element.

        >>> CoxeterGroup("A", 3).inverse("123")
        (3, 2, 1)
        """
        return self._one(self._spelling.element, "inverse", w)

    def left_descents(self, w: Word) -> Element:
        """The letters s with l(sw) < l(w).

        >>> CoxeterGroup("A", 3).left_descents("132")
        (1, 3)
        """
        return self.descents(w)[0]

    def right_descents(self, w: Word) -> Element:
        """The letters s with l(ws) < l(w).

        >>> CoxeterGroup("A", 3).right_descents("132")
        (2,)
        """
        return self.descents(w)[1]

    def descents(self, w: Word) -> Tuple[Element, Element]:
        """The left and the right descents.

        >>> CoxeterGroup("A", 3).descents("132")
        ((1, 3), (2,))
        """
        return self._one(self._read_descents, "descent", w)

    # ---- Bruhat order

    def bruhat_le(self, y: Word, w: Word) -> bool:
        """Whether y <= w in Bruhat order.

        >>> W = CoxeterGroup("A", 3)
        >>> W.bruhat_le("13", "123"), W.bruhat_le("31", "32")
        (True, False)
        """
        return self._one(texts.truth, "inorder", y, w)

    def bruhat_interval(self, y: Word, w: Word) -> List[Element]:
        """The list of the x with y <= x <= w, in ShortLex order.

        >>> CoxeterGroup("A", 3).bruhat_interval("12", "1232")
        [(1, 2), (1, 2, 3), (1, 3, 2), (1, 2, 3, 2)]
        """
        return self._whole(self._spelling.element, "interval", y, w)

    def iter_bruhat_interval(self, y: Word, w: Word) -> Iterator[Element]:
        """The x with y <= x <= w, in ShortLex order.

        >>> next(CoxeterGroup("A", 3).iter_bruhat_interval("12", "1232"))
        (1, 2)
        """
        return self._list(self._spelling.element, "interval", y, w)

    def coatoms(self, w: Word) -> List[Element]:
        """The list of the x <= w of length l(w) - 1, in ShortLex order.

        >>> CoxeterGroup("A", 3).coatoms("123")
        [(1, 2), (1, 3), (2, 3)]
        """
        return self._whole(self._spelling.element, "coatoms", w)

    def hasse_diagram(self, y: Word, w: Word) -> HasseDiagram:
        """A dictionary from each x with y <= x <= w to the list of the elements of the interval that it covers.

        >>> CoxeterGroup("A", 3).hasse_diagram("1", "12")
        {(1,): [], (1, 2): [(1,)]}
        """
        members = dict.fromkeys(self.bruhat_interval(y, w))
        below = zip(members, self._answers_of("coatoms", members))
        return HasseDiagram(self, {x: [z for z in coatoms if z in members] for x, coatoms in below})

    def betti_numbers(self, w: Word) -> Tuple[int, ...]:
        """For each k from 0 to l(w) the number of the x <= w of length k.

        >>> CoxeterGroup("A", 3).betti_numbers("121321")
        (1, 3, 5, 6, 5, 3, 1)
        """
        return self._one(texts.numbers, "betti", w)

    def poincare_polynomial(self, w: Word) -> Polynomial:
        """The sum of q^l(x) over the x <= w.

        >>> CoxeterGroup("A", 2).poincare_polynomial("121")
        1+2q+2q^2+q^3
        """
        return Polynomial(self.betti_numbers(w))

    # ---- polynomials

    def r_polynomial(self, y: Word, w: Word) -> Polynomial:
        """The R-polynomial R(y, w).

        >>> CoxeterGroup("A", 2).r_polynomial("e", "121")
        -1+2q-2q^2+q^3
        """
        return self._one(Polynomial.read, "rpol", y, w)

    def kazhdan_lusztig_polynomial(self, y: Word, w: Word) -> Polynomial:
        """The Kazhdan-Lusztig polynomial P(y, w), zero unless y <= w.

        >>> CoxeterGroup("A", 3).kazhdan_lusztig_polynomial("2", "2132")
        1+q
        """
        return self._one(Polynomial.read, "pol", y, w)

    def inverse_kazhdan_lusztig_polynomial(self, y: Word, w: Word) -> Polynomial:
        """The inverse Kazhdan-Lusztig polynomial Q(y, w), zero unless y <= w: for x <= w the sum of (-1)^(l(z)-l(x)) P(x, z) Q(z, w)
        over the z with x <= z <= w is 1 where x = w, else 0.

        >>> CoxeterGroup("A", 3).inverse_kazhdan_lusztig_polynomial("2", "2132")
        1+q
        """
        return self._one(Polynomial.read, "invpol", y, w)

    def mu_coefficient(self, y: Word, w: Word) -> int:
        """mu(y, w): the coefficient of P(y, w) in degree (l(w) - l(y) - 1) / 2, or 0 where that is no whole number.

        >>> W = CoxeterGroup("A", 3)
        >>> W.mu_coefficient("2", "2132"), W.mu_coefficient("e", "2132")
        (1, 0)
        """
        return self._one(texts.whole_number, "mu", y, w)

    def kazhdan_lusztig_basis(self, w: Word) -> ElementDict:
        """A dictionary from each x <= w to P(x, w), in ShortLex order.

        >>> CoxeterGroup("A", 3).kazhdan_lusztig_basis("2132")["32"]
        1
        """
        return ElementDict(self, self._whole(self._spelling.pair, "klbasis", w), "polynomial")

    def iter_kazhdan_lusztig_basis(self, w: Word) -> Iterator[Tuple[Element, Polynomial]]:
        """The pairs of an x <= w and P(x, w), in ShortLex order.

        >>> next(CoxeterGroup("A", 3).iter_kazhdan_lusztig_basis("2132"))
        ((), 1+q)
        """
        return self._list(self._spelling.pair, "klbasis", w)

    def extremal_pairs(self, w: Word) -> ElementDict:
        """The same as `kazhdan_lusztig_basis` for the x that have all left and right descents of w.

        >>> CoxeterGroup("A", 3).extremal_pairs("2132")
        {(2,): 1+q, (1, 2, 1): 1, (2, 3, 2): 1, (2, 1, 3, 2): 1}
        """
        return ElementDict(self, self._whole(self._spelling.pair, "extremals", w), "polynomial")

    def iter_extremal_pairs(self, w: Word) -> Iterator[Tuple[Element, Polynomial]]:
        """The same as `iter_kazhdan_lusztig_basis` for the x that have all left and right descents of w.

        >>> next(CoxeterGroup("A", 3).iter_extremal_pairs("2132"))
        ((2,), 1+q)
        """
        return self._list(self._spelling.pair, "extremals", w)

    def certificate(self, w: Word) -> str:
        """The certificate of the row of w, as a text: the group, w, and the x <= w, each with P(x, w). `check` judges it by another
        program.

        >>> print(CoxeterGroup("A", 2).certificate("12"), end="")
        cert 2 3
        element 12
        rows 4
        e:1
        1:1
        2:1
        12:1
        end
        """
        return self._lines(self._read_certificate, "cert", w)

    def intersection_betti_numbers(self, w: Word) -> Tuple[int, ...]:
        """The coefficients of the sum of q^l(x) P(x, w) over the x <= w: the even Betti numbers of intersection
        cohomology of the Schubert variety of w, when there is one.

        >>> CoxeterGroup("A", 3).intersection_betti_numbers("2132")
        (1, 4, 6, 4, 1)
        """
        return self._one(texts.numbers, "ihbetti", w)

    # ---- W-graphs and cells

    def W_graph(self, side: str = "left") -> WGraph:
        """The W-graph of a finite group, for the left or the right descents. Its vertices are read here, and its edges all at once when one is
        first asked for: then wrong ones are an UnexpectedAnswer.

        >>> graph = CoxeterGroup("A", 2).W_graph()
        >>> graph["12"].edges
        {(1,): 1, (2,): 1, (1, 2, 1): 1}
        """
        line = self._graph_line(side)
        try:
            items = self._item_texts(line)
            try:
                return WGraph.read(self, side, items)
            except ValueError as error:
                self.program.unexpected(line, f"a list of {len(items)} vertices", str(error))
        except CoxeterError as error:
            raise self._shown(error)

    def iter_W_graph(self, side: str = "left") -> Iterator[Vertex]:
        """The vertices of the W-graph, in ShortLex order.

        >>> next(CoxeterGroup("A", 2).iter_W_graph())
        Vertex(element=(), descents=(), edges={(1,): 1, (2,): 1})
        """
        return self._list(self._read_vertex, self._graph_line(side))

    def _graph_line(self, side):
        if side not in SIDES:
            raise ValueError(f"the side is left or right, not {side!r}")
        return f"{side[0]}wgraph"

    def left_cells(self) -> Cells:
        """The list of the left cells of a finite group, each the list of its elements.

        >>> CoxeterGroup("A", 2).left_cells()
        [[()], [(1,), (2, 1)], [(2,), (1, 2)], [(1, 2, 1)]]
        """
        return self._cells_of("lcells")

    def iter_left_cells(self) -> Iterator[List[Element]]:
        """The left cells.

        >>> next(CoxeterGroup("A", 2).iter_left_cells())
        [()]
        """
        return self._list(self._read_cell, "lcells")

    def right_cells(self) -> Cells:
        """The list of the right cells of a finite group, each the list of its elements.

        >>> CoxeterGroup("A", 2).right_cells()
        [[()], [(1,), (1, 2)], [(2,), (2, 1)], [(1, 2, 1)]]
        """
        return self._cells_of("rcells")

    def iter_right_cells(self) -> Iterator[List[Element]]:
        """The right cells.

        >>> next(CoxeterGroup("A", 2).iter_right_cells())
        [()]
        """
        return self._list(self._read_cell, "rcells")

    def two_sided_cells(self) -> Cells:
        """The list of the two-sided cells of a finite group, each the list of its elements.

        >>> CoxeterGroup("A", 2).two_sided_cells()
        [[()], [(1,), (2,), (1, 2), (2, 1)], [(1, 2, 1)]]
        """
        return self._cells_of("lrcells")

    def iter_two_sided_cells(self) -> Iterator[List[Element]]:
        """The two-sided cells.

        >>> next(CoxeterGroup("A", 2).iter_two_sided_cells())
        [()]
        """
        return self._list(self._read_cell, "lrcells")

    def _cells_of(self, line):
        """The whole list of the cells that a command answers."""
        try:
            return self._read(lambda items: Cells(self, self._rising(map(self._read_cell, items))), line, self._item_texts(line))
        except CoxeterError as error:
            raise self._shown(error)

    def cell_module(self, w: Word) -> CellModule:
        """The module of the left cell of w, in a finite group: its elements, and how the Hecke algebra acts on it.

        >>> module = CoxeterGroup("A", 2).cell_module([1])
        >>> module.elements, module.matrix(1)
        ([(1,), (2, 1)], [[-1, v], [0, v^2]])
        """
        return self._lines(lambda lines: CellModule.read(self._spelling, self.rank, lines), "module", w)

    # ---- the rest

    def work(self, start: int, count: int) -> Work:
        """Makes so many rows of Kazhdan-Lusztig polynomials, of elements that follow from the start number.

        >>> CoxeterGroup("A", 1).work(7, 3)
        Work(words=3, entries=3, degree=0, sum=3)
        """
        return self._one(self._read_work, f"work {operator.index(start)} {operator.index(count)}")

    def ask(self, line: str) -> List[str]:
        """The lines of the program's answer to any line but one that sets another group.

        >>> CoxeterGroup("A", 3).ask("interval 2 232")
        ['4', '2', '23', '32', '232']
        """
        if line.split()[:1] in (["type"], ["matrix"]):
            raise ValueError("the group of this object stays; make another object for another group")
        try:
            return self.program.ask(line)
        except CoxeterError as error:
            raise self._shown(error)

    # ---- questions and the shapes of answers

    def _line(self, command, words):
        try:
            return " ".join([command, *map(self.text, words)])
        except Refusal as refusal:
            # The word is shown as it was given, for there is no line that the program could refuse.
            raise self._shown(Refusal(refusal.number, f"{command} {refusal.line}"))

    # An error is raised anew in the methods that follow, without the frames below: so what is shown are the frames of the user, the
    # method that was called, and one of these.

    def _one(self, read, command, *words):
        """The answer of one line, read."""
        line = self._line(command, words)
        try:
            self._watch()
            return self._line_of(read, line, self.program.ask(line))
        except CoxeterError as error:
            raise self._shown(error)

    def _line_of(self, read, line, lines):
        """An answer that should be one line, read."""
        if len(lines) != 1:
            self.program.unexpected(line, lines, "one line should have come")
        return self._read(read, line, lines[0])

    def _lines(self, read, command, *words):
        """The answer of several lines that are no list, read."""
        line = self._line(command, words)
        try:
            self._watch()
            return self._read(read, line, self.program.ask(line))
        except CoxeterError as error:
            raise self._shown(error)

    def _list(self, read, command, *words):
        """The items of a list, read."""
        line = self._line(command, words)
        try:
            told = self._watch()
            items = Items(self, read, line)
        except CoxeterError as error:
            raise self._shown(error)
        return progress.shown(items, items.total, line) if told else items

    def _whole(self, read, command, *words):
        """The list of the items of a list, which are elements or pairs of an element and something."""
        line = self._line(command, words)
        try:
            return self._read(lambda items: self._known(read, items), line, self._item_texts(line))
        except CoxeterError as error:
            raise self._shown(error)

    def _item_texts(self, line):
        """The texts of the items of a list."""
        if self._watch():
            items = Items(self, None, line)
            return list(progress.shown(items, items.total, line))
        return self._read(texts.items, line, self.program.ask(line))

    def _items(self, read, lines):
        """The items of a list whose lines are there."""
        return self._known(read, texts.items(lines))

    def _known(self, read, items):
        """Elements, or pairs of an element and something, from their texts."""
        if read is not self._spelling.element:
            return self._rising(map(read, items))
        items = list(map(read, items))
        texts.check_rising(items)
        return items

    def _rising(self, items):
        """The list of items that begin with elements, which are in ShortLex order."""
        items = list(items)
        texts.check_rising([it[0] for it in items])
        return items

    def _shown(self, error):
        """An error as it is raised anew: without frames, and a refusal with its cause."""
        if isinstance(error, Refusal):
            error.detail = error.detail or reasons.detail(self, error)
        return error.with_traceback(None)

    def _watch(self):
        """Sees to it that it is told how long the next answer is awaited, and says whether it is."""
        told = progress.can_show() if self._progress is None else self._progress
        self.program.watch = progress.watch if told else None
        return told

    def _read(self, read, line, text):
        try:
            return read(text)
        except ValueError as error:
            self.program.unexpected(line, text, str(error))

    def _read_certificate(self, lines):
        certificates.read_lines(self._spelling, self._matrix, lines)
        return "".join(f"{it}\n" for it in lines)

    def _read_descents(self, text):
        found = re.fullmatch("L ([-0-9.]+) R ([-0-9.]+)", text)
        if found is None:
            raise ValueError("it should be L, a set, R and a set")
        return self._spelling.letter_set(found.group(1)), self._spelling.letter_set(found.group(2))

    def _read_cell(self, text):
        cell = list(map(self._spelling.element, text.split(" ")))
        texts.check_rising(cell)
        return cell

    def _read_vertex(self, text):
        element, *more = text.split(" ")
        if not more:
            raise ValueError("its label is missing")
        edges = [(self._spelling.element(it), value) for it, value in map(texts.edge, more[1:])]
        texts.check_rising([y for y, value in edges])
        return Vertex(self._spelling.element(element), self._spelling.letter_set(more[0]), ElementDict(self, edges, "mu"))

    def _read_work(self, text):
        words = text.split(" ")
        if len(words) != 8 or tuple(words[::2]) != Work._fields:
            raise ValueError("it should be words, entries, degree and sum, each with a number")
        return Work(*map(texts.number, words[1::2]))


class Items:
    """The items of a list, read as they are taken. `total` is the number of all of them.

    The items are elements, or begin with elements, and these are in ShortLex order. Without `read` they are texts.
    """

    def __init__(self, group, read, line):
        self._group, self._read, self._line = group, read, line
        self._lines = group.program.stream(line)
        self.total = group._read(texts.number, line, next(self._lines, ""))
        self._count = 0  # so many were read
        self._ready = collections.deque()  # those of them that were not taken
        self._last = None  # the element of the last of them
        self._wrong = None  # the text behind them, if that is wrong, and why

    def __iter__(self):
        return self

    def __next__(self):
        if not self._ready:
            self._more()
        elif self._lines.lost:
            raise self._lines.closed()
        return self._ready.popleft()

    def _more(self):
        """Reads some items. What is wrong is raised behind those before it, and a StopIteration at the end."""
        if self._wrong is None:
            self._take(self._lines.some())
        if not self._ready:
            if self._wrong is not None:
                self._group.program.unexpected(self._line, *self._wrong)
            raise StopIteration

    def _take(self, some):
        """Reads the items of some texts, up to one that is wrong. No text is the end."""
        room = self.total - self._count
        if len(some) > room or room > 0 and not some:
            self._wrong = some[room] if some else None, f"the list should have {self.total} items"
        some = some[:room]
        try:
            items = self._items(some)
        except ValueError:
            items = []
            for text in some:
                try:
                    items += self._items([text])
                except ValueError as error:
                    self._wrong = text, str(error)
                    break
        self._count += len(items)
        self._ready.extend(items)

    def _items(self, some):
        """The items of some texts."""
        if self._read is None or not some:
            return some
        items = list(map(self._read, some))
        elements = items if self._read is self._group._spelling.element else [it[0] for it in items]
        texts.check_rising(elements if self._last is None else [self._last, *elements])
        self._last = elements[-1]
        return items

    def __length_hint__(self):
        return self.total - self._count + len(self._ready)


def again(line, nodes, program, progress, options, cartan=None, timeout=None):
    """The group of these arguments, which pickle keeps of a group."""
    group = CoxeterGroup(line, program=program, progress=progress, timeout=timeout, **options)
    group._nodes, group._cartan = nodes, cartan
    return group
