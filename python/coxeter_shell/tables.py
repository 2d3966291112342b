"""Tables: what is answered for many elements at once, for files, pandas and notebooks."""
from __future__ import annotations

import csv
import html
import io
import itertools
from typing import Any, Dict, Iterator, Optional, Tuple

from .base import Base, Element

# A table with more rows is not written out as a text: a notebook stores what its last line is.
MOST_WRITTEN = 500

# So many rows of a table are shown in a notebook.
MOST_SHOWN = 60


class Table:
    """What has rows. `columns` are their names, `rows` gives them, and `group` is the group of the elements in them."""

    __slots__ = ()

    # The names of the columns, and the group of the elements.
    columns: Any = ()
    group: Any

    def rows(self) -> Iterator[Tuple[Any, ...]]:
        """The rows, as tuples of Python's values."""
        raise NotImplementedError

    def texts(self) -> Iterator[Tuple[str, ...]]:
        """The rows as texts: an element as the program writes it."""
        for row in self.rows():
            yield tuple(self.group.text(it) if isinstance(it, tuple) else str(it) for it in row)

    def to_csv(self, file: Any = None) -> Optional[str]:
        """Writes the rows as CSV, with a line of the names before them. `file` is a path or an open file; without it the
        text is given.

        >>> print(CoxeterGroup("A", 2).kazhdan_lusztig_basis("12").to_csv(), end="")
        element,polynomial
        e,1
        1,1
        2,1
        12,1
        """
        if file is None:
            made = io.StringIO()
            self.to_csv(made)
            return made.getvalue()
        if not hasattr(file, "write"):
            with open(file, "w", encoding="ascii", newline="") as out:
                return self.to_csv(out)
        lines = csv.writer(file, lineterminator="\n")
        lines.writerow(self.columns)
        lines.writerows(self.texts())
        return None

    def to_frame(self) -> Any:
        """The rows as a DataFrame of pandas, in which elements are tuples. It needs pandas."""
        import pandas

        return pandas.DataFrame(list(self.rows()), columns=list(self.columns))

    def _is_long(self):
        """Whether it has more rows than are written out."""
        return next(itertools.islice(self.rows(), MOST_WRITTEN, None), None) is not None

    def _repr_html_(self):
        """The first rows as a table, for notebooks."""
        shown = list(itertools.islice(self.texts(), MOST_SHOWN + 1))
        more = sum(1 for _ in self.rows()) - MOST_SHOWN if len(shown) > MOST_SHOWN else 0
        lines = [html_row("th", self.columns), *(html_row("td", row) for row in shown[:MOST_SHOWN])]
        if more:
            lines.append(f'<tr><td colspan="{len(self.columns)}">and {more:,} more</td></tr>')
        return "\n".join(["<table>", *lines, "</table>"])


def html_row(tag, texts):
    return "<tr>" + "".join(f"<{tag}>{html.escape(it)}</{tag}>" for it in texts) + "</tr>"


class Plain(Table):
    """A table that is one of Python's containers too, of the kind `_plain`, and is written as that where
    it isn't long."""

    __slots__ = ()

    _plain: Any

    def __repr__(self):
        return self._in_short() if self._is_long() else self._plain.__repr__(self)

    def _repr_pretty_(self, printer, cycle):
        """The same for IPython, which lays out such containers in lines."""
        if self._is_long() or cycle:
            printer.text(repr(self))
        else:
            printer.pretty(self._plain(self))

    def _in_short(self):
        """What a long one is written as."""
        raise NotImplementedError


class ElementDict(Plain, dict):
    """A dictionary whose keys are elements. Any word of an element finds its value: the program says which element it is.

    >>> basis = CoxeterGroup("A", 3).kazhdan_lusztig_basis("2132")
    >>> basis[2, 1, 3, 2], basis["2312"], "21" in basis, "123" in basis
    (1, 1, True, False)
    """

    __slots__ = ("group", "value")

    _plain = dict

    def __init__(self, group: Base, items: Any = (), value: str = "value") -> None:
        super().__init__(items)
        self.group = group
        self.value = value

    @property
    def columns(self):
        return "element", self.value

    def rows(self) -> Iterator[Tuple[Any, ...]]:
        return iter(self.items())

    def _in_short(self):
        return f"<a table of {self.group!r} with the columns {', '.join(self.columns)}, for {len(self):,} keys>"

    def __getitem__(self, word):
        return dict.__getitem__(self, self._key(word))

    def __contains__(self, word):
        return dict.__contains__(self, self._key(word))

    def get(self, word: Any, default: Any = None) -> Any:
        return dict.get(self, self._key(word), default)

    def _key(self, word):
        if isinstance(word, tuple) and dict.__contains__(self, word):
            return word
        return self.group.normal_form(word)

    def __reduce__(self):
        return type(self), (self.group, dict(self), self.value)


class PairDict(ElementDict):
    """A dictionary whose keys are pairs of elements. Any words of the two find the value.

    >>> table = CoxeterGroup("A", 3).mu_table()
    >>> table["2", "2312"], table.get(("e", "1"), 0)
    (1, 0)
    """

    __slots__ = ()

    @property
    def columns(self):
        return "x", "w", self.value

    def rows(self) -> Iterator[Tuple[Any, ...]]:
        return ((x, w, value) for (x, w), value in self.items())

    def _key(self, words):
        x, w = (word if isinstance(word, tuple) else self.group.normal_form(word) for word in words)
        if dict.__contains__(self, (x, w)):
            return x, w
        return self.group.normal_form(x), self.group.normal_form(w)


class KazhdanLusztigTable(ElementDict):
    """The rows of some elements: a dictionary from each w to its row, which is a dictionary from each x <= w to P(x, w).

    `origins` is a dictionary that has, of rows that were read from a file, where they come from: the sha256 of the program, and that of the
    checker that said yes to them, each None where there is none.

    As a table it has a line for each pair.

    >>> print(CoxeterGroup("A", 2).kazhdan_lusztig_table(["1", "2"]).to_csv(), end="")
    w,x,polynomial
    1,e,1
    1,1,1
    2,e,1
    2,2,1
    """

    __slots__ = ("origins",)

    columns = "w", "x", "polynomial"

    def __init__(self, group: Base, items: Any = (), value: str = "row") -> None:
        super().__init__(group, items, value)
        self.origins: Dict[Element, Any] = {}

    @classmethod
    def read(cls, path: Any, **options: Any) -> KazhdanLusztigTable:
        """The table in a file that `kazhdan_lusztig_table(path=path)` has written, or writes now. The file names the group, and `options` are
        those of `CoxeterGroup` for it. `to_frame` makes a DataFrame of pandas of the table, in which elements are tuples, whatever the rank.

        A row that was not written to its end is left out. A ValueError is raised for rows that are damaged, as by the want of a line, and for a
        file that is no such table.

        >>> import os, tempfile
        >>> with tempfile.TemporaryDirectory() as folder:
        ...     path = os.path.join(folder, "rows.csv")
        ...     table = CoxeterGroup("A", 3).kazhdan_lusztig_table(["2132"], path=path)
        ...     KazhdanLusztigTable.read(path) == table
        True
        """
        from .group import CoxeterGroup
        from .rowfile import read_table

        return read_table(lambda line: CoxeterGroup(line, **options), path)

    def rows(self) -> Iterator[Tuple[Any, ...]]:
        return ((w, x, polynomial) for w, row in self.items() for x, polynomial in row.items())


# The name that it had in version 1.0.
RowTable = KazhdanLusztigTable


class Cells(Plain, list):
    """The cells of a group: a list of lists of elements.

    >>> CoxeterGroup("A", 2).left_cells()
    [[()], [(1,), (2, 1)], [(2,), (1, 2)], [(1, 2, 1)]]
    """

    columns = "cell", "element"
    _plain = list

    def __init__(self, group: Base, cells: Any = ()) -> None:
        super().__init__(cells)
        self.group = group

    def _in_short(self):
        return f"<{len(self):,} cells of {self.group!r}, with {sum(map(len, self)):,} elements>"

    def rows(self) -> Iterator[Tuple[Any, ...]]:
        """The number of the cell, counted from 1, and an element of it."""
        return ((number, element) for number, cell in enumerate(self, 1) for element in cell)

    def __reduce__(self):
        return Cells, (self.group, list(self))
