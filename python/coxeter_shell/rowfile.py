"""The rows of a table in a file: written as they come, read and checked when the table is asked for again."""
from __future__ import annotations

import collections
import fcntl
import os
import re
import stat
import tempfile
import warnings
from typing import Any

from . import kinds
from .errors import CoxeterError
from .polynomial import Polynomial
from .tables import ElementDict, KazhdanLusztigTable
from .texts import check_rising

HEAD = ",".join(KazhdanLusztigTable.columns)

# The line before rows that says where they come from: the checksums of the program, and of the checker that said yes to each.
ORIGIN = re.compile("# program ([0-9a-f]{64}|unknown), (?:checked by ([0-9a-f]{64})|not checked)")

# Some rows: where their lines begin and end in the file, and what is said of their origin.
Row = collections.namedtuple("Row", "pairs start end origin")

Origin = collections.namedtuple("Origin", "program checker")
Origin.__doc__ = """Where rows come from: the sha256 of the program, None where it is not known, and that of the checker, None where none has said
yes to them."""


def origin_line(origin):
    """The line of an origin.

    >>> origin_line(Origin(None, None))
    '# program unknown, not checked'
    """
    checked = f"checked by {origin.checker}" if origin.checker else "not checked"
    return f"# program {origin.program or 'unknown'}, {checked}"


class RowFile:
    """A file with the rows of some elements, for a `with` block.

    It begins with a line that names the group, as `# type A 3`, and a line `w,x,polynomial`; below come lines of these, one for each x <= w.
    The last line of a row is that of w itself. So a row that was not written to its end is known by the want of it. Before rows stands a line
    that says where they come from.
    """

    def __init__(self, group: Any, path: Any) -> None:
        self.group, self.path = group, os.fspath(path)

    def __enter__(self):
        self.file = open_regular(self.path, os.O_RDWR | os.O_CREAT)
        self._before = []  # files in whose place others were put: their locks are kept
        try:
            lock(self.file, self.path)
        except BaseException:
            self.file.close()
            raise
        return self

    def __exit__(self, *_):
        self.file.close()
        for file in self._before:
            file.close()

    def read(self, elements, is_right=None):
        """The rows of these elements that the file has and that are right, as a dictionary; of other rows it is said that they are asked anew, and
        they are taken out of the file. `is_right` says of a row and its origin whether it is, where more is asked of it than can be seen.

        Afterwards the file ends with its last whole row. A ValueError is raised, and the file left as it is, where it is none of such rows, or
        one of another group.
        """
        head = f"# {self.group.line}\n{HEAD}\n".encode()
        self._origin = None
        first, second = self.file.readline(), self.file.readline()
        if head.startswith(first + second) and first + second != head:
            self.cut(0)
            self.file.write(head)
            self.file.flush()
            return {}
        check_head(self.path, self.group, first, second)
        reader = Reader(self.group, self.path, self.file, len(first) + len(second))
        wanted = set(elements)
        wrong = reader.wrong(lambda w, row: w not in wanted or is_right is None or is_right(w, row))
        if wrong:
            self._take_out(reader, wrong)
        else:
            self.cut(reader.end)
        self._origin = reader.origin
        return {w: row.pairs for w, row in reader.rows.items() if w in wanted}

    def _take_out(self, reader, wrong):
        """Puts a file without the wrong rows in the place of this one."""
        named = ", ".join(map(self.group.text, wrong[:10])) + (", .." if len(wrong) > 10 else "")
        warnings.warn(f"{self.path!r} is damaged: the rows of {len(wrong)} elements are asked for anew: {named}", RuntimeWarning, stacklevel=5)
        path = os.path.realpath(self.path)
        number, made = tempfile.mkstemp(dir=os.path.dirname(path), prefix=os.path.basename(path))
        out = os.fdopen(number, "r+b")
        try:
            lock(out, made)
            os.fchmod(number, stat.S_IMODE(os.fstat(self.file.fileno()).st_mode))
            for start, end in reader.without(wrong):
                self.file.seek(start)
                out.write(self.file.read(end - start))
            out.flush()
            os.fsync(number)
            os.replace(made, path)
        except BaseException:
            out.close()
            os.unlink(made)
            raise
        self._before.append(self.file)
        self.file = out

    def cut(self, end):
        """Sees to it that the file ends here, and is written from here on."""
        self.file.seek(end)
        self.file.truncate()

    def write(self, w, row, origin=Origin(None, None)):
        """Writes a row, so that it is there even if Python is killed right after."""
        text, head = self.group.text, self.group.text(w)
        lines = [f"{head},{text(x)},{p}\n" for x, p in row.items()]
        if origin != self._origin:
            lines.insert(0, f"{origin_line(origin)}\n")
            self._origin = origin
        self.file.write("".join(lines).encode("ascii"))
        self.file.flush()


class Reader:
    """The rows in a file, behind its head.

    `rows` has those that end. `damaged` has the elements of those that can't be right: one without its end that others follow, and one whose
    polynomials can't be its own. `end` is where the last row ends, and `origin` that of it. Lines that are no rows are a ValueError.
    """

    def __init__(self, group, path, file, end):
        self.group, self.path, self.end = group, path, end
        self.rows, self.damaged, self.origin = {}, {}, None
        self._parts = []  # the element of each part of the file, None for lines that are in no row; its start and its end
        self._row, self._of, self._start, self._at = [], None, end, end
        for number, data in enumerate(file, 3):
            if not data.endswith(b"\n"):
                break
            self._line(number, data)

    def _line(self, number, data):
        text = data[:-1].decode("latin-1")
        origin = ORIGIN.fullmatch(text)
        if origin is not None:
            self._broken()
            self._at += len(data)
            self._part(None)
            self.origin = Origin(None if origin.group(1) == "unknown" else origin.group(1), origin.group(2))
            return
        element = self.group._spelling.element
        try:
            w, x, polynomial = text.split(",")
            w, x, p = element(w), element(x), Polynomial.read(polynomial)
        except ValueError:
            not_a_table(self.path, number, "it should be two elements and a polynomial")
        if self._of not in (None, w):
            self._broken()
        self._of, self._at = w, self._at + len(data)
        self._row.append((x, p))
        if x == w:
            self._ended(w, number)

    def _ended(self, w, number):
        if w in self.rows:
            not_a_table(self.path, number, "its row is there twice")
        try:
            check_rising([x for x, _ in self._row])
        except ValueError as error:
            not_a_table(self.path, number, str(error))
        if not may_be_row(w, self._row):
            self.damaged[w] = True
        self.rows[w] = Row(ElementDict(self.group, self._row, "polynomial"), self._start, self._at, self.origin)
        self._part(w)

    def _broken(self):
        """Notes that a row that has begun doesn't go on."""
        if self._of is not None:
            self.damaged[self._of] = True
            self._part(self._of)

    def _part(self, w):
        """Notes a part of the file that ends here."""
        self._parts.append((w, self._start, self._at))
        self._row, self._of, self._start, self.end = [], None, self._at, self._at

    def wrong(self, is_right):
        """The list of the elements whose rows are not right. They are in `rows` no longer. Each row has to have as many elements as there are below
        its own, and to be right as `is_right` says."""
        for w in self.damaged:
            self.rows.pop(w, None)
        sizes = zip(list(self.rows), self.group._answers_of("betti_numbers", list(self.rows)))
        wrong = [w for w, betti in sizes if len(self.rows[w].pairs) != sum(betti)]
        wrong += [w for w, row in self.rows.items() if w not in wrong and not is_right(w, row)]
        for w in wrong:
            del self.rows[w]
        return [*self.damaged, *wrong]

    def without(self, wrong):
        """The starts and ends of the parts of the file that stay without the rows of some elements."""
        yield 0, self._parts[0][1]
        for w, start, end in self._parts:
            if w not in wrong:
                yield start, end


def may_be_row(w, pairs):
    """Whether these pairs of an x and a polynomial may be the row of w, by what each row has: P(w, w) = 1 is its last one, and the others have
    the constant term 1 and a degree of at most (l(w) - l(x) - 1) / 2."""
    if not pairs:
        return False
    *below, (last, p) = pairs
    # Few polynomials are different, and those that were read of equal texts are one object.
    different = {(len(x), id(p)): p for x, p in below}
    return (last, p) == (w, 1) and all(p.coefficient(0) == 1 and 2 * p.degree() < len(w) - length for (length, _), p in different.items())


def open_regular(path, how):
    """Opens a file, which has to be a regular one: others may have no end."""
    number = os.open(path, how | os.O_CLOEXEC | os.O_NONBLOCK, 0o666)
    if not stat.S_ISREG(os.fstat(number).st_mode):
        os.close(number)
        raise ValueError(f"{path!r} is no regular file")
    return os.fdopen(number, "r+b" if how & os.O_RDWR else "rb")


def lock(file, path):
    """Locks a file for one table."""
    try:
        fcntl.flock(file, fcntl.LOCK_EX | fcntl.LOCK_NB)
    except OSError as error:
        raise type(error)(error.errno, "another table is being written into it", path) from error


def group_of_head(path, first):
    """The kind of the group that the first line of a file names."""
    line = first.decode("latin-1").rstrip("\n")
    try:
        return kinds.read(line[2:]) if line.startswith("# ") and first.endswith(b"\n") else None
    except (ValueError, CoxeterError):
        return None


def check_head(path, group, first, second):
    """Sees to it that the file begins as such files do, and is one of this group."""
    found = group_of_head(path, first)
    if found is None:
        not_a_table(path, 1, f"it should be {'# ' + group.line!r}")
    if found.matrix != group._matrix:
        raise ValueError(f"{path!r} has rows of another group: {found.line!r}")
    if second != f"{HEAD}\n".encode():
        not_a_table(path, 2, f"it should be {HEAD!r}")


def read_table(group_of, path):
    """The table in a file. `group_of` makes a group of a line."""
    path = os.fspath(path)
    with open_regular(path, os.O_RDONLY) as file:
        first, second = file.readline(), file.readline()
        found = group_of_head(path, first)
        if found is None:
            not_a_table(path, 1, "it should name a group, as '# type A 3'")
        group = group_of(found.line)
        check_head(path, group, first, second)
        reader = Reader(group, path, file, len(first) + len(second))
    wrong = reader.wrong(lambda w, row: True)
    if wrong:
        named = ", ".join(map(group.text, wrong[:10])) + (", .." if len(wrong) > 10 else "")
        raise ValueError(f"{path!r} is damaged: wrong are the rows of {len(wrong)} elements: {named}; kazhdan_lusztig_table(path=..) asks for them anew")
    table = KazhdanLusztigTable(group, ((w, row.pairs) for w, row in reader.rows.items()))
    table.origins = {w: row.origin for w, row in reader.rows.items()}
    return table


def not_a_table(path, number, why):
    raise ValueError(f"{path!r} is no table of this kind: line {number}: {why}") from None
