"""Many questions at once, answered by the workers of an executor: threads, processes, or other machines."""
from __future__ import annotations

import collections
import concurrent.futures
import contextlib
import copy
import functools
import json
import operator
import pickle
import queue
import re
import threading
import uuid
import warnings
from typing import Any, Iterable, Iterator, Optional

from . import certificates
from .base import Base, Word
from .errors import CoxeterError, ExecutorFailed, ProgramEnded, ProgramNotFound, Refusal, Unanswered, UnexpectedResult
from .jobs import SHORT
from .program import find_program
from .provenance import provenance
from .rowfile import Origin, RowFile, may_be_row
from .tables import ElementDict, KazhdanLusztigTable, Table

# So often a question is asked where a worker or its program is killed.
TRIES = 3

# For so many seconds a cluster of dask may have no worker before that is told.
WITHOUT_WORKERS = 60

# The groups of this thread, each with a program of its own.
_mine = threading.local()


class Many(Base):
    """The methods of a group that ask many questions at once.

    An executor is one of `concurrent.futures`, or any with its interface, as `client.get_executor()` of dask; a client of dask may be given
    itself. Each of its workers has a program of its own, which is found there and kept from question to question.
    """

    def map(self, method: str, *arguments: Iterable[Any], executor: Any = None, chunksize: int = 1) -> Iterator[Any]:
        """The results of a method for many arguments, in their order, as an iterator. Without an executor they are asked for here, and those of
        methods with short answers as lists of jobs, many at once, unless there is a `timeout`, which is for each.

        The longest words are asked for first, so many questions at a time as `chunksize` says. Where a worker or its program is killed,
        the question is asked again. A worker that gives something else than the results is an UnexpectedResult.

        The results are Python's objects, which executors of processes and machines send by `pickle`. So the workers have to be trusted, and
        all who can write to the connections to them: `kazhdan_lusztig_table(certified=True)` is for others.

        >>> list(CoxeterGroup("A", 3).map("bruhat_le", ["13", "31"], ["123", "32"]))
        [True, False]
        """
        if not isinstance(method, str) or method.startswith(("_", "iter_")) or not callable(getattr(self, method, None)):
            raise ValueError(f"{method!r} is no method that gives a whole answer")
        chunksize = whole_chunks(chunksize)
        for it in arguments:
            if isinstance(it, (str, bytes)):
                raise TypeError(f"the arguments are lists, with one for each question, and {it!r} is one text: write [{it!r}]")
        items = list(zip(*arguments))
        if executor is None:
            short = SHORT.get(method)
            # A list of jobs has one limit of time. So where there is a limit, each question is asked by itself.
            if short is not None and self.timeout is None and len(arguments) == short.words:
                return self._mapped(method, items)
            return (getattr(self, method)(*item) for item in items)
        return Asked(executor, Results(self, method), items, chunksize).in_order()

    def kazhdan_lusztig_table(
        self,
        words: Optional[Iterable[Word]] = None,
        *,
        executor: Any = None,
        chunksize: int = 1,
        certified: bool = False,
        checker: Optional[str] = None,
        path: Any = None,
    ) -> KazhdanLusztigTable:
        """A dictionary from each w to its row, which is a dictionary from each x <= w to P(x, w). `words` is the list of the w; without it
        they are all elements of a finite group.

        With `path` each row is written into this file as soon as it has come, as lines `w,x,polynomial` below two lines, one with the group
        (`# type A 3`) and one with these names. Where the file has rows already, they are read and not asked for again: so a table that was
        stopped goes on from there. A file of another group, or of something else, is refused and left as it is. Each row of the file has to have
        as many lines as there are elements below its own, and polynomials that may be in it; one that hasn't is asked for anew, and a
        RuntimeWarning says so. Before rows stands a line with the sha256 of the program that made them, and that of the checker, if it was asked.

        A chunk of questions whose worker or program is killed three times is given up; when all others are answered, an Unanswered says
        which words it had. So are other errors raised at the end. A ProcessPoolExecutor breaks where a worker of it is killed: another one like
        it takes its place.

        With `certified` each row comes as a certificate, and the program `coxcheck` here has to say yes before it is used. So the workers
        and their programs need not be trusted with the mathematics. Each chunk of certificates comes as bytes, and nothing that a worker
        sends has to be unpickled: threads pickle nothing, and dask unpickles nothing for a client with `deserializers=["dask", "msgpack"]`.
        Other executors of processes unpickle what their workers send, also here. `checker` is the path of `coxcheck`. It is asked about the
        rows that are read from the file as well.

        >>> W = CoxeterGroup("A", 3)
        >>> table = W.kazhdan_lusztig_table(["2132", "12321"])
        >>> table["2132"]["2"], table["12321"]["13"]
        (1+q, 1+q)
        """
        if isinstance(words, (str, bytes)):
            raise TypeError(f"the words are a list of words, and {words!r} is one text: write [{words!r}]")
        if words is None and not self.is_finite():
            raise ValueError("the group has infinitely many rows: say which")
        chunksize = whole_chunks(chunksize)
        elements = list(self.elements() if words is None else dict.fromkeys(self._normal_forms(words)))
        maker = Maker(self, executor, chunksize, certified, checker)
        if path is None:
            return maker.table(elements, {}, None)
        with RowFile(self, path) as file:
            return maker.table(elements, file.read(elements, maker.says_yes if certified else None), file)

    def _made_row(self, w):
        """The row of an element, and the checksum of the program that made it."""
        return self.kazhdan_lusztig_basis(w), self._checksum()

    def _checksum(self):
        """The checksum of the program, None where it can't be read."""
        try:
            return self.program.checksum()
        except ProgramNotFound:
            return None

    def _row_of(self, w, row):
        """A row, if it may be that of w. By this one that was cut off is known."""
        if not isinstance(row, ElementDict) or not may_be_row(w, list(row.items())):
            self.program.unexpected(self._line("klbasis", (w,)), row, "it should be the row of its element, which ends with P(w, w) = 1")
        row.group = self
        return row

    def _certified(self, w, text, checker):
        """The row of a certificate, if that is one of this element, and the checker accepts it."""
        line = self._line("cert", (w,))
        said = certificates.check(text, checker, self.timeout)
        if not said:
            self.program.unexpected(line, text, f"coxcheck says no: {said.meaning}")
        return self._read(lambda it: certificates.row(self, w, it), line, text.splitlines())


class Maker:
    """Makes the table of some rows."""

    def __init__(self, group, executor, chunksize, certified, checker):
        self.group, self.executor, self.chunksize = group, executor, chunksize
        self.certified, self.checker = certified, checker
        self.checksum = None  # that of the checker

    def says_yes(self, w, row):
        """Whether the checker says yes to a row of a file."""
        return bool(certificates.check(certificates.text_of(self.group, w, row.pairs), self.checker, self.group.timeout))

    def table(self, elements, rows, file):
        """The table of these elements, of which some rows are there. The others are asked for, and written into the file as they come."""
        lost = []
        for w, found in self.asked([w for w in elements if w not in rows]):
            try:
                row, origin = self.row(w, found)
            except CoxeterError as error:
                lost.append((w, error))
                continue
            if file is not None:
                file.write(w, row, origin)
            rows[w] = row
        table = KazhdanLusztigTable(self.group, ((w, rows[w]) for w in elements if w in rows))
        for _, it in lost:
            if not was_killed(it):
                raise it
        if lost:
            raise Unanswered([w for w, _ in lost], table) from lost[0][1]
        return table

    def asked(self, elements):
        """The pairs of an element and what was answered for it, or the error in its place."""
        what = Certificates(self.group) if self.certified else Results(self.group, "_made_row")
        items = [(w,) for w in elements]
        if self.executor is None:
            yield from zip(elements, here(what, items))
            return
        asked = Asked(self.executor, what, items, self.chunksize)
        for number, found in asked.as_they_come():
            of = [w for w, in asked.questions(number)]
            yield from zip(of, [found] * len(of) if isinstance(found, Exception) else found)

    def row(self, w, found):
        """The row of an answer, and its origin. The error that came in its place is raised."""
        if isinstance(found, Exception):
            raise found
        if self.certified:
            row = self.group._certified(w, found, self.checker)
            return row, Origin(self.group._checksum() if self.executor is None else None, self.checked_by())
        if not isinstance(found, tuple) or len(found) != 2:
            raise UnexpectedResult(found, 1)
        row, checksum = found
        row = self.group._row_of(w, row)
        return row, Origin(checksum if isinstance(checksum, str) and re.fullmatch("[0-9a-f]{64}", checksum) else None, None)

    def checked_by(self):
        """The checksum of the checker."""
        if self.checksum is None:
            self.checksum = provenance(find_program(self.checker, "coxcheck")).sha256
        return self.checksum


def whole_chunks(size):
    """The size of chunks."""
    size = operator.index(size)
    if size < 1:
        raise ValueError("the chunks are too small")
    return size


class Asked:
    """Chunks of questions that the workers of an executor answer. `what` has a function for the workers, and reads what they give."""

    def __init__(self, executor, what, items, chunksize):
        self.executor, self.what, self.items = executor, what, items
        self.client = client_of(executor)
        order = sorted(range(len(items)), key=lambda k: -size(items[k]))
        self.chunks = [order[at : at + chunksize] for at in range(0, len(order), chunksize)]
        self.tries = [0] * len(self.chunks)
        # Dask gives a question that was asked before the answer that it had then. So each has a mark of its own.
        self.mark = uuid.uuid4().hex
        self.done = queue.SimpleQueue()  # the numbers of chunks, with the futures that are done
        self.futures = {}  # those of chunks that are asked
        self.waiting = collections.deque(range(len(self.chunks)))  # the chunks that are still to be asked
        self.last = collections.deque()  # those whose last try comes at the end, one by one
        self.fill()

    def fill(self):
        """Asks chunks while there is room. A pool of processes breaks as a whole, with all that it was asked: so it is asked no more than it has
        workers, and what broke it twice is asked alone."""
        room = getattr(self.executor, "_max_workers", 1) if is_pool(self.executor) else len(self.chunks)
        while self.waiting and len(self.futures) < room:
            self.submit(self.waiting.popleft())
        if self.last and not self.futures:
            self.submit(self.last.popleft())

    def submit(self, number):
        self.tries[number] += 1
        mark = f"{self.mark} {number} {self.tries[number]}"
        words = self.what.work, *self.what.arguments, self.questions(number), mark
        try:
            future = submitting(self.executor)(*words)
        except concurrent.futures.BrokenExecutor as error:
            future = concurrent.futures.Future()
            future.set_exception(error)
        self.futures[number] = future
        future.add_done_callback(lambda it: self.done.put((number, it)))

    def questions(self, number):
        return [self.items[k] for k in self.chunks[number]]

    def in_order(self):
        """The results in the order of the arguments. Those that came with others are kept until then, and so are errors."""
        numbers = {k: number for number, chunk in enumerate(self.chunks) for k in chunk}
        found, come = {}, self.as_they_come()
        with contextlib.closing(come):
            for k in range(len(self.items)):
                while numbers[k] not in found:
                    number, results = next(come)
                    found[number] = results if isinstance(results, Exception) else dict(zip(self.chunks[number], results))
                results = found[numbers[k]]
                if isinstance(results, Exception):
                    raise results
                yield results.pop(k)

    def as_they_come(self):
        """The pairs of the number of a chunk and its results, or the error that came in their place."""
        try:
            with watched(self.client):
                for _ in self.chunks:
                    number = results = None
                    while results is None:
                        number, future = self.done.get()
                        results = self.result(number, future)
                        self.fill()
                    yield number, results
        finally:
            self.cancel()

    def result(self, number, future):
        """The results of a chunk, or the error in their place. None where its worker or program was killed, and it is asked again."""
        del self.futures[number]
        try:
            try:
                sent = future.result()
            except (Exception, concurrent.futures.CancelledError) as error:
                # The errors of questions come as results. So this one is the executor's own: dask has such where workers were killed.
                self.mend(error)
                raise ExecutorFailed(f"{type(error).__name__}: {error}", tells_of_kill(error)) from error
            return self.what.read(sent, len(self.chunks[number]))
        except Exception as error:
            if not was_killed(error) or self.tries[number] >= TRIES:
                return error
        alone = self.tries[number] + 1 == TRIES and is_pool(self.executor)
        (self.last if alone else self.waiting).append(number)
        return None

    def mend(self, error):
        """Puts another pool of processes in the place of one that broke."""
        if isinstance(error, concurrent.futures.BrokenExecutor) and is_pool(self.executor) and self.executor._broken:
            it = self.executor
            more = {"mp_context": it._mp_context, "initializer": it._initializer, "initargs": it._initargs}
            self.executor = concurrent.futures.ProcessPoolExecutor(it._max_workers, **more)

    def cancel(self):
        """Sees to it that what is still to be asked is not."""
        for future in self.futures.values():
            future.cancel()
        # A pool of our own ends with its last question, since nobody holds it any more: Python 3.8 would lose its workers by
        # `shutdown(wait=False)`, and wait for them at its own end.
        self.executor = None


def is_pool(executor):
    """Whether this is a pool of processes of Python itself."""
    return type(executor) is concurrent.futures.ProcessPoolExecutor


def tells_of_kill(error):
    """Whether an executor's own error tells that a worker was killed, or can't be reached: it is that of a broken pool, of a question that was taken
    back, of a connection, or one of dask's own."""
    kinds = (concurrent.futures.BrokenExecutor, concurrent.futures.CancelledError, OSError, EOFError)
    return isinstance(error, kinds) or type(error).__module__.split(".")[0] == "distributed"


def client_of(executor):
    """The client of dask that an executor is, or that is behind it; None where there is none."""
    if type(executor).__module__.split(".")[0] != "distributed":
        return None
    return getattr(executor, "_client", executor)


def submitting(executor):
    """The `submit` of an executor; that of the client behind an executor of dask, whose own futures may never be done where workers are
    killed, while those of the client are."""
    client = client_of(executor)
    if client is None or client is executor:
        return executor.submit
    return functools.partial(client.submit, **getattr(executor, "_kwargs", {}))


@contextlib.contextmanager
def watched(client):
    """For a `with` block in which results of a client of dask are awaited: a warning says where its cluster has had no worker for a while.
    Dask waits for one without end."""
    if client is None:
        yield
        return
    ended = threading.Event()
    threading.Thread(target=watch, args=(client, ended), name="coxeter_shell watches dask", daemon=True).start()
    try:
        yield
    finally:
        ended.set()


def watch(client, ended):
    """Says, until `ended` is set, each time that there has been no worker for a while."""
    without = 0
    while not ended.wait(WITHOUT_WORKERS / 10):
        try:
            without = 0 if client.scheduler_info()["workers"] else without + 1
        except Exception:  # the client is closed, or is not to be asked so
            return
        if without == 10:
            warnings.warn(f"dask has had no worker for {WITHOUT_WORKERS} seconds, and waits for one without end", RuntimeWarning)


def was_killed(error):
    """Whether a question may be asked again after this error: its program, or its worker, was killed."""
    if isinstance(error, ProgramEnded):
        return error.status is None or error.status < 0
    return isinstance(error, ExecutorFailed) and error.killed


class Results:
    """The results of a method. Workers give them as they are, and an error as a value: there are executors that lose what is raised by a
    question that they ask twice, and wait for it without end."""

    def __init__(self, group, method):
        self.group, self.method = group, method
        self.arguments = group, method

    @staticmethod
    def work(group, method, items, _):
        """What a worker does."""
        try:
            return "results", ask(mine(group), method, items)
        except Exception as error:
            return "error", portable(error)

    def here(self, items):
        return ask(self.group, self.method, items)

    def read(self, sent, count):
        """The results in what a worker has sent. An error that it has sent is raised."""
        if isinstance(sent, tuple) and len(sent) == 2:
            how, found = sent
            if how == "error" and isinstance(found, Exception):
                raise found
            if how == "results" and isinstance(found, list) and len(found) == count:
                for it in found:
                    if isinstance(it, Table):
                        it.group = self.group
                return found
        raise UnexpectedResult(sent, count)


class Certificates:
    """The certificates of rows. Workers give them as bytes, which hold a text of JSON: so it can be read without trust."""

    def __init__(self, group):
        self.group = group
        self.arguments = (group,)

    @staticmethod
    def work(group, items, _):
        """What a worker does."""
        try:
            told = {"certificates": ask(mine(group), "certificate", items)}
        except ProgramEnded as error:
            told = {"ended": error.line, "status": error.status}
        except Refusal as error:
            told = {"refused": error.line, "number": error.number}
        except Exception as error:
            told = {"error": f"{type(error).__name__}: {error}"}
        return json.dumps(told).encode("ascii")

    def here(self, items):
        return ask(self.group, "certificate", items)

    def read(self, sent, count):
        """The certificates in what a worker has sent. An error that it tells of is raised."""
        try:
            told = json.loads(bytes(sent)) if isinstance(sent, (bytes, bytearray, memoryview)) else None
        except (ValueError, RecursionError):
            told = None
        if isinstance(told, dict):
            kinds = {name: type(value) for name, value in told.items()}
            if kinds == {"certificates": list} and len(told["certificates"]) == count:
                if all(isinstance(it, str) for it in told["certificates"]):
                    return told["certificates"]
            elif kinds in ({"ended": str, "status": int}, {"ended": str, "status": type(None)}):
                raise ProgramEnded(told["ended"], told["status"])
            elif kinds == {"refused": str, "number": int}:
                raise Refusal(told["number"], told["refused"])
            elif kinds == {"error": str}:
                raise CoxeterError(f"a worker failed: {told['error']}")
        raise UnexpectedResult(sent, count)


def here(what, items):
    """The results of some questions, or the errors that came in their place, asked for in this thread."""
    for item in items:
        for left in reversed(range(TRIES)):
            try:
                [found] = what.here([item])
            except CoxeterError as error:
                found = error
                if was_killed(error) and left:
                    continue
            break
        yield found


def ask(group, method, items):
    """The results of a method of a group for some arguments."""
    asked = getattr(group, method)
    return [asked(*item) for item in items]


def portable(error):
    """The error, or one with its text where it can't be pickled."""
    try:
        pickle.loads(pickle.dumps(error))
    except Exception:
        return CoxeterError(f"{type(error).__name__}: {error}")
    return error


def size(item):
    """How long the words of a question are."""
    return sum(len(it) for it in item if hasattr(it, "__len__"))


def mine(group):
    """The same group with a program of this thread's own."""
    groups = _mine.__dict__.setdefault("groups", {})
    key = group.line, group.program.path, tuple(sorted(group.program.options.items())), group.timeout
    if key not in groups:
        groups[key] = copy.copy(group)
        groups[key]._progress = False
    return groups[key]
