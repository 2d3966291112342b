"""One process of the program, driven through pipes.

How the end of an answer is known is worked out here and nowhere else. After each question a second line is sent, a
single TAB. The program answers `error 19` to it, whatever the group is and whether or not one is set: a TAB may not
stand in a line, and nothing but the length of a line is judged before that. No question has this answer, since a line
with such a character is refused here and never sent. So the lines before `error 19` are the answer to the question:
none where `type` or `matrix` was accepted, one line `error N` where the question was refused, else a line or a list.

In a list of jobs a mark stands behind each line, and is answered as it is elsewhere, since it is a line of its block.
"""
from __future__ import annotations

import collections
import itertools
import numbers
import operator
import os
import re
import shutil
import subprocess
import threading
import time
import weakref
from typing import Any, Callable, Iterable, List, NoReturn, Optional

from . import parents
from .built import program_of
from .documents import checkouts
from .errors import ProgramClosed, ProgramEnded, ProgramNotFound, QuestionTimeout, Refusal, UnexpectedAnswer
from .lines import Late, Lines, is_line
from .provenance import Provenance, own_program, provenance

MARK = "\t"
MARK_ANSWER = "error 19"

# The most bytes that the program accepts: of a line, without its LF, and of its whole input.
MOST_OF_LINE = 4096
MOST_OF_INPUT = 16_777_216

# The most blocks of a list of jobs, and the most lines of them all. The lines that part a list are no lines of its blocks.
MOST_OF_BLOCKS = 16
MOST_OF_JOBS = 1000
PARTS = (["next"], ["end"])
TOO_LONG = "error 35"

# The most letters of a word, and the most members of an interval where the option `context` says nothing else.
MOST_OF_WORD = 255
MOST_OF_CONTEXT = 1_048_576

# What is sent besides a question: the mark behind it, and the empty list before a list.
ROOM = len(f"jobs\nend\n{MARK}\n\n{MARK}\n")

# The options, and what each may be.
OPTIONS = {"workers": (1, 16), "context": (1, MOST_OF_CONTEXT), "roots": (1, 4096), "coef": (1, 2**63 - 1)}

# The characters that may not stand in a line.
NO_CHARACTER = re.compile("[^ -~]")

# The programs that there are, for the process that a fork makes.
_programs: Any = weakref.WeakSet()


class Program:
    """A process of the program. It is started when first asked, and kept.

    `group` is the `type` or `matrix` line that a new process begins with. `workers`, `context`, `roots`
    and `coef` are options of the program. The process is ended by `close`, at the end of a `with` block, and with the
    object; if it ends otherwise, the next question starts a new one with the same group. It is killed where Python ends
    without having ended it.

    `timeout` is how many seconds the program has for the whole answer to a question, with the start of a process where there is none; None
    is no limit. Behind it the program is ended, and a QuestionTimeout raised. Of an answer that is read line by line those seconds count in
    which a line is awaited.

    `watch`, if it is set, is called before the first line of an answer is read: with the question, and with a function that waits for so many
    seconds, and says whether something has come by then.

    >>> with Program(group="type A 3") as program:
    ...     program.ask("coatoms 121")
    ['2', '12', '21']
    """

    def __init__(self, path: Optional[str] = None, *, group: Optional[str] = None, **options: Optional[int]) -> None:
        self.path = path
        self.group = group
        self.options = {name: option(name, value) for name, value in options.items() if value is not None}
        self.timeout: Optional[float] = None
        self.watch: Optional[Callable[[str, Callable[[float], bool]], Any]] = None
        self._process: Any = None
        self._lines: Any = None  # what comes from the process
        self._end: Any = None
        self._owner: Optional[int] = None
        self._sent = 0  # bytes
        self._asked = ""  # the last question
        self._unread: Any = None  # what gives its answer, as a weak reference does, until that is read to its end
        self._marks = 0  # so many are still to come then
        self._last: Any = None  # a weak reference to that answer, where it may have lines that nobody took
        # Whether the group is set, and whether it is known what comes next from the process: an interrupt may come anywhere.
        self._begun = self._sure = False
        self._checksum: Any = None  # that of the process, with the process
        self._renew_lock()
        _programs.add(self)

    def _renew_lock(self):
        self._lock = threading.RLock()

    def ask(self, line: str) -> List[str]:
        """The lines of the answer to a line: none where `type`, `matrix` or a blank line is accepted."""
        words = check_line(line)
        with self._lock:
            limit = Limit(line, self.timeout)
            self._start(MOST_OF_LINE, limit)
            [lines] = self._exchange(line, line, 1, limit)
            number = self.refusal(lines, line)
            if number is not None:
                raise Refusal(number, line)
            if words and words[0] in ("type", "matrix"):
                self._none(line, lines)
                self.group = line
            return lines

    def stream(self, line: str) -> Answer:
        """The lines of the answer to a line, as an iterator that reads them when they are needed."""
        words = check_line(line)
        with self._lock:
            limit = Limit(line, self.timeout)
            self._start(MOST_OF_LINE, limit)
            answer = self._question(line, limit)
            if words and words[0] in ("type", "matrix"):
                self._none(line, answer)
                self.group = line
            limit.rest()
            return answer

    def ask_list(self, blocks: Iterable[Iterable[str]]) -> List[List[List[str]]]:
        """The answers to the lines of some blocks, which are asked as a list of jobs: for each block the list of the answers to its
        lines, each as its lines. A refusal is the one line `error N` there. `timeout` is for the list as a whole.

        There may be 16 blocks, and 500 lines in them all: the marks behind the lines are lines too. Else the list is refused by 35.

        >>> with Program(group="type A 3") as program:
        ...     program.ask_list([["coatoms 121", "length 4"], ["pol 2 2132"]])
        [[['2', '12', '21'], ['error 16']], [['1+q']]]
        """
        listed = [list(block) for block in blocks]
        parts = []
        for block in listed:
            for line in block:
                check_job(line)
            parts.append("".join(f"{line}\n{MARK}\n" for line in block))
        text = "jobs\n" + "next\n".join(parts) + "end"
        with self._lock:
            limit = Limit("jobs", self.timeout)
            self._start(len(text), limit)
            # Without a group, or in a program that has no lists, each line would be answered before the next is read. So an empty
            # list is tried first, which has no answer.
            [said] = self._exchange("jobs\nend", "jobs", 1, limit)
            if said:
                number = self.refusal(said[:1], "jobs")
                if number is None:
                    self.unexpected("jobs", said, "nothing should have come")
                raise Refusal(number, "jobs")
            *answers, said = self._exchange(text, "jobs", sum(map(len, listed)) + 1, limit)
            if said:
                self.unexpected("jobs", said, "the list should have as many answers as lines")
        left = iter(answers)
        return [list(itertools.islice(left, len(block))) for block in listed]

    def provenance(self) -> Provenance:
        """Where the program comes from: its file and the checksum of that, the release that it is, and the logic that it was proved in.
        It is a `Provenance`, whose text has a line for each.

        >>> [len(it) for it in (Program().provenance().sha256, str(Program().provenance()).splitlines()[1].split())]
        [64, 2]
        """
        with self._lock:
            process = None if self._process is None or self.foreign() else self._process.pid
            return provenance(find_program(self.path), process)

    def checksum(self) -> str:
        """The sha256 of the program that answers. It is read once for each process.

        >>> program = Program()
        >>> program.checksum() == program.provenance().sha256
        True
        """
        with self._lock:
            self.start()
            if self._checksum is None or self._checksum[0] is not self._process:
                self._checksum = self._process, self.provenance().sha256
            return self._checksum[1]

    def start(self, size: int = MOST_OF_LINE) -> None:
        """Starts the process and sets the group, unless a process is there that can take one more question of this size."""
        with self._lock:
            self._start(size, Limit(self.group or "", self.timeout))

    def _start(self, size, limit):
        if self._process is not None and (self.foreign() or not self._begun or not self._sure):
            self.close()
        if self._process is not None:
            self._read_rest(limit)
            if self._sent + size + ROOM > MOST_OF_INPUT:
                self.close()
        if self._process is None:
            self._spawn()
            self._none("", self._question("", limit))
            if self.group is not None:
                try:
                    self._none(self.group, self._question(self.group, limit))
                except Refusal:
                    self.close()
                    raise
            self._begun = True

    def close(self) -> None:
        """Ends the process. What was not read of an answer is lost: its iterator raises ProgramClosed."""
        with self._lock:
            if self._process is None:
                return
            if self.foreign():
                self._process = self._unread = None
                return
            self._lose("the program was ended by close()")
            if self._unread is not None or not self._sure:
                self._kill()
            else:
                self._stop()

    def _lose(self, why):
        """Sees to it that the answer to the last question can't be read any further."""
        answer = self._last and self._last()
        if answer is not None:
            answer.lose(why)
        self._last = None

    def foreign(self) -> bool:
        """Whether the process belongs to the Python process that this one was forked from."""
        return self._owner != os.getpid()

    def __enter__(self) -> Program:
        return self

    def __exit__(self, *_: object) -> None:
        self.close()

    def _spawn(self):
        words = [find_program(self.path), *(f"--{name}={value}" for name, value in self.options.items())]
        check_interpreter(words[0])
        # In a session of its own it is not reached by a Ctrl-C that is meant for Python.
        pipes = {"stdin": subprocess.PIPE, "stdout": subprocess.PIPE, "bufsize": 0}
        starting = parents.Start(words, start_new_session=True, **pipes)
        try:
            process = starting.process()
            self._lines, self._owner, self._sent, self._unread, self._begun = Lines(process), os.getpid(), 0, None, False
            self._end = weakref.finalize(self, end, process, self._owner)
            self._process = process
        except OSError as error:
            raise ProgramNotFound(f"the program {words[0]!r} can't be run: {error}") from error
        except BaseException:
            self._process = None
            starting.abandon()
            raise

    def _stop(self):
        """Ends the process, and gives its exit status, or None if it had to be killed."""
        process = self._process
        self._unread = None
        if process is None:
            return None
        status = end(process, self._owner)
        self._process = None
        if self._end is not None:
            self._end.detach()
        return status

    def _question(self, line, limit):
        """Sends a question and the mark behind it. Reads the first line of the answer, and raises it if it's a refusal."""
        answer = Answer(self, line, limit)
        self._last = weakref.ref(answer)
        self._send(line, line, self._last, 1, limit)
        answer.begin()
        return answer

    def _exchange(self, text, line, marks, limit):
        """Sends a question, or a list of jobs, whose `line` is `jobs`, and gives what comes before each of so many marks."""
        self._last = None
        self._send(text, line, nobody, marks, limit)
        found = []
        while len(found) < marks:
            lines = []
            while not self.read(lines, limit, first=not (found or lines)):
                pass
            found.append(lines)
            if found == [[TOO_LONG]] and line == "jobs":
                # The list as a whole is refused, and no other mark comes.
                self._unread = None
                raise Refusal(35, "jobs")
        return found

    def _send(self, text, line, answer, marks, limit):
        """Sends a question and a mark behind it. What comes up to the last of so many marks is the answer, which `answer` gives, or None."""
        data = f"{text}\n{MARK}\n".encode("ascii")
        self._sure = False
        self._asked = line
        self._unread = answer
        self._marks = marks
        self._sent += len(data)
        with Awaiting(self, limit):
            try:
                self._lines.send(data, limit.until)
            except OSError:
                told = self._told(line, limit)
                if told:
                    self.unexpected(line, told, "")
                raise
        self._sure = True

    def _told(self, line, limit):
        """What a process wrote that ended before its first question: the usage line, if its options are wrong."""
        if self._begun or line:
            return ""
        try:
            patient = time.monotonic() + parents.PATIENCE
            return self._lines.take(MARK_ANSWER, min(patient, limit.until or patient))[0][0]
        except (EOFError, Late, OSError):
            return ""

    def _none(self, question, answer):
        """Sees to it that an answer has no line."""
        for line in answer:
            self.unexpected(question, line, "nothing should have come")

    def _read_rest(self, limit):
        """Reads what is left of the last answer: into its iterator, unless that is gone."""
        answer = self._unread and self._unread()
        if answer is not None:
            answer.keep_rest(limit)
        while self._unread is not None:
            self.read([], limit)

    def read(self, lines: Any, limit: Limit, first: bool = False) -> bool:
        """Appends those lines to a list that have come of the answer to the last question. Where none has, one is awaited. Says whether they are
        all, up to the next mark."""
        if self._unread is None:
            return True
        question, self._sure = self._asked, False
        with Awaiting(self, limit):
            if first and self.watch is not None:
                self.watch(question, lambda seconds: self._lines.comes(seconds, limit.until))
            come, marked = self._lines.take(MARK_ANSWER, limit.until)
            lines.extend(come)
        if marked:
            self._marks -= 1
            if not self._marks:
                self._unread = None
        if self._lines.doubtful:
            self._check_characters(lines, come)
        self._sure = True
        return marked

    def _check_characters(self, lines, come):
        """Sees to it that lines are of the right characters. A line that isn't comes alone."""
        if len(come) == 1 and not is_line(come[0]):
            lines.pop()
            self.unexpected(self._asked, come[0], "a line should be of printing ASCII characters and spaces")

    def _kill(self):
        """Ends the process at once, in the middle of an answer."""
        if self._process is not None:
            self._process.kill()
            self._stop()

    def refusal(self, lines: List[str], question: str) -> Optional[int]:
        """The number of the refusal that the lines of an answer are, None where they are another answer."""
        if not lines or not lines[0].startswith("error"):
            return None
        found = re.fullmatch("error ([1-9][0-9])", lines[0])
        if found is None or len(lines) > 1:
            self.unexpected(question, lines, "a refusal should be one line, `error` and a number")
        return int(found.group(1))

    def unexpected(self, question: str, answer: Any, why: str) -> NoReturn:
        """Ends the process, since its answers can't be trusted, and raises the error."""
        with self._lock:
            self._kill()
        raise UnexpectedAnswer(question, answer, why if question else "this is not the program, or its options are wrong")


class Limit:
    """The limit of time of a question: so many seconds, None for none. `until` is when it is over, by time.monotonic(), while it runs."""

    __slots__ = ("line", "seconds", "left", "until")

    def __init__(self, line, seconds):
        self.line, self.seconds, self.left = line, seconds, seconds
        self.run()

    def run(self):
        """From now on the program is awaited."""
        self.until = None if self.left is None else time.monotonic() + self.left

    def rest(self):
        """From now on it is not awaited, and no time is lost."""
        if self.until is not None:
            self.left = self.until - time.monotonic()


class Awaiting:
    """A `with` block in which the program is awaited. Where it ends there, or is late, or Python is interrupted, its process is ended."""

    __slots__ = ("program", "limit")

    def __init__(self, program, limit):
        self.program, self.limit = program, limit

    def __enter__(self):
        return self

    def __exit__(self, kind, error, _):
        if kind is None:
            return
        if isinstance(error, (EOFError, OSError)):
            raise ProgramEnded(self.program._asked, self.program._stop()) from error
        self.program._kill()
        if isinstance(error, Late):
            raise QuestionTimeout(self.limit.line, self.limit.seconds) from None


class Answer:
    """The lines of an answer, read when they are needed.

    When the program is asked something else before the end, the lines that are left are read and kept first.
    """

    def __init__(self, program, line, limit):
        self.line = line
        self._program = program
        self._process = program._process
        self._limit = limit
        self._kept = collections.deque()
        self._ended = False
        self.lost = None  # why its lines can't be had, once that is so

    def lose(self, why):
        """From now on its lines can't be had, even if they have come."""
        self.lost = why
        if self._kept:
            self._kept.clear()
            self._ended = False

    def closed(self):
        """The error that says why there are no more lines."""
        return ProgramClosed(self.line, self.lost or "the program was ended, since it failed or was interrupted")

    def begin(self):
        """Reads the first line, or raises the refusal."""
        self._read(self._limit, first=True)
        if self._kept and self._kept[0].startswith("error"):
            if len(self._kept) == 1:
                self._read(self._limit)
            raise Refusal(self._program.refusal(list(itertools.islice(self._kept, 2)), self.line), self.line)

    def _read(self, limit, first=False):
        """Reads some lines, one at least, unless there are no more."""
        if not self._ended:
            if self._process is not self._program._process or self._program.foreign():
                raise self.closed()
            self._ended = self._program.read(self._kept, limit, first)

    def _read_here(self):
        """The same, for who wants the next line of this answer."""
        self._limit.run()
        self._read(self._limit)
        self._limit.rest()

    def __iter__(self):
        return self

    def __next__(self):
        with self._program._lock:
            if not self._kept:
                self._read_here()
                if not self._kept:
                    raise StopIteration
            return self._kept.popleft()

    def some(self):
        """The list of the lines that have come and were not taken. Where there is none, one is awaited; at the end of the answer it is empty."""
        with self._program._lock:
            if not self._kept:
                self._read_here()
            lines = list(self._kept)
            self._kept.clear()
        return lines

    def rest(self):
        """The list of the lines that are left."""
        with self._program._lock:
            self._limit.run()
            self.keep_rest(self._limit)
            self._limit.rest()
            lines = list(self._kept)
            self._kept.clear()
        return lines

    def keep_rest(self, limit):
        """Reads the lines that are left, so that the program can be asked something else."""
        while not self._ended:
            self._read(limit)


def option(name, value):
    """The value of an option of the program. A wrong one is a TypeError or a ValueError."""
    if name not in OPTIONS:
        raise TypeError(f"the program has no option {name!r}")
    least, greatest = OPTIONS[name]
    try:
        value = int(operator.index(value))
    except TypeError:
        raise TypeError(f"the option {name} is a whole number, and not {value!r}") from None
    if not least <= value <= greatest:
        raise ValueError(f"the option {name} is a number from {least:,} to {greatest:,}, and not {value:,}")
    return value


def seconds(value):
    """A limit of time: a positive number, or None for none."""
    if value is None:
        return None
    if isinstance(value, bool) or not isinstance(value, numbers.Real):
        raise TypeError(f"a limit of time is a number of seconds, and not {value!r}")
    if not 0 < value <= threading.TIMEOUT_MAX:
        raise ValueError(f"a limit of time is a positive number of seconds, and not {value}")
    return float(value)


def check_line(line):
    """The parts of a line that is asked alone. Refuses what may not be sent."""
    words = check_characters(line)
    if words == ["quit"]:
        raise ValueError("`quit` ends the program before it answers: use close()")
    if words == ["jobs"]:
        raise ValueError("`jobs` is not answered before its list ends: use jobs(..), or ask_list(..) of a program")
    return words


def check_job(line):
    """The parts of a line of a list of jobs. Refuses what may not be sent."""
    words = check_characters(line)
    if words in PARTS:
        raise ValueError(f"{line!r} parts the blocks of a list, and is no line of one")
    return words


def check_characters(line):
    """The parts of a line. Refuses one that is too long, or has a wrong byte, by the number that the program would refuse it by."""
    if not isinstance(line, str):
        raise TypeError(f"a line is a text, and not {line!r}")
    if line.isascii() and line.isprintable() and len(line) <= MOST_OF_LINE:
        return line.split()
    if len(line) > MOST_OF_LINE or len(line.encode("utf-8", "surrogatepass")) > MOST_OF_LINE:
        raise Refusal(18, line)
    if NO_CHARACTER.search(line):
        raise Refusal(19, line)
    return line.split()


def nobody():
    """The answer that is kept for nobody."""
    return None


def check_interpreter(path):
    """Sees to it that the interpreter is there which the first line of a script names: `setpriv` doesn't tell Python."""
    try:
        with open(path, "rb") as program:
            words = program.readline(4096).split() if program.read(2) == b"#!" else []
    except OSError:  # it may be run and not read
        return
    if words and not os.access(words[0], os.X_OK):
        raise ProgramNotFound(f"the program {path!r} can't be run: there is no {os.fsdecode(words[0])}")


def end(process, owner):
    """Ends a process that this process of Python started. Gives its exit status, or None if it was forced."""
    return parents.end(process) if owner == os.getpid() else None


def forked():
    """What is done in the process that a fork made: other threads, which may have held locks, are not there, and processes belong to the
    one that was forked."""
    for program in list(_programs):
        program._renew_lock()
        if program._process is not None:
            program._lose("the program belongs to the process that this one was forked from")
        program._process = program._unread = None


os.register_at_fork(after_in_child=forked)


def find_program(path: Optional[str] = None, name: str = "coxeter") -> str:
    """The path of the program `coxeter`, or of `coxcheck`, by its name.

    It is `path`, which is a file where there is one of this name, and else a command on the PATH; else what the environment variable COXETER
    names, or COXCHECK; else the program that came with this package; else that of the checkout which it lies in or was installed from (built
    there, or in its release/); else the command on the PATH.
    """
    if path and os.path.isfile(path) and os.access(path, os.X_OK):
        return path if os.path.dirname(path) else os.path.join(os.curdir, path)
    named = path or os.environ.get(name.upper())
    if named:
        found = shutil.which(named)
        if found is None:
            by = "" if path else f", which the environment variable {name.upper()} names"
            raise ProgramNotFound(f"there is no program {os.fspath(named)!r}{by}")
        return found
    found, why = own_program(name)
    if found is not None:
        return found
    unbuilt = f" ({why}.)" if why else ""
    for checkout in checkouts():
        found, why = program_of(checkout, name)
        if found is not None:
            return found
        unbuilt += why or ""
    found = shutil.which(name)
    if found is None:
        ways = f"give its path by the argument `program` or by the environment variable {name.upper()}, or put it on the PATH."
        raise ProgramNotFound(f"the program {name} was not found: {ways}{unbuilt}")
    return found
