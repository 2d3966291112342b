"""What can go wrong."""
from __future__ import annotations

from typing import Any, List, Optional

# The refusals of the program, in the words of its manual.
MEANINGS = {
    10: "the program has no such command",
    11: "the command takes another number of arguments",
    12: "an argument should be a number and is none, or it is out of range",
    13: "there is no such type",
    14: "a label of the matrix is not 0, 2, 3, 4 or 6",
    15: "no group is set",
    16: "a word has a letter that the group doesn't have",
    17: "a word has more than 255 letters",
    18: "the line has more than 4,096 bytes",
    19: "the line has a byte that is no printing ASCII character and no space",
    21: "the group has more small roots than the option `roots` allows",
    31: "the interval below the element, or the group, is infinite or has more members than the option `context` allows, "
    "or than 4,096 in a certificate",
    32: "a coefficient of a Kazhdan-Lusztig polynomial is beyond the option `coef`, or a value of mu is too large",
    34: "R-polynomials are refused for elements whose lengths differ by more than 39, and certificates of longer elements",
    35: "a list of jobs has more than 16 blocks, or more than 1,000 lines",
}

STATUSES = {
    2: "its arguments are wrong",
    3: "it could not read its input",
    4: "it could not write its answer",
    5: "it ran out of memory",
    6: "it was given more than 16,777,216 bytes of input",
    70: "it could not be built",
    127: "it has to be built, and the command `rt` is not on the PATH",
}


class CoxeterError(Exception):
    """The errors of this package."""


class Refusal(CoxeterError):
    """The program refused a line. `number` is the refusal's number, `meaning` says it in words, `line` is the line.

    `detail` says which of the causes it is, where that is known, and is else empty. The group is as it was before.
    """

    def __init__(self, number: int, line: str, detail: str = "") -> None:
        super().__init__(number, line)
        self.number = number
        self.line = line
        self.detail = detail
        self.meaning = MEANINGS.get(number, "a refusal that this package doesn't know")

    def __str__(self):
        detail = f": {self.detail}" if self.detail else ""
        return f"error {self.number}: {self.meaning}{detail} (the line was {shown(self.line)})"


class JobRefusal(Refusal):
    """The program refused a line of a list of jobs. `block` is the number of its block and `index` that of the line in it, both from 0."""

    def __init__(self, number: int, line: str, block: int, index: int) -> None:
        super().__init__(number, line)
        self.args = number, line, block, index
        self.block, self.index = block, index

    def __str__(self):
        return f"{super().__str__()[:-1]}, line {self.index} of block {self.block}, both from 0)"


class ProgramNotFound(CoxeterError):
    """There is no program to drive."""


class ProgramError(CoxeterError):
    """The program didn't do what it should. Its process has been ended, and the next question starts a new one."""


class ProgramEnded(ProgramError):
    """The program ended, or closed a pipe, before it had answered.

    `status` is its exit status, negative for a signal, or None where the program had to be ended.
    """

    def __init__(self, line: str, status: Optional[int]) -> None:
        super().__init__(line, status)
        self.line = line
        self.status = status

    def __str__(self):
        if self.status is None:
            how = "it closed a pipe, and had to be stopped"
        elif self.status < 0:
            how = f"by signal {-self.status}"
        else:
            how = f"exit status {self.status}"
            how += f": {STATUSES[self.status]}" if self.status in STATUSES else ""
        when = f"it had answered {shown(self.line)}" if self.line else "it was asked anything"
        return f"the program ended before {when} ({how})"


class QuestionTimeout(ProgramError):
    """The program had not answered a question after `seconds`, and was ended. The next question starts a new one with the same group."""

    def __init__(self, line: str, seconds: float) -> None:
        super().__init__(line, seconds)
        self.line = line
        self.seconds = seconds

    def __str__(self):
        return f"no answer to {shown(self.line)} after {self.seconds:g} seconds: the program was ended"


class CheckFailed(ProgramError):
    """The program `coxcheck` ended without saying yes or no. `status` is its exit status, negative for a signal."""

    def __init__(self, status: int) -> None:
        super().__init__(status)
        self.status = status

    def __str__(self):
        how = f"by signal {-self.status}" if self.status < 0 else f"exit status {self.status}"
        how += f": {STATUSES[self.status]}" if self.status in STATUSES else ""
        return f"coxcheck ended before it had judged the certificate ({how})"


class ProgramClosed(ProgramEnded):
    """An iterator is asked for more, but its program has been ended, or belongs to another process. `why` says it."""

    def __init__(self, line: str, why: str) -> None:
        super().__init__(line, None)
        self.why = why

    def __reduce__(self):
        return ProgramClosed, (self.line, self.why)

    def __str__(self):
        return f"the rest of the answer to {shown(self.line)} can't be read: {self.why}"


class UnexpectedAnswer(ProgramError):
    """An answer that doesn't have the shape that it should have. `line` was asked, and `answer` is what came."""

    def __init__(self, line: str, answer: Any, why: str) -> None:
        super().__init__(line, answer, why)
        self.line = line
        self.answer = answer
        self.why = why

    def __str__(self):
        asked = shown(self.line) if self.line else "a blank line"
        return f"an unexpected answer to {asked}: {self.why}; what came is {shown(self.answer)}"


class UnexpectedResult(CoxeterError):
    """A worker of an executor gave something else than the results of so many questions. `result` is what it gave."""

    def __init__(self, result: Any, count: int) -> None:
        super().__init__(result, count)
        self.result = result
        self.count = count

    def __str__(self):
        return f"a worker gave something else than the results of {self.count} questions: {shown(self.result)}"


class ExecutorFailed(CoxeterError):
    """An executor failed by itself, and gave its own error in the place of a result. `killed` is whether that tells of a worker that was killed, so
    that the question may be asked again."""

    def __init__(self, why: str, killed: bool) -> None:
        super().__init__(why, killed)
        self.why = why
        self.killed = killed

    def __str__(self):
        return f"the executor failed: {self.why}"


class Unanswered(CoxeterError):
    """Questions of a table that were given up, since a worker or its program was killed each time. All others are answered.

    `words` is the list of the elements whose rows are missing, and `table` has the other rows.
    """

    def __init__(self, words: List[Any], table: Any) -> None:
        super().__init__(words, table)
        self.words = words
        self.table = table

    def __str__(self):
        named = ", ".join(map(self.table.group.text, self.words[:10])) + (", .." if len(self.words) > 10 else "")
        return f"no rows of {len(self.words)} elements, whose worker or program was killed each time: {named}"


def shown(value):
    """The value as text, without the middle of a long one."""
    text = repr(value)
    return text if len(text) <= 200 else f"{text[:150]} .. {text[-40:]}"
