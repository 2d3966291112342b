"""Certificates of rows, and the program `coxcheck` that judges them."""
from __future__ import annotations

import collections
import math
import subprocess
from typing import Optional, Union

from . import parents, texts
from .errors import CheckFailed, ProgramNotFound, QuestionTimeout, UnexpectedAnswer
from .program import check_interpreter, find_program, seconds
from .tables import ElementDict

# The most elements below the element of a certificate, the most letters of it, which is the greatest degree too, and the greatest coefficient.
MOST_OF_CERTIFICATE = 4096
MOST_OF_LETTERS = 39
MOST_OF_COEFFICIENT = 2_147_483_647

# The causes of the checker, in the words of its manual.
CAUSES = {
    1: "it is no certificate, by its grammar",
    2: f"its element is no normal form, or has more than {MOST_OF_LETTERS} letters",
    3: "its words are not the elements below its element, in ShortLex order",
    4: f"it has a coefficient beyond {MOST_OF_COEFFICIENT:,}, or a degree above {MOST_OF_LETTERS}",
    5: "its polynomials are not the row of its element",
}
PROVED = "its polynomials are the row of its element"


class Verdict(collections.namedtuple("Verdict", "ok cause meaning")):
    """What the checker says of a text. It is true where `ok` is.

    `ok` is whether the text is the certificate of a row. Where it is not, `cause` is the number of the first cause, else None. `meaning`
    says it in words.

    >>> check("cert 1").cause, bool(check("cert 1")), check("cert 1").meaning
    (1, False, 'it is no certificate, by its grammar')
    """

    __slots__ = ()

    def __bool__(self) -> bool:
        return self.ok


def check(text: Union[str, bytes, bytearray, memoryview], program: Optional[str] = None, timeout: Optional[float] = None) -> Verdict:
    """What the program `coxcheck` says of a certificate, which is given as a text or as bytes: a Verdict.

    The checker is proved, and shares no algorithm with the program that made the certificate. `program` is its path; else it is found as
    `find_program` says. A CheckFailed is raised where it ends without a verdict, as it does for want of memory and for more than 16 MiB, and a
    QuestionTimeout where it has none after so many seconds.

    >>> certificate = CoxeterGroup("A", 2).certificate("12")
    >>> check(certificate)
    Verdict(ok=True, cause=None, meaning='its polynomials are the row of its element')
    >>> check(certificate.replace("e:1", "e:1+q"))
    Verdict(ok=False, cause=5, meaning='its polynomials are not the row of its element')
    """
    if not isinstance(text, (str, bytes, bytearray, memoryview)):
        raise TypeError(f"a certificate is a text, or bytes, and not {text!r}")
    data = text.encode("utf-8", "surrogatepass") if isinstance(text, str) else bytes(text)
    timeout = seconds(timeout)
    path = find_program(program, "coxcheck")
    check_interpreter(path)
    try:
        process = parents.start([path], stdin=subprocess.PIPE, stdout=subprocess.PIPE)
    except OSError as error:
        raise ProgramNotFound(f"the program {path!r} can't be run: {error}") from error
    with process:
        try:
            said = process.communicate(data, timeout)[0].decode("latin-1")
        except BaseException as error:
            process.kill()
            if isinstance(error, subprocess.TimeoutExpired):
                raise QuestionTimeout("a certificate", error.timeout) from None
            raise
    return verdict(process.returncode, said)


def verdict(status, said):
    """What an exit status and a text of the checker mean."""
    if status not in (0, 1):
        raise CheckFailed(status)
    if (status, said) == (0, "yes\n"):
        return Verdict(True, None, PROVED)
    for cause, meaning in CAUSES.items():
        if (status, said) == (1, f"no {cause}\n"):
            return Verdict(False, cause, meaning)
    raise UnexpectedAnswer("a certificate", said, f"it should be `yes`, or `no` and a cause; the exit status is {status}")


def read_lines(spelling, matrix, lines):
    """The element, and the pairs of an element and a polynomial, of the lines of a certificate over the group with this Coxeter matrix.
    Lines of another shape are a ValueError."""
    if lines[:1] != [head_of(matrix)]:
        raise ValueError("its first line should be `cert` and the group")
    if len(lines) < 5 or not lines[1].startswith("element ") or lines[2] != f"rows {len(lines) - 4}" or lines[-1] != "end":
        raise ValueError("it should have the lines `element`, `rows` and so many rows, and `end`")
    element, pairs = spelling.element(lines[1][len("element ") :]), [spelling.pair(line) for line in lines[3:-1]]
    texts.check_rising([x for x, _ in pairs])
    if pairs[-1][0] != element:
        raise ValueError("its last row should be that of its element")
    return element, pairs


def text_of(group, w, row):
    """The text of the certificate of a row, as the program writes it.

    >>> W = CoxeterGroup("B", 3)
    >>> text_of(W, (2, 3), W.kazhdan_lusztig_basis("23")) == W.certificate("23")
    True
    """
    pairs = [f"{group.text(x)}:{p}" for x, p in row.items()]
    return "".join(f"{line}\n" for line in [head_of(group._matrix), f"element {group.text(w)}", f"rows {len(pairs)}", *pairs, "end"])


def head_of(matrix):
    """The first line of the certificates of a group."""
    labels = [0 if label == math.inf else label for s, row in enumerate(matrix) for label in row[s + 1 :]]
    return " ".join(map(str, ["cert", len(matrix), *labels]))


def row(group, w, lines):
    """The row of the element w, by the lines of its certificate. Those of another one are a ValueError."""
    element, pairs = read_lines(group._spelling, group._matrix, lines)
    if element != w:
        raise ValueError("it is the certificate of another element")
    return ElementDict(group, pairs, "polynomial")
