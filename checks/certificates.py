#!/usr/bin/env python3
"""What the text of a certificate proves, by the definitions alone (checks/definitions.py). It is slow, and shares nothing with the programs.

    checks/certificates.py < CERTIFICATE        writes `yes`, or `no` and the number of the first cause, as `coxcheck` does

A text is of the grammar where some certificate is written so: it is read loosely, written again, and compared. The elements below w have to be
those of the subwords of a word of w, and the polynomials the row of w, which is made by its definition.

A polynomial is the tuple of its terms, each a degree and a coefficient other than 0, by rising degree.
"""
import functools
import re
import sys
from typing import NamedTuple

from answers import polynomial_text, terms_of, word_text
from definitions import ENTRIES, Matrices, Part

# Of the grammar.
MOST_RANK, MOST_LETTERS, MOST_ENTRIES, MOST_OF_LINE, MOST_OF_INPUT = 16, 255, 4096, 4096, 16_777_216
# Of what is checked.
MOST_LENGTH, MOST_DEGREE, MOST_COEFFICIENT = 39, 39, 2**31 - 1
GRAMMAR, TOP, INTERVAL, SIZE, ROW = range(1, 6)

TERM = re.compile(r"([+-]?)([0-9]*)(q?)(?:\^([0-9]+))?")


# ---- texts


class Certificate(NamedTuple):
    """A group by its rank and its labels above the diagonal, a word, and the entries: words with a polynomial each."""

    rank: int
    labels: tuple
    top: tuple
    entries: tuple

    def lines(self):
        """The lines of its text."""
        yield matrix_line(self.rank, self.labels)
        yield f"element {word_text(self.rank, self.top)}"
        yield f"rows {len(self.entries)}"
        for word, polynomial in self.entries:
            yield f"{word_text(self.rank, word)}:{polynomial_text(polynomial)}"
        yield "end"

    def text(self):
        """Its text, with LF behind each line."""
        return "".join(f"{line}\n" for line in self.lines())


def matrix_line(rank, labels):
    """The first line of a certificate over this group."""
    return " ".join(map(str, ("cert", rank, *labels)))


def contents(text):
    """The lines of a text, each without the one CR that may stand right before its end."""
    lines = text[: -1 if text.endswith(b"\n") else None].split(b"\n") if text else []
    return [line[: -1 if line.endswith(b"\r") else None] for line in lines]


def read(text):
    """The certificate that a text gives, None where there is none."""
    lines = [line.decode("latin-1") for line in contents(text)]
    try:
        rank, *labels = map(number, lines[0].split(" ")[1:])
        top = read_word(rank, lines[1][len("element ") :])
        pairs = [line.partition(":")[::2] for line in lines[3:-1]]
        entries = tuple((read_word(rank, word), read_polynomial(polynomial)) for word, polynomial in pairs)
    except (IndexError, ValueError):
        return None
    found = Certificate(rank, tuple(labels), top, entries)
    right = 1 <= rank <= MOST_RANK and len(labels) == rank * (rank - 1) // 2 and all(it in ENTRIES for it in labels)
    right = right and 1 <= len(entries) <= MOST_ENTRIES and all(len(line) <= MOST_OF_LINE for line in lines)
    return found if right and list(found.lines()) == lines else None


def number(text):
    """A number, read loosely."""
    if not re.fullmatch("[0-9]+", text):
        raise ValueError(f"{text!r} is no number")
    return int(text)


def read_word(rank, text):
    """A word, read loosely. It has letters of the group alone, and not too many."""
    if text == "e":
        return ()
    word = tuple(map(number, text if rank < 10 else text.split(".")))
    if not all(1 <= letter <= rank for letter in word) or len(word) > MOST_LETTERS:
        raise ValueError(f"{text!r} is no word")
    return word


def read_polynomial(text):
    """The terms of a polynomial, read loosely."""
    terms, place = [], 0
    while place < len(text) and text != "0":
        found = TERM.match(text, place)
        sign, digits, power, exponent = found.groups()
        degree = int(exponent or 1) if power else 0
        if place == found.end() or (terms and degree <= terms[-1][0]):
            raise ValueError(f"{text!r} is no polynomial")
        terms.append((degree, int(f"{sign}{digits or 1}")))
        place = found.end()
    if any(c == 0 for _, c in terms):
        raise ValueError(f"{text!r} has a coefficient 0")
    return tuple(terms)


# ---- verdicts


@functools.lru_cache(4)
def below(rank, labels, word, most):
    """The elements below that of a word, None where these are more than so many."""
    group = Matrices(rank, labels)
    found = group.below(word, most)
    return None if found is None else Part(group, group.levels(found))


def cause(text):
    """The number of the first cause why a text proves nothing, 0 where it is a proof."""
    found = read(text)
    if found is None:
        return GRAMMAR
    if len(found.top) > MOST_LENGTH or Matrices(found.rank, found.labels).normal_form(found.top) != found.top:
        return TOP
    part = below(found.rank, found.labels, found.top, len(found.entries))
    if part is None or part.words != [word for word, _ in found.entries]:
        return INTERVAL
    if any(degree > MOST_DEGREE or abs(c) > MOST_COEFFICIENT for _, terms in found.entries for degree, c in terms):
        return SIZE
    row = part.row(part.size - 1)
    return 0 if all(terms == terms_of(row[x]) for x, (_, terms) in enumerate(found.entries)) else ROW


def answer(number):
    """What the checker ends with and writes, by the number of the cause."""
    return (1, b"no %d\n" % number) if number else (0, b"yes\n")


def main():
    """Judges standard input. It stands in for the checker in everything but speed."""
    if len(sys.argv) > 1:
        status, out = 2, b"usage: coxcheck\n"
    else:
        text = sys.stdin.buffer.read(MOST_OF_INPUT + 1)
        status, out = (6, b"") if len(text) > MOST_OF_INPUT else answer(cause(text))
    sys.stdout.buffer.write(out)
    sys.exit(status)


if __name__ == "__main__":
    main()
