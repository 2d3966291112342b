"""How the program writes words, sets of letters, elements and numbers, and texts for GAP.

A text of the program that has another shape is a ValueError.
"""
from __future__ import annotations

import itertools
import operator
import re
from numbers import Integral
from typing import Any

from .errors import Refusal
from .polynomial import Polynomial

# So many elements, and pairs of an element and a polynomial, are known by their texts for each group: each text is read once, and equal
# elements are one object. What comes beyond is read each time.
MOST_KNOWN = 1 << 17

NUMBER = re.compile("0|[1-9][0-9]*")
WHOLE = re.compile("0|-?[1-9][0-9]*")


class Spelling:
    """The texts of a group of a given rank: from rank 10 on letters are separated by dots."""

    def __init__(self, rank):
        self.dot = "." if rank > 9 else ""
        self.values = {str(letter): letter for letter in range(1, rank + 1)}
        self.texts = {letter: text for text, letter in self.values.items()}
        # Where each letter is one character: for each byte the letter that it is, or 0.
        self.bytes = bytes(self.values.get(chr(it), 0) for it in range(256))
        self.elements = Known(self._element)
        self.pairs = Known(self._pair)
        # What reads the text of an element, and that of an element and a polynomial.
        self.element = self.elements.__getitem__
        self.pair = self.pairs.__getitem__

    def write(self, word):
        """The text of a word, which is given as a text or as letters."""
        if isinstance(word, str):
            word = word.strip(" ")
            if " " in word:
                raise ValueError(f"a word has no spaces: {word!r}")
            return word or "e"
        if type(word) is tuple:
            # So are elements. A letter that is no int has another text, which is looked up below.
            found = [self.texts.get(letter) for letter in word if type(letter) is int]
            if None not in found and len(found) == len(word):
                return self.dot.join(found) or "e"
        if isinstance(word, (set, frozenset, dict, bytes, bytearray)):
            raise TypeError(f"{word!r} is no word: its letters have no order")
        return self.dot.join([self.texts[letter] for letter in self.whole_letters(word)]) or "e"

    def whole_letters(self, word):
        """The letters of a list or tuple of whole numbers. One that is no letter is a Refusal, and what is no such list a TypeError."""
        try:
            if isinstance(word, Polynomial):
                raise TypeError
            given = list(word)
            if any(isinstance(letter, bool) for letter in given):
                raise TypeError
            letters = list(map(operator.index, given))
        except TypeError:
            raise TypeError(f"a word is a text, or a list or tuple of whole numbers, and not {word!r}") from None
        if not all(letter in self.texts for letter in letters):
            raise Refusal(16, str(letters))
        return letters

    def letters(self, text):
        """The letters of a text."""
        if not self.dot:
            found = text.encode("ascii", "replace").translate(self.bytes)
            if 0 in found:
                raise ValueError(f"{text[found.index(0)]!r} is no letter of the group")
            return tuple(found)
        try:
            return tuple(map(self.values.__getitem__, text.split(self.dot)))
        except KeyError as piece:
            raise ValueError(f"{piece} is no letter of the group") from None

    def _pair(self, text):
        element, _, polynomial = text.partition(":")
        return self.elements[element], Polynomial.read(polynomial)

    def _element(self, text):
        if not text:
            raise ValueError("an element is missing")
        return () if text == "e" else self.letters(text)

    def letter_set(self, text):
        """The set of letters of a text, as a rising tuple."""
        found = () if text == "-" else self.letters(text)
        if text == "" or list(found) != sorted(set(found)):
            raise ValueError(f"{text!r} is no set of letters")
        return found


class Known(dict):
    """A dictionary from texts to what they are read as. A text that it doesn't have is read."""

    __slots__ = ("read",)

    def __init__(self, read):
        super().__init__()
        self.read = read

    def __missing__(self, text):
        found = self.read(text)
        if len(self) < MOST_KNOWN:
            self[text] = found
        return found


def number(text):
    """A natural number."""
    if not NUMBER.fullmatch(text):
        raise ValueError(f"{text!r} is no number")
    return int(text)


def whole_number(text):
    """A whole number, which may be negative."""
    if not WHOLE.fullmatch(text):
        raise ValueError(f"{text!r} is no whole number")
    return int(text)


def numbers(text):
    """Natural numbers separated by one space."""
    return tuple(map(number, text.split(" ")))


def items(lines):
    """The texts of the items of a list, of all its lines: the first is their number."""
    total = number(lines[0]) if lines else 0
    if total != len(lines) - 1:
        raise ValueError(f"the list should have {total} items")
    return lines[1:]


def truth(text):
    """`true` or `false`."""
    if text not in ("true", "false"):
        raise ValueError(f"{text!r} is neither true nor false")
    return text == "true"


def counted(number, what):
    """So many things, in words.

    >>> counted(1, "item"), counted(1200, "item")
    ('1 item', '1,200 items')
    """
    return f"{number:,} {what}{'s' * (number != 1)}"


def shortlex(x):
    """What elements are sorted by in ShortLex order."""
    return len(x), x


def before(x, y):
    """Whether x is before y in ShortLex order."""
    return shortlex(x) < shortlex(y)


def check_rising(elements):
    """Elements are in ShortLex order."""
    keys = list(zip(map(len, elements), elements))
    if not all(map(operator.lt, keys, itertools.islice(keys, 1, None))):
        raise ValueError("the elements should be in ShortLex order")


def edge(text):
    """An edge of an item of a W-graph: the text of the element, and the edge's value."""
    element, _, value = text.rpartition(":")
    if value == "0":
        raise ValueError("an edge has no value")
    return element, 1 if value == "1" else whole_number(value)


def gap(value: Any) -> str:
    """Numbers, truth values, texts, polynomials, graphs, modules, and lists, tuples, sets and dictionaries of them, as a text for GAP.

    A polynomial becomes the list of its coefficients, a dictionary the list of its pairs, a W-graph the list of its edges,
    and a set a set of GAP, which is a list that rises. The module of a cell becomes a record with its elements and the matrices of its
    letters, whose entries are polynomials in v, and the order of cells a record with the cells and the pairs of the numbers of a cell and
    one that it covers. What GAP has no such text for is a TypeError.

    >>> gap([(2, 1), True, "a"]), gap({(): Polynomial([1, 2])})
    ('[ [ 2, 1 ], true, "a" ]', '[ [ [ ], [ 1, 2 ] ] ]')
    """
    if isinstance(value, bool):
        return "true" if value else "false"
    if isinstance(value, Integral):
        return str(int(value))
    if isinstance(value, str):
        return '"' + "".join(map(gap_character, value)) + '"'
    if hasattr(value, "_gap_init_"):
        # So do graphs of this package, and elements of Sage, say what they are for GAP.
        return value._gap_init_()
    if isinstance(value, Polynomial):
        value = value.coefficients
    elif isinstance(value, dict):
        value = value.items()
    elif isinstance(value, (set, frozenset)):
        value = sorted(value)
    elif not isinstance(value, (list, tuple)):
        raise TypeError(f"there is no text for GAP of a {type(value).__name__}")
    return f"[ {', '.join(map(gap, value))} ]" if len(value) else "[ ]"


def gap_character(it):
    """A character in a text of GAP."""
    if it in '"\\':
        return "\\" + it
    return it if it.isprintable() else "".join(f"\\{byte:03o}" for byte in it.encode())
