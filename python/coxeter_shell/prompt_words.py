"""The lines that are typed at the prompt: their parts, words with `*`, `!` and `^` in them, and where in a line a refusal has its cause."""
import collections
import re

from .errors import CoxeterError, Refusal
from .kinds import LABELS, MOST_RANK
from .program import MOST_OF_LINE, MOST_OF_WORD
from .progress import short

# What stands in a word that the program doesn't read itself.
SIGNS = re.compile(r"[*!^()]")

# The greatest exponent has as many digits as a number of the program.
MOST_DIGITS = 9

# The greatest arguments of `work`.
MOST_START, MOST_COUNT = 65536, 1000000

# What the shell works out by itself is said with these words.
BY_PACKAGE = "by the package, not proved"

# A word that was worked out is shown where it has at most so many letters.
MOST_SHOWN = 36

Token = collections.namedtuple("Token", "start text")


class WordError(CoxeterError):
    """A word that can't be read. `place` is where in it, and `length` for how many characters."""

    def __init__(self, why, place, length=1):
        super().__init__(why, place, length)
        self.why, self.place, self.length = why, place, length

    def __str__(self):
        return self.why


def clean(line):
    """A typed line without its comment, and without what the arrow keys of a terminal send where nothing else reads them."""
    line = re.sub(r"\x1b(?:\[[0-9;?]*[@-~]|O[@-~])", "", line)
    return re.sub(r"(?:^|(?<=\s))#.*", "", line.replace("\t", " "), flags=re.S).rstrip()


def tokens(line):
    """The parts of a line, each with the place where it begins."""
    return [Token(it.start(), it.group()) for it in re.finditer("[^ ]+", line)]


def has_signs(word):
    """Whether a word has to be worked out before the program is asked."""
    return SIGNS.search(word) is not None


def remark(typed, word, length):
    """What is said of a word that was worked out: that of an element of this length.

    >>> remark("12^-1", "21", 2), remark("*", "1" * 120, 120)
    ('-- 12^-1 by the package, not proved: 21', '-- * by the package, not proved: an element of length 120')
    """
    return f"-- {short(typed)} {BY_PACKAGE}: {word if length <= MOST_SHOWN else f'an element of length {length}'}"


def value(group, word):
    """The element of a word in which `*` is the longest element, and `!` and `^` and a number stand behind a run of letters, a `*` or
    a parenthesis, which they invert or raise to a power, as in Coxeter 3. Several may follow each other.

    >>> W = CoxeterGroup("A", 3)
    >>> value(W, "12!"), value(W, "(12)^2"), value(W, "1(23)!^2*")
    ((2, 1), (2, 1), (2, 3, 2))
    """
    # For each open parenthesis: where it is, and what stands before it. Behind them what is being read.
    open_ones, element, place = [], (), 0
    while place < len(word):
        if word[place] == "(":
            open_ones.append((place, element))
            element, place = (), place + 1
            continue
        begin = place
        if word[place] == ")":
            if not open_ones:
                raise WordError("no ( belongs to this )", place)
            begin, before = open_ones.pop()
            factor, element, place = element, before, place + 1
        elif word[place] == "*":
            factor, place = long_element(group, place), place + 1
        elif word[place] in "!^":
            raise WordError(f"a {word[place]} stands behind letters, a * or a parenthesis", place)
        else:
            factor, place = run(group, word, place)
        factor, place = changed(group, word, factor, place)
        element = located(word, begin, place, group.product, element, factor)
    if open_ones:
        raise WordError("no ) belongs to this (", open_ones[-1][0])
    return element


def run(group, word, place):
    """The run of letters at a place, as an element, and where it ends. Dots part letters of two digits, and may stand at both ends."""
    end = re.compile("[^*!^()]*").match(word, place).end()
    text = word[place:end]
    if text.strip(".") == "e":
        return (), end
    pieces = [(it.start(), it.group()) for it in re.finditer("[^.]+" if group.rank > 9 else "[^.]", text)]
    for at, piece in pieces:
        if not re.fullmatch("[1-9][0-9]?", piece) or int(piece) > group.rank:
            raise WordError(Refusal(16, text).meaning, place + at, len(piece))
    if not pieces or ".." in text:
        raise WordError("a letter is missing here", place)
    letters = tuple(int(piece) for _, piece in pieces)
    return located(word, place, end, group.product, letters[:MOST_OF_WORD], letters[MOST_OF_WORD:]), end


def changed(group, word, element, place):
    """What the signs behind a factor make of it, and where they end."""
    while word[place : place + 1] in ("!", "^"):
        if word[place] == "!":
            element, place = group.inverse(element), place + 1
            continue
        number = re.compile("-?([0-9]+)").match(word, place + 1)
        if number is None:
            raise WordError("a number stands behind ^", place)
        if len(number.group(1)) > MOST_DIGITS:
            raise WordError(f"an exponent has at most {MOST_DIGITS} digits", number.start(), len(number.group()))
        element, place = located(word, place, number.end(), group.power, element, int(number.group())), number.end()
    return element, place


def located(word, begin, end, method, *arguments):
    """What a method answers. Where it refuses, the error has this part of the word as its place."""
    try:
        return method(*arguments)
    except Refusal as refusal:
        raise WordError(refusal.meaning, begin, end - begin) from None


def long_element(group, place):
    """The longest element, which is asked for at a place of a word."""
    try:
        return group.long_element()
    except (ValueError, Refusal) as error:
        raise WordError(getattr(error, "meaning", str(error)), place) from None


# ---- where a refusal has its cause


def cause(number, typed, name, group, words):
    """Where in the typed line a refusal of the program has its cause: the place and the length, None where that can't be told.

    `typed` is the line, `name` its command, `group` the group or None, and `words` how many words the command takes, None for other
    arguments.
    """
    if number == 18:
        begin = len(typed.encode("utf-8", "surrogatepass")[:MOST_OF_LINE].decode("utf-8", "ignore"))
        return begin, len(typed) - begin
    if number == 19:
        return next((it.start(), 1) for it in re.finditer("[^ -~]", typed))
    parts = tokens(typed)
    head, arguments = parts[0], parts[1:]
    if number in (10, 15):
        return head.start, len(head.text)
    if number == 11:
        if words is not None and len(arguments) > words:
            return span(arguments[words:])
        return len(typed) + 1, 1
    if number in (12, 13, 14, 21):
        return span([it for it in arguments if wrong(number, name, arguments, it)] or arguments or [head])
    if number in (16, 17):
        found = (part_of(number, it, group.rank) for it in arguments)
        return next((it for it in found if it is not None), None)
    return span(arguments[-1:] or [head])


def span(parts):
    return parts[0].start, parts[-1].start + len(parts[-1].text) - parts[0].start


def wrong(number, name, arguments, part):
    """Whether an argument of a command that takes numbers has the cause of this refusal."""
    first = part is arguments[0]
    if number == 12 and not re.fullmatch("[0-9]{1,9}", part.text):
        return name != "type" or not first
    if number == 12 and name == "matrix":
        return first and not 1 <= int(part.text) <= MOST_RANK
    if number == 12 and name == "work":
        return not (int(part.text) <= MOST_START if first else 1 <= int(part.text) <= MOST_COUNT)
    return number == 14 and not first and int(part.text) not in (0, *LABELS)


def part_of(number, part, rank):
    """Where in a word there is a letter that the group doesn't have, or where the word is too long. None where it isn't refused so."""
    text = part.text
    if has_signs(text):
        return part.start, len(text)
    if number == 17:
        if rank > 9:
            begin = next((it.end() for at, it in enumerate(re.finditer(r"\.", text)) if at == MOST_OF_WORD - 1), len(text))
        else:
            begin = MOST_OF_WORD
        return (part.start + begin, len(text) - begin) if len(text) > begin else None
    if text == "e":
        return None
    pieces = re.finditer(r"(?:^|(?<=\.))[^.]*", text) if rank > 9 else re.finditer(".", text)
    letters = set(map(str, range(1, rank + 1)))
    return next(((part.start + it.start(), max(len(it.group()), 1)) for it in pieces if it.group() not in letters), None)


def pointed(typed, place, length, width):
    """The line with marks under a part of it, or as much of both as fits into a width."""
    shown = re.sub("[^ -~]", "?", typed)
    length = max(1, min(length, width - 20))
    begin = 0 if place + length <= width else max(min(place - width // 2, len(shown) - width), 0)
    cut = shown[begin : begin + width]
    if begin:
        cut = f"..{cut[2:]}"
    if begin + width < len(shown):
        cut = f"{cut[:-2]}.."
    return [cut, " " * (place - begin) + "^" * min(length, max(width - (place - begin), 1))]
