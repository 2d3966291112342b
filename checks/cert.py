#!/usr/bin/env python3
"""Certificates: that those which the program writes are right, and that the checker accepts these and refuses others.

    checks/cert.py [--answers FOLDER] [PROGRAM CHECKER]

- The certificates of all rows of A 4, B 3 and D 4, and of 300 rows of other groups: F 4, G 2, affine and hyperbolic ones, some with labels
  infinity, some of rank 10 to 16. Each has to be what `klbasis` says, has to prove its row by the definitions (checks/certificates.py), and
  has to be accepted by the checker.
- Of each of them 24 spoiled ones, as with another coefficient, a line left out or twice, another label or element, a sign or a zero too
  many, and single bytes changed. The checker has to answer them as the definitions do, with the same cause.
- Rows of up to 4,096 elements, whose spoiled certificates have to be refused since each element has one row alone.
- Where `cert` refuses.
- With `--answers`, the rows of another program. In the folder are scripts NAME.in, which begin with a line `type` and go on with lines
  `pol x w` for all x and w, and files NAME.out with an answer to each line. Made into certificates they have to be accepted.

It prints what differs and how often each cause came, and a last line with counts; the exit status is 1 where something differs. It needs
Python 3 alone, uses all processors, takes a minute or two, and is no part of the gate.
"""
import argparse
import collections
import functools
import itertools
import multiprocessing
import os
import random
import re
import subprocess

from answers import rank_and_labels, word_text
from certificates import GRAMMAR, INTERVAL, ROW, SIZE, TOP, answer, cause, matrix_line, read
from common import Count, program
from definitions import ENTRIES, Matrices

# How many spoiled certificates there are of each, and how many of these have one byte changed.
SPOILED, BYTES = 24, 6
# Rows of groups that are drawn at random have at most so many elements.
MOST = 300

FINITE = ["type A 4", "type B 3", "type D 4"]

# The line that sets the group, how many rows are drawn, and the most letters of the words. With those of G 2 they are 300.
DRAWN = [
    ("type F 4", 30, 12),
    ("type A 5", 15, 10),
    ("type B 4", 15, 10),
    ("type D 5", 15, 10),
    ("matrix 6 2 3 2 2 2 2 3 2 2 3 2 2 3 2 3", 10, 10),  # E 6
    ("matrix 8 2 3 2 2 2 2 2 2 3 2 2 2 2 3 2 2 2 2 3 2 2 2 3 2 2 3 2 3", 10, 10),  # E 8
    ("matrix 2 0", 20, 39),  # affine A 1
    ("matrix 3 3 3 3", 30, 16),  # affine A 2
    ("matrix 3 4 2 4", 15, 14),  # affine C 2
    ("matrix 3 3 2 6", 15, 14),  # affine G 2
    ("matrix 4 3 2 3 3 2 3", 15, 11),  # affine A 3
    ("matrix 3 4 4 4", 10, 12),
    ("matrix 3 0 0 0", 10, 12),
    ("matrix 3 0 3 2", 10, 12),
    ("matrix 4 0 2 6 3 4 2", 10, 10),
    ("matrix 5 3 2 2 0 3 2 2 3 2 4", 10, 9),
    ("type A 9", 10, 9),
    ("type A 10", 10, 9),
    ("type D 11", 8, 9),
    ("matrix 12 " + " ".join(str(3 if t - s in (1, 11) else 2) for s, t in itertools.combinations(range(12), 2)), 8, 9),
    ("type B 13", 6, 8),
    ("matrix 16 " + " ".join(["0"] * 120), 8, 8),
    ("type A 16", 8, 8),
]

# The line that sets the group, and a word with many elements below it.
LARGE = [
    ("type A 5", "123412321543212"),
    ("matrix 3 3 3 3", "123" * 13),
    ("matrix 12 " + " ".join(["2"] * 66), ".".join(map(str, range(1, 13)))),
    # Three infinite dihedral groups: 39 letters, and 4 times 18 times 56 elements.
    ("matrix 6 0 2 2 2 2 2 2 2 2 0 2 2 2 2 0", "12" + "34" * 4 + "3" + "56" * 14),
]

ALTERNATING = "12" * 20
# Of the products with the lengths 19, 3 and 9 in two infinite dihedral groups and A 2, 38 times 6 times 18 elements are below.
PRODUCT = "matrix 6 0 2 2 2 2 2 2 2 2 3 2 2 2 2 0", "12" * 9 + "1" + "343" + "56" * 4 + "5"
# The arguments, the line that sets the group, the words behind `cert`, and the first line of the answer.
ANSWERS = [
    ([], "", "1", "error 15"),
    ([], "type A 2", "", "error 11"),
    ([], "type A 2", "1 2", "error 11"),
    ([], "type A 2", "13", "error 16"),
    ([], "type A 2", "1" * 256, "error 17"),
    (["--context", "3"], "type A 2", "12", "error 31"),
    (["--context", "4"], "type A 2", "12", "cert 2 3"),
    (["--context", "4"], "type A 2", "1212122", "cert 2 3"),
    ([], "matrix 2 0", ALTERNATING[1:], "cert 2 0"),
    ([], "matrix 2 0", ALTERNATING[1:] + "22", "cert 2 0"),
    ([], "matrix 2 0", ALTERNATING, "error 34"),
    (["--context", "80"], "matrix 2 0", ALTERNATING, "error 34"),
    (["--context", "79"], "matrix 2 0", ALTERNATING, "error 31"),
    (["--coef", "1"], "matrix 3 3 3 3", "123" * 14, "error 34"),
    (["--coef", "1"], "type A 4", "1234321", "error 32"),
    (["--coef", "2"], "type A 4", "1234321", "cert 4 3 2 2 3 2 3"),
    (["--coef", "1", "--context", "10"], "type A 4", "1234321", "error 31"),
    ([], "matrix 13 " + " ".join(["2"] * 78), ".".join(map(str, range(1, 14))), "error 31"),
    ([], *PRODUCT, "error 31"),
]


def ask(built, line, command, words, arguments=()):
    """The lines that answer a command for each of these words."""
    script = f"{line}\n" + "".join(f"{command} {word}\n" for word in words)
    ran = subprocess.run([built, *arguments], input=script.encode(), capture_output=True, timeout=600)
    return ran.stdout.decode().splitlines()


def group_of(line):
    """The group that a line sets."""
    return Matrices(*rank_and_labels(line))


# ---- certificates


def written(built, line, words):
    """The certificates that the program writes, None for a word for which it refuses."""
    lines = iter(ask(built, line, "cert", words))
    for first in lines:
        if first.startswith("error"):
            yield None
        else:
            # The last line is `end`.
            yield "".join(f"{it}\n" for it in [first, *itertools.takewhile("end".__ne__, lines), "end"])


def listed(built, line, words):
    """The certificates made of what `klbasis` says."""
    group = group_of(line)
    lines = iter(ask(built, line, "klbasis", words))
    for count in lines:
        rows = list(itertools.islice(lines, int(count)))
        # The last element is the one that was asked for, by its normal form.
        head = [matrix_line(group.rank, group.labels), f"element {rows[-1].partition(':')[0]}", f"rows {count}"]
        yield "".join(f"{it}\n" for it in [*head, *rows, "end"])


def drawn(built):
    """The lines that set groups, each with a list of words: all elements, or words at random, with not too many elements below them."""
    draw = random.Random(18)
    for line in [*FINITE, "type G 2"]:
        group = group_of(line)
        yield line, [word_text(group.rank, word) for level in group.levels() for word in level.values()]
    for line, count, most in DRAWN:
        rank, words = group_of(line).rank, []
        while len(words) < 8 * count:
            letters = []
            for _ in range(draw.randint(most // 2, most)):
                letters.append(draw.choice([s for s in range(1, rank + 1) if [s] != letters[-1:]]))
            words.append(word_text(rank, letters))
        sizes = [sum(map(int, betti.split())) for betti in ask(built, line, "betti", words)]
        yield line, [word for word, size in zip(words, sizes, strict=True) if 2 < size <= MOST][:count]


def lines_of(path):
    """The lines of a file."""
    with open(path, encoding="ascii") as file:
        return file.read().splitlines()


def told(folder):
    """The rows of another program, as certificates."""
    for name in sorted(os.listdir(folder)):
        if not name.endswith(".in"):
            continue
        line, *asked = lines_of(os.path.join(folder, name))
        answers = lines_of(os.path.join(folder, name[:-3] + ".out"))
        if not all(it.startswith("pol ") for it in asked) or len(answers) != len(asked):
            continue
        group, rows = group_of(line), collections.defaultdict(list)
        for it, polynomial in zip(asked, answers):
            _, x, w = it.split()
            if polynomial != "0":
                rows[w].append((x, polynomial))
        for w, pairs in rows.items():
            pairs.sort(key=lambda pair: (0, "") if pair[0] == "e" else (len(pair[0]), pair[0]))
            lines = [matrix_line(group.rank, group.labels), f"element {w}", f"rows {len(pairs)}", *map(":".join, pairs), "end"]
            yield f"{name}, {w}", "".join(f"{it}\n" for it in lines)


# ---- spoiled ones


class Spoiler:
    """A certificate's lines, and ways to spoil them. Each gives lines, or a text."""

    def __init__(self, text, draw):
        self.draw, self.certificate = draw, read(text.encode())
        self.head, self.top, self.count, *self.entries, self.end = text.splitlines()
        self.rank = self.certificate.rank

    def lines(self, head=None, top=None, count=None, entries=None, end=None):
        """The lines, with some in the place of others."""
        entries = self.entries if entries is None else entries
        return [head or self.head, top or self.top, count or self.count, *entries, *([self.end] if end is None else end)]

    def listing(self, entries, off=0):
        """The lines with these entries, counted; the count may be off by some."""
        return self.lines(count=f"rows {len(entries) + off}", entries=entries)

    def place(self):
        return self.draw.randrange(len(self.entries))

    # ---- lines

    def entry_left_out(self):
        at = self.place()
        return self.listing(self.entries[:at] + self.entries[at + 1 :], self.draw.choice([0, 0, 1]))

    def entry_twice(self):
        at = self.place()
        return self.listing(self.entries[: at + 1] + self.entries[at:], self.draw.choice([0, 0, -1]))

    def two_entries_exchanged(self):
        at, entries = self.draw.randrange(max(1, len(self.entries) - 1)), list(self.entries)
        entries[at : at + 2] = entries[at : at + 2][::-1]
        return self.listing(entries)

    def count_off(self):
        return self.listing(self.entries, self.draw.choice([-1, 1, -len(self.entries), 4096]))

    def behind_the_end(self):
        return self.lines(end=["end", self.draw.choice(["end", "x", " ", "", "e:1"])])

    def no_end(self):
        return self.lines(end=self.draw.choice([[], ["end "], ["END"], [" end"], ["en"], [""]]))

    def line_moved(self):
        lines = self.lines()
        lines.insert(self.draw.randrange(len(lines)), lines.pop(self.draw.randrange(len(lines))))
        return lines

    def blank_line(self):
        lines = self.lines()
        lines.insert(self.draw.randrange(len(lines) + 1), self.draw.choice(["", " ", "\r"]))
        return lines

    def carriage_returns(self):
        end = self.draw.choice(["\r\n", "\r\r\n", "\r"])
        return "".join(line + end for line in self.lines())

    def one_carriage_return(self):
        lines = self.lines()
        lines[self.draw.randrange(len(lines))] += self.draw.choice(["\r", "\r\r", "\r "])
        return lines

    def last_line_feed(self):
        return "\n".join(self.lines()) + self.draw.choice(["", "\r"])

    # ---- the group and the element

    def other_label(self):
        labels = list(self.certificate.labels)
        if labels:
            labels[self.draw.randrange(len(labels))] = self.draw.choice(list(ENTRIES))
        return self.lines(head=matrix_line(self.rank, labels))

    def wrong_label(self):
        words = self.head.split(" ")
        at = self.draw.randrange(1, len(words))
        words[at] = self.draw.choice(["5", "1", "0" + words[at], "+" + words[at], "", "7", "x", words[at] + "0"])
        return self.lines(head=" ".join(words))

    def labels_off(self):
        others = [self.head + " 3", self.head.rpartition(" ")[0], self.head + " ", "cert  " + self.head[5:]]
        return self.lines(head=self.draw.choice(others))

    def another_letter(self):
        """A group with one more letter, which commutes with all others. Below rank 9 words are written as before."""
        labels, at = list(self.certificate.labels), 0
        for s in range(1, self.rank + 1):
            at += self.rank - s
            labels.insert(at, 2)
            at += 1
        return self.lines(head=matrix_line(self.rank + 1, labels))

    def other_element(self):
        word = list(self.certificate.top)
        others = [
            word[:-1],
            word[::-1],
            word + word[-1:] * 2,
            word + [self.draw.randint(1, self.rank)],
            [self.draw.randint(1, self.rank) for _ in word],
            self.draw.choice(self.certificate.entries)[0],
            word * 40,
        ]
        return self.lines(top=f"element {word_text(self.rank, self.draw.choice(others))}")

    def misspelled_element(self):
        word = self.top[8:]
        others = ["", word + ".", "0" + word, word + " ", "1.1", "01", "e" + word, f"{self.rank + 1}", word + ".0", "1..1", "E"]
        return self.lines(top="element " + self.draw.choice(others))

    # ---- entries

    def changed(self, change, at=None):
        """The lines with another word and polynomial in an entry."""
        entries = list(self.entries)
        at = self.place() if at is None else at
        entries[at] = change(*entries[at].split(":"))
        return self.listing(entries)

    def coefficient(self):
        """Another coefficient: one more or less, another sign, or a large one."""

        def change(word, polynomial):
            terms = re.findall(r"[+-]?[0-9]*q?(?:\^[0-9]+)?", polynomial)[:-1]
            at = self.draw.randrange(len(terms))
            sign, digits, power = re.fullmatch(r"([+-]?)([0-9]*)(.*)", terms[at]).groups()
            size = int(digits or 1)
            c = self.draw.choice([size + 1, size - 1, 2**31 - 1, 2**31, 2**63, 10**30])
            terms[at] = (sign or "+") + (str(c) if c != 1 or not power else "") + power
            if c == 0:
                terms.pop(at)
            if self.draw.random() < 0.2:
                terms = [("-" if term[0] == "+" else "+") + term.lstrip("+-") for term in terms if term.lstrip("+-")]
            return f"{word}:{''.join(terms).lstrip('+') or '0'}"

        return self.changed(change)

    def degree(self):
        more = self.draw.choice(["+q^19", "+q^20", "+q^39", "+q^40", "-q^255", "+2q^4294967296", "+q^2", "+q"])
        return self.changed(lambda word, polynomial: f"{word}:{polynomial}{more}")

    def top_degree(self):
        """A term just beyond the degree bound, or at it."""
        at = self.place()
        distance = len(self.certificate.top) - len(self.certificate.entries[at][0])
        degree = max(2, (distance - 1) // 2 + self.draw.choice([0, 1]))
        return self.changed(lambda word, polynomial: f"{word}:{polynomial}+q^{degree}", at)

    def polynomials_exchanged(self):
        entries, i, j = list(self.entries), self.place(), self.place()
        (x, p), (y, r) = entries[i].split(":"), entries[j].split(":")
        entries[i], entries[j] = f"{x}:{r}", f"{y}:{p}"
        return self.listing(entries)

    def other_polynomial(self):
        new = self.draw.choice(["0", "q", "1+q", "-1", "2", "1-q", "1+q^2"])
        return self.changed(lambda word, polynomial: f"{word}:{new}")

    def misspelled_polynomial(self):
        def change(word, p):
            behind = "+ +0 +0q +q^1 +q^0 - +1q^9 +q^02 q Q +01q^8 +-q^9 *q +q^9+q^8 +q^9+q^9 ^2".split()
            wrong = ["", "-0", f"{p} ", *(it + p for it in ("+", "0", " ", "-", "1")), *(p + it for it in behind)]
            return f"{word}:{self.draw.choice(wrong)}"

        return self.changed(change)

    def misspelled_word(self):
        def change(word, p):
            wrong = [":", f"0{word}:", f"{word}.:", f"{word} :", f"{word}::", word, f"{word};", f"e{word}:"]
            return self.draw.choice(wrong) + p

        return self.changed(change)

    def other_word(self):
        """Another word in the place of one, as far as it goes."""
        at = self.place()
        word = list(self.certificate.entries[at][0])
        some = [self.draw.randint(1, self.rank) for _ in word]
        other = self.draw.choice([word[::-1], word + word, some, word * 20, word[1:], [self.rank + 1], word + [0]])
        return self.changed(lambda _, polynomial: f"{word_text(self.rank, other)}:{polynomial}", at)

    def two_causes(self):
        """A large coefficient, and two entries exchanged, an entry left out, or no normal form."""
        lines = self.coefficient()
        at = self.draw.randrange(3, len(lines) - 1)
        if self.draw.random() < 0.5:
            lines[at - 1], lines[at] = lines[at], lines[at - 1]
        else:
            lines[1] += f".{self.rank}" if self.rank > 9 else str(self.rank)
        return lines

    def byte(self):
        """A byte that is changed, left out or put in."""
        text = bytearray("".join(f"{line}\n" for line in self.lines()).encode())
        at, how = self.draw.randrange(len(text)), self.draw.randrange(3)
        new = self.draw.choice([*b"0123456789+-q^:.e \r\n\t\0\x7f\x80\xff", self.draw.randrange(256)])
        text[at : at + (how != 0)] = b"" if how == 1 else bytes([new])
        return bytes(text)


# The ways but that by bytes, and what is none.
NONE = ("__init__", "lines", "listing", "place", "changed", "byte")
WAYS = [name for name, it in vars(Spoiler).items() if callable(it) and name not in NONE]


def spoiled(text, draw):
    """Certificates that were spoiled, each with the way."""
    spoiler = Spoiler(text, draw)
    for way in [*draw.sample(WAYS, SPOILED - BYTES), *["byte"] * BYTES]:
        found = getattr(spoiler, way)()
        if isinstance(found, list):
            found = "".join(f"{line}\n" for line in found)
        yield way, found if isinstance(found, bytes) else found.encode("latin-1")


# ---- what is compared


def checked(checker, text):
    """What the checker ends with and writes."""
    try:
        ran = subprocess.run([checker], input=text, capture_output=True, timeout=60)
    except subprocess.TimeoutExpired:
        return "none in 60 seconds", b""
    return (ran.returncode, ran.stdout) if not ran.stderr else (ran.returncode, ran.stdout, ran.stderr)


def judge(checker, task):
    """What there is to compare of one certificate: what it is, what came, and what has to come."""
    name, line, word, text, other, known = task
    group = group_of(line)
    found = read(text.encode()) if text is not None else None
    yield f"cert, {name}", text, other
    if found is None:
        return
    top = group.normal_form(tuple(map(int, word.split("."))) if group.rank > 9 and word != "e" else tuple(map(int, word.replace("e", ""))))
    yield f"group and element, {name}", (found.rank, found.labels, found.top), (group.rank, group.labels, top)
    yield f"the checker, {name}", checked(checker, text.encode()), answer(0)
    if known:
        yield f"the definitions, {name}", answer(cause(text.encode())), answer(0)
        for way, changed in spoiled(text, random.Random(name)):
            yield f"{way}, {name}: {changed!r:.300}", checked(checker, changed), answer(cause(changed))
    else:
        yield from large_ones(checker, name, text)


def large_ones(checker, name, text):
    """Spoiled certificates of a row that the definitions take too long for. An element has one row alone."""
    spoiler, draw = Spoiler(text, random.Random(name)), random.Random(name)
    lines = text.splitlines()
    for at in (3, len(lines) // 2, len(lines) - 2):
        word = lines[at].split(":")[0]
        for new, number in ((f"{word}:2", ROW), (f"{word}:1-q", ROW), (f"{word}:2147483648", SIZE), (f"{word}:01", GRAMMAR)):
            changed = [*lines[:at], new, *lines[at + 1 :]]
            yield f"{new} in {name}", checked(checker, "\n".join(changed).encode()), answer(number)
    for way, number in (("two_entries_exchanged", INTERVAL), ("entry_twice", None), ("entry_left_out", None), ("no_end", GRAMMAR)):
        changed = getattr(spoiler, way)()
        right = changed[2] == f"rows {len(changed) - 4}" and len(changed) - 4 <= 4096
        yield f"{way} in {name}", checked(checker, "\n".join(changed).encode()), answer(number or (INTERVAL if right else GRAMMAR))
    top = spoiler.top + (f".{spoiler.certificate.top[-1]}" if spoiler.rank > 9 else str(spoiler.certificate.top[-1])) * draw.choice([1, 2])
    yield f"{top} in {name}", checked(checker, "\n".join([lines[0], top, *lines[2:]]).encode()), answer(TOP)


def tasks(built):
    """The certificates, with what is known of each."""
    for line, words in drawn(built):
        for word, text, other in itertools.zip_longest(words, written(built, line, words), listed(built, line, words)):
            yield f"{word} in {line:.40}", line, word, text, other, True
    for line, word in LARGE:
        [text], [other] = written(built, line, [word]), listed(built, line, [word])
        yield f"{word} in {line:.40}", line, word, text, other, False


def compare(checker, task):
    """What is compared of a certificate, as a list, since it comes from another process."""
    return list(judge(checker, task))


def accepted(checker, item):
    """What is compared of a row of another program."""
    return [(f"the checker, {item[0]}", checked(checker, item[1].encode()), answer(0))]


def main():
    parser = argparse.ArgumentParser(description=__doc__, formatter_class=argparse.RawDescriptionHelpFormatter)
    parser.add_argument("--answers")
    parser.add_argument("programs", nargs="*")
    given = parser.parse_args()
    built, checker, count = program(given.programs[:1]), program(given.programs[1:], "coxcheck"), Count()
    for arguments, line, words, first in ANSWERS:
        count.check(f"cert {words} in {line:.40} {arguments}", ask(built, line, "cert", [words], arguments)[:1], [first])
    causes = collections.Counter()
    with multiprocessing.Pool() as pool:
        for found in pool.imap_unordered(functools.partial(compare, checker), list(tasks(built))):
            for what, got, want in found:
                count.check(what, got, want)
                if not what.startswith(("cert, ", "group ")):
                    causes[want[1].decode().strip()] += 1
        if given.answers:
            rows = list(told(given.answers))
            for found in pool.imap_unordered(functools.partial(accepted, checker), rows):
                count.check(*found[0])
            print(f"{len(rows)} rows of another program")
            count.check("there are rows of another program", bool(rows), True)
    print(", ".join(f"{number} times {verdict}" for verdict, number in sorted(causes.items())))
    count.check("each cause came", sorted(causes), ["no 1", "no 2", "no 3", "no 4", "no 5", "yes"])
    count.end("things of certificates")


if __name__ == "__main__":
    main()
