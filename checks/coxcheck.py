#!/usr/bin/env python3
"""Gives the built checker texts, readers and faults that a friend would not.

    checks/coxcheck.py [CHECKER [PART ..]]       the parts are named at the end; all, if none is given

Each cause by number; lines, words, numbers and texts at their limits and beyond; arguments; standard input and output that fail, are slow
or do not end; less and less memory, and each request for memory refused (checks/refuse.c, which is built by cc). What is expected is
written down here by hand; of texts that are judged it is compared with the definitions too (checks/certificates.py). A text that is
refused before the row itself is looked at has to be answered within a second of processor time.

It prints what differs and what was measured, and a last line with counts; the exit status is 1 where something differs. It needs Python 3,
Linux and cc, and is no part of the gate.
"""
import contextlib
import itertools
import os
import pty
import resource
import signal
import subprocess
import sys
import tempfile
import threading
import time
import tty

import faults
from certificates import Certificate, MOST_OF_INPUT, cause, answer
from common import Count, program
from definitions import Matrices

CHECKER = program(sys.argv[1:2], "coxcheck")
COUNT = Count()
YES, NO, USAGE, READ_FAULT, WRITE_FAULT, NO_MEMORY, INPUT_LIMIT = range(7)
USAGE_LINE = b"usage: coxcheck\n"
# The most seconds of processor time until a text is refused, if its row is not looked at.
SOON = 1.0
# A run that takes longer by the clock is killed.
SECONDS = 60
SLOWEST = {"soon": (0.0, ""), "row": (0.0, "")}

GOOD = ["cert 2 3", "element 12", "rows 4", "e:1", "1:1", "2:1", "12:1", "end"]


def joined(lines):
    """Lines, which are bytes or texts, as one text."""
    return b"".join((line if isinstance(line, bytes) else line.encode()) + b"\n" for line in lines)


def changed(*changes):
    """The good lines, with a line in the place of one; None leaves it out."""
    lines = list(GOOD)
    for at, line in changes:
        lines[at] = line
    return [line for line in lines if line is not None]


@contextlib.contextmanager
def limited(child):
    """Kills a process that takes too long."""
    timer = threading.Timer(SECONDS, os.kill, (child.pid, signal.SIGKILL))
    timer.start()
    try:
        yield child
    finally:
        timer.cancel()


def talking(**more):
    """A run of the checker whose standard input and output are pipes."""
    return limited_run(subprocess.Popen([CHECKER], stdin=subprocess.PIPE, stdout=subprocess.PIPE, **more))


@contextlib.contextmanager
def limited_run(child):
    """A process that is waited for at the end, and killed if it takes too long."""
    with child, limited(child):
        yield child


def run(text=b"", arguments=(), prepare=None, name=b"coxcheck", stdin=None, stdout=None, restore_signals=True):
    """The status, the standard output and the standard error of a run, and its seconds of processor time. The text comes from a file."""

    def begin():
        resource.setrlimit(resource.RLIMIT_CPU, (100, 100))
        if prepare:
            prepare()

    with tempfile.TemporaryFile() as given, tempfile.TemporaryFile() as out, tempfile.TemporaryFile() as error:
        given.write(text)
        given.seek(0)
        streams = {"stdin": given if stdin is None else stdin, "stdout": out if stdout is None else stdout, "stderr": error}
        words = [name, *arguments]
        child = subprocess.Popen(words, executable=CHECKER, preexec_fn=begin, restore_signals=restore_signals, **streams)
        with limited(child):
            _, status, used = os.wait4(child.pid, 0)
        child.returncode = os.waitstatus_to_exitcode(status)
        out.seek(0)
        error.seek(0)
        return child.returncode, out.read(), error.read(), used.ru_utime + used.ru_stime


def judged(what, text, number, known=True):
    """Compares the answer to a text with that of the cause of this number; and the definitions with it, if they do not take too long."""
    status, out, error, seconds = run(text)
    COUNT.check(what, (status, out, error), (*answer(number), b""))
    if known:
        COUNT.check(f"{what}, by the definitions", cause(text), number)
    kind = "soon" if number not in (0, 5) else "row"
    SLOWEST[kind] = max(SLOWEST[kind], (seconds, what))
    if kind == "soon":
        COUNT.check(f"{what}: seconds", seconds if seconds > SOON else 0, 0)


# ---- causes


def causes():
    rows = [
        ("a certificate", GOOD, 0),
        ("that of e", ["cert 2 3", "element e", "rows 1", "e:1", "end"], 0),
        ("that of e in A 1", ["cert 1", "element e", "rows 1", "e:1", "end"], 0),
        ("that of 10 in rank 10", ten(), 0),
        ("no end", GOOD[:-1], 1),
        ("an element that is not reduced", changed((1, "element 11")), 2),
        ("an element by another word", ["cert 2 2", "element 21", "rows 4", "e:1", "1:1", "2:1", "12:1", "end"], 2),
        ("an element left out", changed((2, "rows 3"), (5, None)), 3),
        ("another element", changed((6, "21:1")), 3),
        ("elements exchanged", changed((4, "2:1"), (5, "1:1")), 3),
        ("elements in lexicographic order", changed((5, "12:1"), (6, "2:1")), 3),
        ("an element twice", ["cert 2 3", "element 12", "rows 5", "e:1", "1:1", "1:1", "2:1", "12:1", "end"], 3),
        ("the element 121 in B 2", ["cert 2 4", "element 121", "rows 6", "e:1", "1:1", "2:1", "12:1", "21:1", "121:1", "end"], 0),
        ("the element 212 in A 2", ["cert 2 3", "element 212", "rows 6", "e:1", "1:1", "2:1", "12:1", "21:1", "212:1", "end"], 2),
        ("the labels row by row", ["cert 4 2 2 3 2 2 2", "element 41", "rows 4", "e:1", "1:1", "4:1", "41:1", "end"], 0),
        ("the element 2121 in B 2", dihedral(4, "2121"), 2),
        ("the element 1212 in B 2", dihedral(4, "1212"), 0),
        ("the element 212121 in G 2", dihedral(6, "212121"), 2),
        ("the element 121212 in G 2", dihedral(6, "121212"), 0),
        ("the element 21212121 with the label infinity", dihedral(0, "21212121"), 0),
        ("a large coefficient", changed((3, "e:3000000000")), 4),
        ("a coefficient of 2^31", changed((6, "12:2147483648")), 4),
        ("a coefficient of -2^31", changed((6, "12:-2147483648")), 4),
        ("a coefficient of 2^31 - 1", changed((3, "e:2147483647")), 5),
        ("a coefficient of 1 - 2^31", changed((3, "e:-2147483647")), 5),
        ("a degree of 40", changed((3, "e:1+q^40")), 4),
        ("a degree of 39", changed((3, "e:1+q^39")), 5),
        ("another polynomial", changed((3, "e:1+q")), 5),
        ("no polynomial", changed((3, "e:0")), 5),
        ("another polynomial of the element", changed((6, "12:2")), 5),
        ("another group", changed((0, "cert 2 2")), 0),
        ("another group, with another normal form", ["cert 2 2", *changed((1, "element 21"))[1:]], 2),
        ("a row of A 3 that is right", a3(), 0),
        ("a row of A 3 without its second term", a3((3, "e:1"), (5, "2:1")), 5),
        ("a row of A 3 with the second term elsewhere", a3((3, "e:1"), (4, "1:1+q")), 5),
        ("a row of A 3 with two changes that cancel each other at e", a3((4, "1:1+q"), (6, "3:1-q")), 5),
        ("a large coefficient, and another element", changed((3, "e:3000000000"), (6, "21:1")), 3),
        ("a large coefficient, and no normal form", changed((1, "element 11"), (3, "e:3000000000")), 2),
        ("a large coefficient, and a line too many", [*changed((3, "e:3000000000")), ""], 1),
    ]
    for what, lines, number in rows:
        judged(what, joined(lines), number)


def dihedral(label, element):
    """The lines for an alternating word in a group of two letters, if that is its normal form: all shorter words are below it."""
    words = sorted({word[:size] for word in ("12" * 20, "21" * 20) for size in range(len(element))}, key=lambda it: (len(it), it))
    rows = [f"{word or 'e'}:1" for word in [*words, element]]
    return [f"cert 2 {label}", f"element {element}", f"rows {len(rows)}", *rows, "end"]


def a3(*changes):
    """The lines of the certificate of 2132 in A 3, with a line in the place of one."""
    polynomials = "e:1+q 1:1 2:1+q 3:1 12:1 13:1 21:1 23:1 32:1 121:1 132:1 213:1 232:1 2132:1".split()
    lines = ["cert 3 3 2 3", "element 2132", "rows 14", *polynomials, "end"]
    for at, line in changes:
        lines[at] = line
    return lines


# ---- the grammar


def ten(element="10", row="10:1"):
    """The lines of a certificate in a group of rank 10 whose letters commute."""
    return ["cert 10" + " 2" * 45, f"element {element}", "rows 2", "e:1", row, "end"]


def grammar():
    numbers = ["", "0", "00", "02", "+2", "-2", "2.0", "x", " 2", "2 ", "２", "1" * 9, "1" * 4000, "0" * 3000 + "2"]
    polynomials = ["", "+1", "01", "1+0q", "1+0", "0+1", "0q", "-0", "00", "1q", "1+1q", "q^0", "q^1", "1+q^02", "1+", "1+q+", "q+1"]
    polynomials += ["q^3+q^2", "1+q+q", "1--q", "1+-q", "1 + q", "1+ q", "q^", "q^-1", "1+Q", "1*q", "2^q", "q2", "1+q^2^3", "--1", "e"]
    polynomials += ["1:1", "1" + "+0q" * 1000, "0" * 4000, "1" + "+q^00000002" * 300, "1" + "+q" * 1500, "q^" * 1500]
    polynomials += ["1+q^" + "0" * 3000 + "2"]
    words = ["", "E", "ee", "0", "3", "1e", "e1", "1.2", "1 ", " 1", "01", "-1", "+1", "\t1", "１"]
    texts = [("no text", b""), ("a blank line", b"\n"), ("CR alone", b"\r"), ("CR and LF", b"\r\n"), ("a NUL", b"\0")]
    texts += [("1,000 blank lines", b"\n" * 1000)]
    texts += [("16 MiB of blank lines", b"\n" * MOST_OF_INPUT), ("16 MiB without LF", b"z" * MOST_OF_INPUT)]
    texts += [(f"the first {n} lines", joined(GOOD[:n])) for n in range(len(GOOD))]
    texts += [(f"without line {n + 1}", joined(GOOD[:n] + GOOD[n + 1 :])) for n in range(len(GOOD))]
    texts += [(f"line {n + 1} twice", joined(GOOD[: n + 1] + GOOD[n:])) for n in range(len(GOOD))]
    texts += [(f"a blank line before line {n + 1}", joined([*GOOD[:n], "", *GOOD[n:]])) for n in range(len(GOOD) + 1)]
    texts += [(f"a CR in line {n + 1}", joined(changed((n, GOOD[n][:1] + "\r" + GOOD[n][1:])))) for n in range(len(GOOD))]
    texts += [(f"two CRs behind line {n + 1}", joined(changed((n, GOOD[n] + "\r\r")))) for n in range(len(GOOD))]
    texts += [(f"a space behind line {n + 1}", joined(changed((n, GOOD[n] + " ")))) for n in range(len(GOOD))]
    texts += [(f"the rank {it!r:.20}", joined(changed((0, f"cert {it} 3")))) for it in numbers if it != "2"]
    texts += [(f"the label {it!r:.20}", joined(changed((0, f"cert 2 {it}")))) for it in [*numbers[2:], "", "1", "5", "7", "8", "10"]]
    texts += [(f"{it!r:.20} rows", joined(changed((2, f"rows {it}")))) for it in [*numbers, "3", "5", "4096", "4097", "04", "4294967300"]]
    texts += [(f"the polynomial {it!r:.20}", joined(changed((3, f"e:{it}")))) for it in polynomials]
    texts += [(f"the word {it!r}", joined(changed((4, f"{it}:1")))) for it in words]
    texts += [(f"the element {it!r}", joined(changed((1, f"element {it}")))) for it in words]
    dotted = ["", "0", "11", "01", "010", "1..2", ".1", "1.", "1.02", "1.11", "1.0", "1,2", "e.1", "1.e", "1 .2", "1. 2", "123", "1" * 4000]
    for it in dotted:
        texts.append((f"the word {it!r:.20} in rank 10", joined(ten(row=f"{it}:1"))))
        texts.append((f"the element {it!r:.20} in rank 10", joined(ten(element=it))))
    texts += [(f"behind the end {it!r}", joined([*GOOD, it])) for it in ("", "end", "x", "\0", "cert 2 3")]
    texts += [("a certificate twice", joined(GOOD * 2)), ("the rank 17", joined(["cert 17" + " 2" * 136, *GOOD[1:]]))]
    heads = ["cert", "cert ", "cert 2", "cert 2 3 3", "cert 2  3", " cert 2 3", "Cert 2 3", "cert\t2 3", "matrix 2 3", "2 3"]
    texts += [(f"the line {line!r}", joined(changed((0, line)))) for line in heads]
    elements = ["element", "element  12", "elements 12", "Element 12", "element\t12", "12", "element 12 12"]
    texts += [(f"the line {line!r}", joined(changed((1, line)))) for line in elements]
    for what, text in texts:
        judged(what, text.encode() if isinstance(text, str) else text, 1, known=len(text) < 100_000)
    # Each byte in each line: the definitions decide.
    for at, line in enumerate(GOOD):
        for byte in range(256):
            text = joined(changed((at, line[:-1].encode() + bytes([byte]))))
            judged(f"{bytes([byte])!r} at the end of line {at + 1}", text, cause(text), known=False)
    judged("CR LF", joined(f"{line}\r" for line in GOOD), 0)
    judged("no LF at the end", joined(GOOD)[:-1], 0)
    judged("CR at the end", joined(GOOD)[:-1] + b"\r", 0)


# ---- limits


def product(rank):
    """The longest element of a group whose letters commute: the rank, its labels, and all words in ShortLex order."""
    words = [word for size in range(rank + 1) for word in itertools.combinations(range(1, rank + 1), size)]
    return rank, (2,) * (rank * (rank - 1) // 2), words


def entries_of_one(rank):
    """The certificate of that element, whose polynomials are 1."""
    rank, labels, words = product(rank)
    return Certificate(rank, labels, words[-1], tuple((word, ((0, 1),)) for word in words))


def limits():
    # Coefficients and degrees of any size are of the grammar.
    digits = "1" * 4094
    fits, over = changed((3, f"e:{digits}")), changed((3, f"e:{digits}1"))
    rows = [
        ("a line of 4,096 bytes", joined(fits), 4),
        ("a line of 4,097 bytes", joined(over), 1),
        ("a line of 4,096 bytes and CR", joined(changed((3, f"e:{digits}\r"))), 4),
        ("a line of 4,097 bytes and CR", joined(changed((3, f"e:{digits}1\r"))), 1),
        ("a coefficient of 10,000 digits", joined(changed((3, "e:" + "1" * 10_000))), 1),
        ("10,000 digits of a degree", joined(changed((3, "e:1+q^" + "1" * 10_000))), 1),
        ("10,000 digits of the count", joined(changed((2, "rows " + "4" * 10_000))), 1),
        ("10,000 digits of the rank", joined(changed((0, "cert " + "2" * 10_000))), 1),
        ("10,000 letters", joined(changed((1, "element " + "12" * 5_000))), 1),
        ("a degree of 4,000 digits", joined(changed((3, "e:1+q^" + "1" * 4_000))), 4),
        ("600 terms", joined(changed((3, "e:1+q" + "".join(f"+q^{k}" for k in range(2, 600))))), 4),
        ("400 terms with other coefficients", joined(changed((3, "e:1+q" + "".join(f"-{k}q^{k}" for k in range(2, 400))))), 4),
    ]
    degrees = [41, 255, 256, 65_536, 2**31 - 1, 2**31, 2**32 - 1, 2**32, 2**32 + 1, 2**63, 2**64, 2**64 + 1, 2**64 + 39, 10**30]
    rows += [(f"the degree {it}", joined(changed((3, f"e:1+q^{it}"))), 4) for it in degrees]
    sizes = [2**32 + 1, 2**63 - 1, 2**63, 2**64, 2**64 + 1, 10**30]
    rows += [(f"the coefficient {c}", joined(changed((3, f"e:{c}"))), 4) for it in sizes for c in (it, -it)]
    rows += [(f"the coefficient {c} of q", joined(changed((3, f"e:1{c:+}q"))), 4) for it in sizes for c in (it, -it)]
    rows += [(f"an element of {size} letters", joined(dihedral(0, ("12" * 20)[:size])), number) for size, number in ((39, 0), (40, 2))]
    rows += [
        ("an element of 255 letters", joined(changed((1, "element " + "1" * 255))), 2),
        ("an element of 256 letters", joined(changed((1, "element " + "1" * 256))), 1),
        ("a word of 255 letters", joined(changed((4, "1" * 255 + ":1"))), 3),
        ("a word of 256 letters", joined(changed((4, "1" * 256 + ":1"))), 1),
        ("an element of 255 letters in rank 16", joined(rank16("16." * 254 + "15")), 2),
        ("an element of 256 letters in rank 16", joined(rank16("16." * 255 + "15")), 1),
    ]
    for what, text, number in rows:
        judged(what, text, number)


def rank16(element, label="0"):
    """Two entries over the group of rank 16 whose labels are all this one."""
    return ["cert 16" + f" {label}" * 120, f"element {element}", "rows 2", "e:1", "1:1", "end"]


def many_entries():
    good = entries_of_one(12)
    text = good.text().encode()
    lines = good.text().splitlines()
    judged("4,096 entries", text, 0)
    judged("4,096 entries, the last one 2", joined([*lines[:-2], lines[-2][:-1] + "2", "end"]), 5, known=False)
    judged("4,096 entries that repeat", joined(["cert 2 3", "element 12", "rows 4096", *["e:1"] * 4096, "end"]), 3)
    judged("4,097 entries", joined(["cert 2 3", "element 12", "rows 4097", *["e:1"] * 4097, "end"]), 1)
    judged("4,097 entries for 4,096", joined(["cert 2 3", "element 12", "rows 4096", *["e:1"] * 4097, "end"]), 1)
    judged("4,096 entries, exchanged", joined([*lines[:-3], lines[-2], lines[-3], "end"]), 3, known=False)
    large = entries_of_one(13)
    first = large._replace(entries=large.entries[:4096]).text().encode()
    judged("the first 4,096 of 8,192 entries", first, 3, known=False)
    # Elements with very many others below them: the interval is left where it has too many.
    letters = [1 + k * 7 % 16 for k in range(39)]
    for label in ("0", "3", "6"):
        group = Matrices(16, (int(label),) * 120)
        element = ".".join(map(str, group.normal_form(letters)))
        judged(f"39 letters in rank 16 with labels {label}", joined(rank16(element, label)), 3)
    # The words come one after the other from a large interval.
    group = Matrices(9, (0,) * 36)
    word = "123456789" * 4 + "123"
    short = ("".join(letters) for n in range(1, 5) for letters in itertools.product("123456789", repeat=n))
    lines = [f"{it}:1" for it in ["e", *itertools.islice(short, 4094), word]]
    text = joined(["cert 9" + " 0" * 36, f"element {word}", "rows 4096", *lines, "end"])
    judged("4,096 words for 39 letters of rank 9", text, 3, known=False)


def large_texts():
    """Texts of exactly the most bytes, and of one more: the entries are right, and their coefficients have up to 4,000 digits."""
    *head, end = [*entries_of_one(12).lines()]
    head, lines = head[:3], head[3:]
    # Lines of 4,096 bytes would be somewhat too much.
    over, rows = len(joined([*head, end])) + 4097 * len(lines) - MOST_OF_INPUT, []
    for line in lines:
        less = min(over, 4096 - len(line))
        over -= less
        rows.append(line + "1" * (4096 - less - len(line)))
    text = joined([*head, *rows, end])
    COUNT.check("the size of that text", len(text), MOST_OF_INPUT)
    judged("16 MiB, large coefficients", text, 4, known=False)
    COUNT.check("16 MiB without the last LF, large coefficients", run(text[:-1])[:3], (*answer(4), b""))
    more = [text + b"\n", text + b"x", b"z" * (MOST_OF_INPUT + 1), text[:-4] + b"z" * 100]
    for it, what in zip(more, ("LF", "x", "without LF", "another last line")):
        COUNT.check(f"more than 16 MiB: {what}", run(it)[:3], (INPUT_LIMIT, b"", b""))
    # What is wrong from the first line on may be answered before the end.
    COUNT.check("more than 16 MiB: a wrong first line", run(b"z\n" + text)[:3] in [(*answer(1), b""), (INPUT_LIMIT, b"", b"")], True)
    with open("/dev/zero", "rb") as zeros:
        COUNT.check("a line without end", run(stdin=zeros)[:3], (INPUT_LIMIT, b"", b""))
    for head in ("true", "printf 'cert 2 3\\nelement 12\\nrows 4096\\n'"):
        with subprocess.Popen(["sh", "-c", f"{head}; exec yes e:1"], stdout=subprocess.PIPE) as endless:
            COUNT.check(f"lines without end, {head}", run(stdin=endless.stdout)[:3], (*answer(1), b""))
            endless.stdout.close()


# ---- arguments


def arguments():
    wrong = (USAGE, USAGE_LINE, b"")
    lists = [["x"], [""], [" "], ["-"], ["--"], ["--help"], ["-h"], ["--version"], ["a", "b"], ["certificate.txt"]]
    lists += [["x" * 100_000], ["-"] * 1000, [b"\xff"], [b"\xc3"], [b"\xed\xa0\x80"], ["x", b"\xff"], ["é"], ["\n"]]
    for words in lists:
        COUNT.check(f"the arguments {words!r:.60}", run(joined(GOOD), words)[:3], wrong)
        COUNT.check(f"the arguments {words!r:.60} and no certificate", run(b"z", words)[:3], wrong)
    for name in (b"", b"x", b"--help", b"\xff\xfe", b"/a b/coxcheck"):
        COUNT.check(f"the name {name!r}", run(joined(GOOD), name=name)[:3], (*answer(0), b""))
    read_end, write_end = os.pipe()
    COUNT.check("with arguments nothing is read", run(arguments=["x"], stdin=read_end)[:3], wrong)
    os.close(read_end)
    os.close(write_end)


# ---- faults of reading and writing


def read_faults():
    fault = (READ_FAULT, b"", b"")
    folder = os.open("/", os.O_RDONLY)
    COUNT.check("a folder as standard input", run(stdin=folder)[:3], fault)
    COUNT.check("a folder as standard input, and an argument", run(stdin=folder, arguments=["x"])[:3], (USAGE, USAGE_LINE, b""))
    os.close(folder)
    COUNT.check("standard input closed", run(prepare=lambda: os.close(0))[:3], fault)
    for text, wanted in ((joined(GOOD[:5]), fault), (joined(GOOD), fault), (joined(GOOD)[:-1], fault), (b"", fault)):
        read_end, write_end = os.pipe()
        os.set_blocking(read_end, False)
        os.write(write_end, text)
        COUNT.check(f"a pipe that would block after {len(text)} bytes", run(stdin=read_end)[:3], wanted)
        os.close(read_end)
        os.close(write_end)
    # A terminal whose other end is gone.
    near, far = pty.openpty()
    tty.setraw(far)
    with limited_run(subprocess.Popen([CHECKER], stdin=near, stdout=subprocess.PIPE)) as child:
        os.close(near)
        os.write(far, joined(GOOD[:-1]))
        time.sleep(0.2)
        os.close(far)
        out = child.stdout.read()
    COUNT.check("a terminal that hangs up", (child.returncode, out), fault[:2])


def write_faults():
    texts = [("yes", joined(GOOD), [], b"yes\n"), ("no", joined(GOOD[:-1]), [], b"no 1\n"), ("usage", b"", ["x"], USAGE_LINE)]
    for what, text, words, due in texts:
        with open("/dev/full", "wb") as full:
            COUNT.check(f"a full device, {what}", run(text, words, stdout=full)[:3], (WRITE_FAULT, b"", b""))
        COUNT.check(f"standard output closed, {what}", run(text, words, prepare=lambda: os.close(1))[:3], (WRITE_FAULT, b"", b""))
        read_end, write_end = os.pipe()
        os.close(read_end)
        for way, restore in (("is ignored", False), ("has its default", True)):
            got = run(text, words, stdout=write_end, restore_signals=restore)[:3]
            COUNT.check(f"a closed pipe, {what}, where SIGPIPE {way}", got, (WRITE_FAULT, b"", b""))
        os.close(write_end)
        for most in range(len(due) + 1):

            def limit():
                resource.setrlimit(resource.RLIMIT_FSIZE, (most, most))

            status = WRITE_FAULT if most < len(due) else {"yes": YES, "no": NO, "usage": USAGE}[what]
            got = run(text, words, limit, restore_signals=False)[:3]
            COUNT.check(f"a file of at most {most} bytes, {what}", got, (status, due[:most], b""))
    # What ends without a text needs no output.
    with open("/dev/full", "wb") as full:
        COUNT.check("a full device, too much input", run(b"z" * (MOST_OF_INPUT + 1), stdout=full)[:3], (INPUT_LIMIT, b"", b""))


# ---- pipes


def pipes():
    for what, text, wanted in (("yes", joined(GOOD), answer(0)), ("no", joined(changed((3, "e:1+q"))), answer(5))):
        for pause, size in ((0.001, 1), (0.05, 12)):
            with talking(bufsize=0) as child:
                for at in range(0, len(text), size):
                    child.stdin.write(text[at : at + size])
                    time.sleep(pause)
                child.stdin.close()
                out = child.stdout.read()
            COUNT.check(f"{size} bytes at a time, {what}", (child.returncode, out), wanted)
    # A reader that comes late.
    with talking() as child:
        child.stdin.write(joined(GOOD))
        child.stdin.close()
        time.sleep(0.3)
        COUNT.check("a reader that comes late", (child.stdout.read(), child.wait()), (b"yes\n", YES))
    # No answer is written while a certificate may still go on.
    with talking(bufsize=0) as child:
        child.stdin.write(joined(GOOD))
        os.set_blocking(child.stdout.fileno(), False)
        time.sleep(0.3)
        COUNT.check("no answer before the end of the input", (child.stdout.read(), child.poll()), (None, None))
        child.stdin.write(b"x")
        child.stdin.close()
        os.set_blocking(child.stdout.fileno(), True)
        COUNT.check("the answer after one more byte", (child.stdout.read(), child.wait()), (b"no 1\n", NO))


# ---- memory


def memory():
    """With less and less memory there is the answer, or status 5 and no text."""
    for what, text, wanted in (("4,096 entries", entries_of_one(12).text().encode(), answer(0)), ("A 3", joined(a3()), answer(0))):
        ends = {YES: 0, NO_MEMORY: 0}
        for kibibytes in [*range(1024, 4096, 128), *range(4096, 80 << 10, 4096), 256 << 10]:

            def limit():
                resource.setrlimit(resource.RLIMIT_AS, (kibibytes << 10, kibibytes << 10))

            try:
                status, out, error, _ = run(text, prepare=limit)
            except (OSError, subprocess.SubprocessError):
                continue
            if status == 127 or error or status < 0 and not ends[YES] + ends[NO_MEMORY]:
                continue  # it could not be started
            ends[status] = ends.get(status, 0) + 1
            COUNT.check(f"{what} in {kibibytes} KiB", (status, out) in (wanted, (NO_MEMORY, b"")), True)
        print(f"{what}: with less and less memory {ends[YES]} runs say yes, {ends[NO_MEMORY]} end by status 5", flush=True)
        COUNT.check(f"{what}: some runs end by yes", ends[YES] > 0, True)
    with tempfile.TemporaryDirectory() as folder:
        runs = faults.Runs(CHECKER, folder)
        for what, text, number in (("A 3", joined(a3()), 0), ("no row", joined(a3((3, "e:1"))), 5), ("no text", b"", 1)):
            status, out = answer(number)
            faults.refusals(COUNT, runs, what, text, [], (status, out, b""), some=number != 1)
        faults.refusals(COUNT, runs, "arguments", b"", ["x"], (USAGE, USAGE_LINE, b""), some=False)


PARTS = (causes, grammar, limits, many_entries, large_texts, arguments, read_faults, write_faults, pipes, memory)
for part in [it for it in PARTS if it.__name__ in (sys.argv[2:] or [it.__name__])]:
    begun = time.monotonic()
    part()
    print(f"{part.__name__}: {time.monotonic() - begun:.1f} s", flush=True)
print("slowest before the row: {:.2f} s, {}; with it: {:.2f} s, {}".format(*SLOWEST["soon"], *SLOWEST["row"]))
COUNT.end("checks")
