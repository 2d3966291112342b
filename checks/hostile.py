#!/usr/bin/env python3
"""Gives the built program scripts, and readers, that a friend would not.

    checks/hostile.py [PROGRAM]

Long lines and long words, more bytes than the program reads, many lines, groups with no small interval, the narrowest limits,
a reader that takes one byte at a time. What is expected comes from the definitions: checks/definitions.py for finite groups,
and for others what is said beside them. It prints what differs and what was measured, and a last line with counts; the exit
status is 1 where something differs. It needs Python 3 and Linux, takes some minutes, and is no part of the gate.
"""
import fcntl
import functools
import os
import subprocess
import sys
import time

from answers import Answers, example
from common import WORKERS, Count, peak, program
from definitions import finite_group, labels_of

COXETER = program(sys.argv[1:])
COUNT = Count()
DONE, REFUSED, INPUT_LIMIT = 0, 1, 6
MOST_BYTES = 16_777_216
SECONDS = 300


def run(script, arguments=()):
    """The status, the standard output and the standard error of a run."""
    ran = subprocess.run([COXETER, *arguments], input=script, capture_output=True, timeout=SECONDS)
    return ran.returncode, ran.stdout, ran.stderr


def check(what, script, status, out, arguments=()):
    COUNT.check(what, run(script, arguments), (status, out, b""))


def lines(*texts):
    return "".join(f"{text}\n" for text in texts).encode()


# ---- lines

# The first refusals of a session without a group, and with numbers and labels that are out of range.
EARLY_REFUSALS = """\
pol e 1 | error 15
matrix 2 5 | error 14
type H 3 | error 13
foo | error 10
compute | error 11
matrix 10 | error 11
matrix 17 | error 12
matrix 2 | error 11
type A x | error 12
"""


def odd_lines(workers):
    rows = [
        ("4,096 spaces and CR LF", b" " * 4096 + b"\r\n", DONE, b""),
        ("4,097 spaces", b" " * 4097 + b"\n", REFUSED, b"error 18\n"),
        ("5,000 bytes with a tab", b"z" * 2500 + b"\t" + b"z" * 2499 + b"\n", REFUSED, b"error 18\n"),
        ("a CR inside a line", b"type A 2\ncompute\r 212\n", REFUSED, b"error 19\n"),
        ("CR at the end of the input", b"type A 2\ncompute 212\r", DONE, b"121\n"),
        ("two CRs at the end of a line", b"type A 2\r\r\n", REFUSED, b"error 19\n"),
    ]
    for what, script, status, out in rows:
        check(f"{what} {workers}", script, status, out, workers)
    script, answers = example(EARLY_REFUSALS)
    check(f"early refusals {workers}", script, REFUSED, answers, workers)
    # Of all bytes a line of one is blank, if it is a space or the CR of its end; or refused.
    for byte in range(256):
        refusal = b"" if byte in b"\n\r " else b"error 10\n" if 0x20 <= byte <= 0x7E else b"error 19\n"
        check(f"a line of the byte {byte} {workers}", bytes([byte, 10]), REFUSED if refusal else DONE, refusal, workers)


# ---- words of 255 letters

# With all labels infinity no two words without equal neighbours name the same element, so each is its own normal form, and
# y <= w where y is a subword of w. The intervals are much larger than any context.
FREE = "matrix 9" + " 0" * 36
LONGEST = "123456789" * 28 + "123"


def long_words(workers):
    given = [
        (f"compute {LONGEST}", LONGEST),
        (f"length {LONGEST}", "255"),
        (f"inverse {LONGEST}", LONGEST[::-1]),
        (f"descent {LONGEST}", "L 1 R 3"),
        (f"inorder {LONGEST[1:]} {LONGEST}", "true"),
        (f"inorder {LONGEST} {LONGEST[1:]}", "false"),
        (f"inorder 987654321 {LONGEST}", "true"),
        (f"compute {LONGEST}{LONGEST[-1]}", "error 17"),
        # R is (q-1)^d on intervals of length d up to 2.
        (f"rpol {LONGEST[:-1]} {LONGEST}", "-1+q"),
        (f"rpol {LONGEST[:-2]} {LONGEST}", "1-2q+q^2"),
        (f"rpol {LONGEST[:-40]} {LONGEST}", "error 34"),
        (f"rpol {LONGEST} {LONGEST[1:]}", "0"),
    ]
    given += [(f"{command} {LONGEST}", "error 31") for command in ("coatoms", "betti", "klbasis", "extremals", "ihbetti")]
    given += [(f"{command} e {LONGEST}", "error 31") for command in ("interval", "pol", "invpol", "mu")]
    given += [(command, "error 31") for command in ("lwgraph", "rwgraph", "lcells", "rcells", "lrcells")]
    script, answers = lines(FREE, *(line for line, _ in given)), lines(*(out for _, out in given))
    begin = time.time()
    check(f"255 letters {workers}", script, REFUSED, answers, workers)
    print(f"255 letters {workers}: {time.time() - begin:.1f} s", flush=True)


# In the infinite dihedral group the elements other than e are the alternating words, and y <= w where y is shorter than w or
# is w. All P(x,w) are 1. The descents of an element are its first and its last letter.
ALTERNATING = "12" * 127 + "1"


def dihedral(workers):
    shorter = [ALTERNATING[start : start + 254] for start in (0, 1)]
    below = ["e"] + [word for size in range(1, 255) for word in (ALTERNATING[:size], ALTERNATING[1 : size + 1])] + [ALTERNATING]
    numbers = " ".join(["1", *["2"] * 254, "1"])
    texts = [
        (f"coatoms {ALTERNATING}", ["2", *shorter]),
        (f"betti {ALTERNATING}", [numbers]),
        (f"ihbetti {ALTERNATING}", [numbers]),
        (f"klbasis {ALTERNATING}", ["510", *(f"{word}:1" for word in below)]),
        (f"extremals {ALTERNATING}", ["128", *(f"{word}:1" for word in below if word[0] == word[-1] == "1")]),
        (f"interval {shorter[1]} {ALTERNATING}", ["2", shorter[1], ALTERNATING]),
    ]
    script = lines("matrix 2 0", *(line for line, _ in texts))
    answers = lines(*(item for _, items in texts for item in items))
    for limit in ([], ["--context", "510"]):
        check(f"the infinite dihedral group {workers} {limit}", script, DONE, answers, workers + limit)
    refusals = b"error 31\n" * len(texts)
    check(f"the infinite dihedral group {workers}, 509", script, REFUSED, refusals, [*workers, "--context", "509"])


# ---- the narrowest limits

ONE_MEMBER = """\
type A 2
compute 212
length 212
inverse 12
descent 12
inorder 1 12
interval e e
interval e 1 | error 31
interval 12 1 | error 31
coatoms e
coatoms 1 | error 31
betti e
betti 12 | error 31
rpol e 121
pol e e
pol e 1 | error 31
invpol e e
invpol e 1 | error 31
invpol 1 e
mu e e
mu e 1 | error 31
klbasis e
klbasis 1 | error 31
klbasis 11
extremals e
extremals 1 | error 31
ihbetti e
ihbetti 121 | error 31
lwgraph | error 31
rwgraph | error 31
lcells | error 31
rcells | error 31
lrcells | error 31
work 7 1 | error 31
type A 1
work 7 3
lcells | error 31
"""


def narrow_limits(workers):
    script, answers = example(ONE_MEMBER)
    check(f"contexts of one member {workers}", script, REFUSED, answers, [*workers, "--context", "1"])


# ---- many lines


def many_lines(workers):
    begin = time.time()
    check(f"ten million blank lines {workers}", b"\n" * 10_000_000, DONE, b"", workers)
    print(f"ten million blank lines {workers}: {time.time() - begin:.1f} s", flush=True)
    # `klbasis` of all elements of A 3, again and again, up to the most bytes.
    group = finite_group(3, labels_of("A", 3))
    answering = Answers(group)
    commands = [f"klbasis {answering.name(i)}" for i in range(group.size)]
    script, answers = lines(*commands), "".join(map(answering.text, commands)).encode()
    times = (MOST_BYTES - 10) // len(script)
    begin = time.time()
    check(f"16 MB of klbasis {workers}", b"type A 3\n" + script * times, DONE, answers * times, workers)
    print(f"16 MB of klbasis {workers}: {len(answers) * times} bytes written, {time.time() - begin:.1f} s", flush=True)


# ---- a line that does not end


def endless_line(workers):
    """100 MB without LF take no more memory than a long line of 5,000 bytes."""
    streams = {"stdin": subprocess.PIPE, "stdout": subprocess.PIPE, "stderr": subprocess.STDOUT}
    with subprocess.Popen([COXETER, *workers], bufsize=0, **streams) as child:
        given, peaks = 0, []
        for size in (5_000, MOST_BYTES - 1):
            child.stdin.write(b"z" * (size - given))
            given = size
            peaks.append(peak(child))
        try:
            while given < 100_000_000:
                given += child.stdin.write(b"z" * 65_536)
        except BrokenPipeError:
            pass
        child.stdin = None
        got = child.stdout.read(), child.wait(SECONDS)
    COUNT.check(f"100 MB without LF {workers}", got, (b"", INPUT_LIMIT))
    COUNT.check(f"100 MB without LF take at most 64 KiB more {workers}: {peaks}", peaks[1] - peaks[0] <= 64, True)
    print(f"a line without LF {workers}: at most {peaks[0]} KiB after 5,000 bytes, {peaks[1]} KiB after 16 MiB", flush=True)


# ---- a reader that takes one byte at a time


def slow_reader(workers):
    """The reader takes one byte at a time and sleeps after each 64, and the pipe holds 4,096."""
    script, answers = cells_of_f4()
    read_end, write_end = os.pipe()
    fcntl.fcntl(write_end, fcntl.F_SETPIPE_SZ, 4096)
    with subprocess.Popen([COXETER, *workers], stdin=subprocess.PIPE, stdout=write_end) as child:
        os.close(write_end)
        child.stdin.write(script)
        child.stdin.close()
        got = []
        while byte := os.read(read_end, 1):
            got.append(byte)
            if len(got) % 64 == 0:
                time.sleep(0.001)
        status = child.wait(SECONDS)
    os.close(read_end)
    COUNT.check(f"the cells of F 4, byte by byte {workers}", (status, b"".join(got)), (DONE, answers))


@functools.cache
def cells_of_f4():
    """By their definitions, which takes a minute or two."""
    return example("type F 4\nlrcells\n")


for workers in WORKERS:
    for part in (odd_lines, long_words, dihedral, narrow_limits, many_lines, endless_line, slow_reader):
        part(workers)
COUNT.end("checks")
