#!/usr/bin/env python3
"""Gives the built program lists of jobs, and compares their answers with what the lines give one by one without a list.

    checks/jobs.py [PROGRAM]

Lists at their limits and far beyond, blank, long and foreign lines, lines that no block may have, lists that are open at the end, one list
after another, lists by chance, lists inside which reading ends, and sixteen blocks that ask for all of B 5. Each is answered with 1, 2 and 16 workers. What a line gives is
asked of the program by a script of that line and its group alone. It prints what differs, and a last line with counts; the exit status
is 1 where something differs. It needs Python 3, Linux and cc, takes a minute or two, and is no part of the gate.
"""
import functools
import os
import random
import subprocess
import sys
import tempfile
import time

from common import WORKERS, Count, program, refuse_library, reported

COXETER = program(sys.argv[1:])
COUNT = Count()
DONE, REFUSED, READ_FAULT, WRITE_FAULT, INPUT_LIMIT = 0, 1, 3, 4, 6
MOST_BLOCKS, MOST_LINES, MOST_BYTES, MOST_OF_INPUT = 16, 1_000, 4_096, 16_777_216
SECONDS = 300


def run(script, arguments=(), stdout=subprocess.PIPE, **streams):
    """The status, the standard output and the standard error of a run."""
    given = streams if script is None else {"input": script}
    ran = subprocess.run([COXETER, *arguments], stdout=stdout, stderr=subprocess.PIPE, timeout=SECONDS, **given)
    return ran.returncode, ran.stdout, ran.stderr


def most_memory(library, script):
    """The most memory that a run of this script holds at one time, in KiB: what it was given and has not given back, counted at each request
    (checks/refuse.c). What the kernel tells of a process wavers by more than what is compared here."""
    return reported(library, "REFUSE_HELD", [COXETER], script, timeout=SECONDS)[1] >> 10


@functools.cache
def alone(group, line):
    """What a line is answered behind the line that sets its group."""
    return run(group + b"\n" + line + b"\n")[1]


def line_answer(group, line):
    """What a line of a block is answered."""
    if len(line) > MOST_BYTES:
        return b"error 18\n"
    if any(not 0x20 <= byte <= 0x7E for byte in line):
        return b"error 19\n"
    name, *arguments = line.split() or [b""]
    if name in (b"type", b"matrix", b"quit", b"jobs"):
        return b"error 10\n"
    if name in (b"next", b"end"):
        assert arguments, "this line is no line of a block"
        return b"error 11\n"
    return alone(group, line)


def list_answer(group, blocks):
    """What a list of these blocks is answered."""
    if len(blocks) > MOST_BLOCKS or sum(map(len, blocks)) > MOST_LINES:
        return b"error 35\n"
    return b"".join(line_answer(group, line) for block in blocks for line in block)


def list_lines(blocks):
    """The lines that give a list of these blocks, without its end."""
    between = [line for block in blocks for line in [b"next", *block]][1:]
    return b"".join(line + b"\n" for line in [b"jobs", *between])


def check(what, script, answer):
    """The script is answered so with each number of workers."""
    status = REFUSED if b"error" in answer else DONE
    for workers in WORKERS:
        COUNT.check(f"{what} {workers}", run(script, workers), (status, answer, b""))


def check_list(what, group, blocks):
    """A list, and a line behind it; the same list open at the end, with a last LF and without one; and twice."""
    head, body, answer = group + b"\n", list_lines(blocks), list_answer(group, blocks)
    behind = b"length e\n"
    check(what, head + body + b"end\n" + behind, answer + b"0\n")
    check(f"{what}, open at the end", head + body, answer)
    check(f"{what}, twice", head + body + b" end \r\n" + body + b"end", answer * 2)
    if blocks[-1] and blocks[-1][-1]:
        check(f"{what}, without a last LF", head + body[:-1], answer)


GROUP = b"type A 3"

# A line of each command, with refusals, and lines that no block may have.
LINES = [
    b"",
    b"  ",
    b"compute 3211",
    b"length 2132",
    b"inverse 12",
    b"descent 213",
    b"inorder 2 2132",
    b"interval 2 2132",
    b"coatoms 2132",
    b"betti 2132",
    b"rpol e 2132",
    b"klbasis 2132",
    b"ihbetti 2132",
    b"extremals 2132",
    b"cert 2132",
    b"pol 2 2132",
    b"mu 2 2132",
    b"invpol 2 2132",
    b"lwgraph",
    b"rwgraph",
    b"lcells",
    b"rcells",
    b"lrcells",
    b"module 2",
    b"work 7 20",
    b"compute 1x",
    b"compute",
    b"foo",
    b"quit",
    b"quit 1",
    b"jobs",
    b"type A 2",
    b"matrix 2 3",
    b"next 1",
    b"end of the list",
    b"length\t2132",
    b"\xff",
    b"z" * 4_096,
    b"z" * 4_097,
    b"\x00" * 5_000,
]


def at_the_limits():
    one = b"length 121"
    for count in (MOST_LINES, MOST_LINES + 1):
        check_list(f"{count} lines in one block", GROUP, [[one] * count])
        check_list(f"{count} blank lines", GROUP, [[b""] * count])
        check_list(f"{count} refused lines", GROUP, [[b"quit"] * (count - 1), [b"\x01"]])
        check_list(f"{count} lines in sixteen blocks", GROUP, [[one] * 60 for _ in range(15)] + [[one] * (count - 900)])
    for count in (1, 2, MOST_BLOCKS, MOST_BLOCKS + 1, 100):
        check_list(f"{count} empty blocks", GROUP, [[]] * count)
        check_list(f"{count} blocks of one line", GROUP, [[one]] * count)


def millions():
    """A list of millions of lines and blocks takes no more memory than one that is just too long."""
    begun = time.monotonic()
    both = b"\n" * 5_000_000 + b"next\n" * 500_000
    script = GROUP + b"\njobs\n" + both
    check("a list of millions of lines and blocks", script + b"end\nlength 1\n", b"error 35\n1\n")
    check("the same, open at the end", script, b"error 35\n")
    rows = (("lines", b"\n" * 10_000_000), ("blocks", b"next\n" * 3_000_000), ("both", both))
    with tempfile.TemporaryDirectory() as folder:
        library = refuse_library(folder)
        short = most_memory(library, GROUP + b"\njobs\n" + b"\n" * 1_001)
        found = [(what, most_memory(library, GROUP + b"\njobs\n" + lines)) for what, lines in rows]
    for what, most in found:
        COUNT.check(f"millions of {what} take at most 64 KiB more: {short}, {most}", most - short <= 64, True)
    print(f"lists of millions of lines: {time.monotonic() - begun:.1f} s, at most {short} KiB", flush=True)


def all_lines():
    check_list("each line in one block", GROUP, [LINES])
    check_list("each line in two blocks", GROUP, [LINES[1::2], LINES[::2]])
    for line in LINES:
        check_list(f"a block of {line[:20]!r} alone", GROUP, [[line]])
        check_list(f"blocks of {line[:20]!r} and another", GROUP, [[line], [b"pol 2 2132", line], [b"lrcells"]])
    check("jobs and end before any group", b"jobs\nend\nnext\n", b"error 15\nerror 10\nerror 10\n")
    check("end before any group", b"end\n", b"error 10\n")
    check("jobs with an argument", GROUP + b"\njobs 1\nend\n", b"error 11\nerror 10\n")
    check("a CR at the end of each line", GROUP + b"\r\njobs\r\nlength 121\r\nnext\r\nlength 12\r\nend\r\n", b"3\n2\n")
    check("quit behind a list", GROUP + b"\njobs\nquit\nend\nquit\nfoo\n", b"error 10\n")
    check("another group behind a list", GROUP + b"\njobs\nlength 13\nend\ntype A 1\njobs\nlength 13\n", b"2\nerror 16\n")


def by_chance():
    chance = random.Random(35)
    for number in range(40):
        blocks = [[chance.choice(LINES) for _ in range(chance.randrange(6))] for _ in range(chance.randrange(1, 17))]
        check_list(f"list {number} by chance", GROUP, blocks)


def large():
    longest = b"12345" * 5
    begun = time.monotonic()
    check_list("sixteen times all of B 5", b"type B 5", [[b"klbasis " + longest]] * 16)
    different = [[b"klbasis " + longest[: 24 - k], b"mu e " + longest[: 25 - k]] for k in range(16)]
    check_list("sixteen rows of B 5", b"type B 5", different)
    check_list("sixteen times the cells of B 3", b"type B 3", [[b"lrcells", b"lwgraph"]] * 16)
    print(f"large lists: {time.monotonic() - begun:.1f} s", flush=True)


def ends_inside():
    """Where reading fails, or there are too many bytes, an open list is answered, and the status tells why reading ended."""
    head, answer = GROUP + b"\njobs\nlength 121\nnext\nfoo\nmu 2 2132\n", b"3\nerror 10\n1\n"
    for workers in WORKERS:
        for more, told in ((b"", b""), (b"compute 1", b""), (b"next\nlength 1\n", b"1\n")):
            read_end, write_end = os.pipe()
            os.set_blocking(read_end, False)
            os.write(write_end, head + more)
            COUNT.check(f"a read that fails behind {more!r} {workers}", run(None, workers, stdin=read_end), (READ_FAULT, answer + told, b""))
            os.close(read_end)
            os.close(write_end)
        for more in (b"z" * MOST_OF_INPUT, b"compute 1\n" * (MOST_OF_INPUT // 10)):
            told = answer if more[:1] == b"z" else b"error 35\n"
            COUNT.check(f"too many bytes of {more[:10]!r} {workers}", run(head + more, workers), (INPUT_LIMIT, told, b""))
        for end in (b"", b"end\n"):
            with open("/dev/full", "wb") as full:
                got = run(head + end, workers, stdout=full)
            COUNT.check(f"a full device, {end!r} {workers}", got, (WRITE_FAULT, None, b""))


for part in (at_the_limits, millions, all_lines, by_chance, ends_inside, large):
    part()
COUNT.end("lists")
