#!/usr/bin/env python3
"""Asks the same questions in three orders, with 1, 4 and 16 workers, and compares the answers.

    checks/orders.py [PROGRAM]

What is kept from line to line depends on the order of the lines, and no answer may. Some elements of each session of
bench/sessions.py are asked for as they are written there, in the opposite order, and shuffled: each question has the same
answer each time. And lines of many commands over the same words are asked in these orders, as a session, as a list of
jobs, and where what is kept has room for few elements: each has to be answered by the bytes that a program of its own
gives. It prints what differs, and a last line with counts; the exit status is 1 where something differs. It needs
Python 3 alone, takes some two minutes, and is no part of the gate.
"""
import functools
import os
import random
import subprocess
import sys

from common import TOP, Count, program

sys.path.append(os.path.join(TOP, "bench"))
from sessions import Group, orders, scattered

COXETER = program(sys.argv[1:])
COUNT = Count()
# How many elements of a session are asked for at most: of short ones, of some at random, and of those that have many below them.
MOST_SHORT, MOST_SCATTERED, MOST_LARGE = 1_500, 100, 8
# All commands whose answer depends on an element, and those on the whole group.
ELEMENT_LINES = ["mu {y} {w}", "pol {y} {w}", "klbasis {w}", "extremals {w}", "ihbetti {w}", "betti {w}", "interval {y} {w}",
                 "coatoms {w}", "inorder {y} {w}", "invpol {y} {w}", "cert {w}"]
GROUP_LINES = ["lwgraph", "rwgraph", "lcells", "rcells", "lrcells"]


def run(lines, *options):
    """The status of a run, and what it writes."""
    ran = subprocess.run([COXETER, *options], input="".join(f"{line}\n" for line in lines).encode(), stdout=subprocess.PIPE)
    return ran.returncode, ran.stdout


def in_orders(lines):
    """The lines as they are, in the opposite order, and shuffled."""
    yield "as written", list(lines)
    yield "reversed", lines[::-1]
    yield "shuffled", random.Random(47).sample(lines, len(lines))


def some(words, most):
    """At most so many of the words, evenly spread."""
    return words[:: -(-len(words) // most)]


def sessions():
    """The sessions of `pol`: a name, the line that sets the group, and the words."""
    for name, group, words in orders():
        if name.endswith("rising"):
            yield name, group, some(words, MOST_SHORT)
    for name, group, words in scattered():
        yield name, group, some(words, MOST_LARGE if name.startswith("E 7") else MOST_SCATTERED)


def ask_sessions():
    """Each question of a session has one answer, in each order, with each number of workers."""
    for name, group, words in sessions():
        want = None
        for order, asked in in_orders([f"pol e {word}" for word in words]):
            for workers in ("1", "4", "16") if name.startswith("B 6") else ("1", "4"):
                status, text = run([group, *asked], "--workers", workers)
                got = status, sorted(zip(asked, text.decode().split("\n")[:-1], strict=True))
                want = want or got
                COUNT.check(f"{name}, {order}, {workers} workers", got, want)


@functools.cache
def alone(group, line, *options):
    """What a line is answered behind the line that sets its group."""
    return run([group, line], *options)[1]


def mixed():
    """Lines of many commands: a name, the line that sets the group, the lines, and numbers of elements to which what is kept is
    limited."""
    chance = random.Random(1)
    for name, group, count, least, most, limits in [
        ("B 4", "type B 4", 16, 2, 14, ["384", "383", "150"]),
        ("D 4", "type D 4", 16, 1, 12, ["192", "60"]),
        ("affine A 3", "matrix 4 3 2 3 3 2 3", 16, 4, 20, ["1500"]),
        ("labels 4", "matrix 3 4 4 4", 16, 4, 14, ["600"]),
    ]:
        of = Group(group)
        words = [of.climb(chance.randrange(least, most), chance) for _ in range(count)]
        lines = [line.format(y=y, w=w) for w, y in zip(words, words[1:] + ["e"]) for line in ELEMENT_LINES]
        if group.startswith("type"):
            lines += [*GROUP_LINES, f"module {words[0]}"]
        yield name, group, lines, limits


def check_run(what, lines, answers, ran):
    """The lines have these answers in a run; else the first one that has another is told."""
    status, text = ran
    for line, answer in zip(lines, answers, strict=True):
        if not text.startswith(answer):
            COUNT.check(f"{what}, {line}", text[: len(answer)], answer)
            return
        text = text[len(answer) :]
    refused = any(answer.startswith(b"error") for answer in answers)
    COUNT.check(what, (status, text), (1 if refused else 0, b""))


def check_lines(what, group, lines, option):
    """The lines, one after the other and as a list of jobs, are answered as each alone."""
    limits = [option] if "context" in option else []
    answers = [alone(group, line, *limits) for line in lines]
    check_run(what, lines, answers, run([group, *lines], option))
    blocks = [lines[k : k + 60] for k in range(0, len(lines), 60)]
    listed = [line for block in blocks for line in ["next", *block]][1:]
    check_run(f"{what}, as a list", lines, answers, run([group, "jobs", *listed, "end"], option))


def ask_mixed():
    """Each line of many commands is answered as alone."""
    for name, group, lines, limits in mixed():
        for order, asked in in_orders(lines):
            for workers in ("1", "4", "16") if name == "B 4" else ("1", "4"):
                check_lines(f"{name}, {order}, {workers} workers", group, asked, f"--workers={workers}")
            for limit in limits:
                check_lines(f"{name}, {order}, at most {limit} elements", group, asked, f"--context={limit}")


ask_sessions()
ask_mixed()
COUNT.end("runs")
