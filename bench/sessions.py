#!/usr/bin/env python3
"""How long sessions take, and how much memory: many questions in one run, where what is kept grows from line to line.

    bench/sessions.py [--native FILE] [--workers "1,4"] [--instructions] [--only TEXT] [PROGRAM [PROGRAM]]
    bench/sessions.py --commands [--only TEXT] [PROGRAM [PROGRAM]]
    bench/sessions.py --orders [--instructions] [--only TEXT] [PROGRAM [PROGRAM]]
    bench/sessions.py --write FOLDER
                        the program of this repository, if none is named; all programs run in turn

- A session asks `pol e w` for each of some elements: all short ones of a group in ShortLex order (rising), in the opposite order (falling)
  and in some order (shuffled), or elements of the same or of different lengths at random, which have little in common. `--write` writes
  each of them to a file of the folder, and measures nothing.
- With `--commands` a session asks a command for elements at random below one element W. Beside it the same lines are asked in a context
  that has all of their elements from the start. For that a line `cert W` comes first: W has more than 4,096 elements below it, so the line
  is refused with no row made, but the interval of W is kept. The time of a run of that line alone is taken off. `betti` and `inorder` make
  no use of what is kept.
- With `--orders` a session asks two commands, one and the other in turn: `pol` and `invpol`, `mu` and `lcells`, `klbasis` and `betti`,
  `cert` and `module`. Beside it the same lines are asked grouped: all of one command, then all of the other, either of them first. An
  order is slow where it takes more than 1.2 times the best order of the same lines, and the last column names those that are.

`--native FILE` names a program that answers `pol` alone, built from bench/native/questions.rs. `--workers` runs each program with these
numbers of workers, and adds seconds of the clock. All have to write the same bytes. `--only` takes the sessions with this text in their
names. `--instructions` adds millions of instructions, the native program's too: those of one run under `valgrind --tool=callgrind`, which
no noise changes. With `--orders` they stand in the place of seconds.

Each other figure is the least of five runs, of sixty where each program takes less than a tenth of a second, or of one where one takes
more than ten seconds: seconds of processor time, and the peak of memory of the whole run (bench/measure.c, which is built by cc). `times`
is a program's seconds divided by those of the native program, or of the first column where there is none.
"""
import argparse
import itertools
import os
import random
import re
import subprocess
import sys
import tempfile
import time

import cert
from intervals import TOP
from rows import AFFINE_A2, AFFINE_A3

TRIANGLE = "matrix 3 4 4 4"
# The entries a(s,t) and a(t,s) for s < t, by the label.
ENTRIES = {2: (0, 0), 3: (-1, -1), 4: (-1, -2), 6: (-1, -3), 0: (-2, -2)}


def labels_of(line):
    """The rank and the labels of the group that a line sets, by the pairs s < t, counted from 0."""
    kind, *given = line.split()
    if kind == "matrix":
        rank = int(given[0])
        return rank, dict(zip(itertools.combinations(range(rank), 2), map(int, given[1:])))
    letter, rank = given[0], int(given[1])
    labels = dict.fromkeys(itertools.combinations(range(rank), 2), 2)
    chain = {(s, s + 1): 3 for s in range(rank - 1)}
    if letter == "E":
        del chain[0, 1], chain[1, 2]
        chain |= {(0, 2): 3, (1, 3): 3}
    if letter == "D":
        del chain[rank - 2, rank - 1]
        chain |= {(rank - 3, rank - 1): 3}
    return rank, labels | chain | ({(rank - 2, rank - 1): 4} if letter == "B" else {})


class Group:
    """A group, by the line that sets it: B n, D n, E n, or a matrix. An element u is known by the heights of the roots u^-1 e(t)."""

    def __init__(self, line):
        self.line = line
        self.rank, labels = labels_of(line)
        self.entries = [[2] * self.rank for _ in range(self.rank)]
        for (s, t), label in labels.items():
            self.entries[s][t], self.entries[t][s] = ENTRIES[label]
        self.identity = (1,) * self.rank

    def shifted(self, heights, s):
        """The heights for s u in place of u."""
        return tuple(h - a * heights[s] for h, a in zip(heights, self.entries[s]))

    def word(self, heights):
        """The first word of an element in ShortLex order."""
        letters = []
        while any(h < 0 for h in heights):
            s = next(t for t, h in enumerate(heights) if h < 0)
            letters.append(str(s + 1))
            heights = self.shifted(heights, s)
        return "".join(letters) or "e"

    def first(self, count):
        """The words of the first elements in ShortLex order."""
        words, layer = ["e"], [(self.identity, "")]
        while len(words) < count and layer:
            longer = []
            for s, (heights, word) in itertools.product(range(self.rank), layer):
                if heights[s] > 0:
                    moved = self.shifted(heights, s)
                    if min(t for t, h in enumerate(moved) if h < 0) == s:
                        longer.append((moved, f"{s + 1}{word}"))
            layer = longer
            words += [word for _, word in layer]
        return words[:count]

    def climb(self, length, chance):
        """The word of an element of this length, by letters at random that lengthen; of the longest element where that is shorter."""
        heights, letters = self.identity, 0
        while letters < length and any(h > 0 for h in heights):
            s = chance.randrange(self.rank)
            if heights[s] > 0:
                heights, letters = self.shifted(heights, s), letters + 1
        return self.word(heights)

    def product(self, letters, chance):
        """The word of a product of so many letters at random."""
        heights = self.identity
        for _ in range(letters):
            heights = self.shifted(heights, chance.randrange(self.rank))
        return self.word(heights)


# The groups of which so many short elements are asked for.
SHORT = [
    ("affine A 3", AFFINE_A3, 4_000),
    ("affine A 2", AFFINE_A2, 1_200),
    ("labels 4", TRIANGLE, 3_000),
    ("E 8", "type E 8", 6_000),
    ("B 6", "type B 6", 10_000),
]


def orders():
    """The short elements of groups in three orders: a name, the line that sets the group, and the words."""
    for name, line, count in SHORT:
        words = Group(line).first(count)
        yield f"{name}, rising", line, words
        yield f"{name}, falling", line, words[::-1]
        random.Random(1).shuffle(words)
        yield f"{name}, shuffled", line, words


def scattered():
    """Elements at random, in the same form."""
    e6, e7, e8, affine, triangle = map(Group, ("type E 6", "type E 7", "type E 8", AFFINE_A3, TRIANGLE))
    chance = random.Random(1)
    yield "E 7, 28 letters", e7.line, [e7.climb(28, chance) for _ in range(60)]
    yield "E 6, at random", e6.line, [e6.product(300, chance) for _ in range(300)]
    yield "affine A 3, 30 letters", affine.line, [affine.climb(30, chance) for _ in range(300)]
    yield "E 8, 12 letters", e8.line, [e8.climb(12, chance) for _ in range(100)]
    yield "labels 4, 20 letters", triangle.line, [triangle.climb(20, chance) for _ in range(200)]
    yield "affine A 3, up to 40 letters", affine.line, [affine.climb(chance.randrange(41), chance) for _ in range(300)]


def sessions():
    """All sessions of `pol`: a name, and the script."""
    for name, line, words in itertools.chain(orders(), scattered()):
        yield name, line + "\n" + "".join(f"pol e {word}\n" for word in words)


# A name, the line that sets the group, W, and how many elements below it are asked for.
BELOW = [
    ("affine A 3", AFFINE_A3, "1234" * 10, 300),
    ("labels 4", TRIANGLE, "123" * 8, 300),
    ("B 6", "type B 6", "123456" * 6, 300),
    ("E 7", "type E 7", "1234567" * 4, 100),
]
COMMANDS = ["mu e {w}", "klbasis {w}", "extremals {w}", "betti {w}", "inorder {y} {w}"]


def commands(program):
    """All sessions of other commands: a name, the line that sets the group, W, and the lines that ask."""
    for name, line, top, count in BELOW:
        told = subprocess.run([program], input=f"{line}\ninterval e {top}\n".encode(), stdout=subprocess.PIPE, check=True).stdout
        below = told.decode().split("\n")[1:-1]
        words = random.Random(1).sample(below, count)
        for command in COMMANDS:
            asked = [command.format(y=y, w=w) for y, w in zip(words, words[1:] + words[:1])]
            yield f"{name}, {command.split()[0]}", line, top, "".join(f"{it}\n" for it in asked)


# A name, the line that sets the group, how many elements are asked for, and the two commands that are asked in turn.
PAIRS = [
    ("E 6", "type E 6", 200, "pol e {w}", "invpol e {w}"),
    ("D 5", "type D 5", 400, "pol e {w}", "invpol e {w}"),
    ("D 5", "type D 5", 12, "mu e {w}", "lcells"),
    ("B 4", "type B 4", 40, "mu e {w}", "lcells"),
    ("E 6", "type E 6", 60, "klbasis {w}", "betti {w}"),
    ("affine A 3", AFFINE_A3, 60, "klbasis {w}", "betti {w}"),
    ("D 5", "type D 5", 30, "cert {w}", "module {w}"),
    ("B 4", "type B 4", 60, "cert {w}", "module {w}"),
]
# An order is slow where it takes more than this many times the best order of the same lines.
SLOW = 1.2
ORDERS = ["in turn", "first before", "second before"]


def alternating(line, count, first, second):
    """The scripts of two commands for elements at random, in each of the orders."""
    group, chance = Group(line), random.Random(1)
    words = [group.climb(chance.randrange(1, 17), chance) for _ in range(count)]
    asked, also = ([f"{command.format(w=w)}\n" for w in words] for command in (first, second))
    in_turn = [it for pair in zip(asked, also) for it in pair]
    return ["".join([f"{line}\n", *lines]) for lines in (in_turn, asked + also, also + asked)]


def pairs():
    """All sessions that ask two commands: a name, and the script of each order."""
    for name, line, count, first, second in PAIRS:
        yield f"{name}, {first.split()[0]} and {second.split()[0]}", alternating(line, count, first, second)


def instructions(words, script):
    """How many million instructions a run takes, by callgrind."""
    tool = ["valgrind", "--tool=callgrind", "--callgrind-out-file=/dev/null"]
    ran = subprocess.run([*tool, *words], input=script.encode(), stdout=subprocess.DEVNULL, stderr=subprocess.PIPE)
    counted = re.search(rb"Collected : (\d+)", ran.stderr)
    if ran.returncode not in (0, 1) or not counted:
        sys.exit(f"callgrind counts nothing for {words[0]}: {ran.stderr.decode()[-400:]}")
    return int(counted[1]) / 1e6


def run(measure, words, script):
    """The seconds of processor time, those of the clock, and the peak of memory in MiB of a run, in which lines may be refused."""
    start = time.perf_counter()
    seconds, peak = cert.run(measure, words, script, (0, 1))
    return seconds, time.perf_counter() - start, peak


def compare(columns, script, name):
    """Ends where the columns differ in what they write."""
    texts = {subprocess.run(words, input=script.encode(), stdout=subprocess.PIPE).stdout for words in columns}
    if len(texts) > 1:
        sys.exit(f"not all programs answer the same: {name}")


def print_head(titles):
    """Prints the head of a table with these columns behind the first one."""
    print("| session | " + " | ".join(titles) + " |")
    print("|---|" + "---|" * len(titles))


def measure_sessions(measure, given, columns, reference):
    """Prints the table of the sessions of `pol`."""
    clock = bool(given.workers)
    counts = ["M instructions"] * given.instructions
    heads = ["s", *["clock"] * clock, "MiB", *counts]
    ratios = ["times", *["times by instructions"] * given.instructions]
    titles = [f"{head} {name}" for name in columns for head in heads + ratios * (name != reference)]
    print_head(titles)
    for name, script in sessions():
        if given.only in name:
            compare(columns.values(), script, name)
            found = dict(zip(columns, cert.in_turn(measure, [(words, script) for words in columns.values()], run, min)))
            counted = {it: instructions(words, script) for it, words in columns.items() if given.instructions}
            shown = []
            for column, (seconds, by_clock, peak) in found.items():
                shown += [f"{seconds:.3f}", *[f"{by_clock:.3f}"] * clock, f"{peak:.1f}"]
                shown += [f"{counted[column]:.1f}"] * given.instructions
                if column != reference:
                    shown += [f"{seconds / max(found[reference][0], 1e-3):.2f}"]
                    shown += [f"{counted[column] / counted[reference]:.2f}" for _ in counts]
            print(f"| {name} | " + " | ".join(shown) + " |", flush=True)


def measure_commands(measure, given, columns):
    """Prints the table of the other commands."""
    titles = [f"{head} {name}" for name in columns for head in ("s", "MiB", "s from the start", "MiB from the start", "times")]
    print_head(titles)
    for name, line, top, asked in commands(next(iter(columns.values()))[0]):
        if given.only in name:
            before = f"{line}\ncert {top}\n"
            scripts = [f"{line}\n{asked}", before + asked, before]
            compare(columns.values(), scripts[0], name)
            found = cert.in_turn(measure, [(words, script) for words in columns.values() for script in scripts], run, min)
            shown = []
            for (grown, _, peak), (there, _, other), (begun, _, _) in zip(found[::3], found[1::3], found[2::3]):
                least = max(there - begun, 1e-3)
                shown += [f"{grown:.3f}", f"{peak:.1f}", f"{least:.3f}", f"{other:.1f}", f"{grown / least:.2f}"]
            print(f"| {name} | " + " | ".join(shown) + " |", flush=True)


def measure_orders(measure, given, columns):
    """Prints the table of the sessions that ask two commands: each order's seconds, or millions of instructions, divided by the least of
    them."""
    unit = "M instructions" if given.instructions else "s"
    print_head([f"{head} {name}" for name in columns for head in (*[f"{unit} {it}" for it in ORDERS], "times the best", "slow")])
    for name, scripts in pairs():
        if given.only in name:
            for script in scripts:
                compare(columns.values(), script, name)
            shown = []
            for words in columns.values():
                if given.instructions:
                    found = [instructions(words, script) for script in scripts]
                else:
                    found = [seconds for seconds, *_ in cert.in_turn(measure, [(words, script) for script in scripts], run, min)]
                best = max(min(found), 1e-3)
                slow = [order for order, it in zip(ORDERS, found) if it > SLOW * best]
                shown += [*[f"{it:.3f}" for it in found], " ".join(f"{it / best:.2f}" for it in found), " and ".join(slow) or "none"]
            print(f"| {name} | " + " | ".join(shown) + " |", flush=True)


def main():
    """Writes the sessions, or prints a table."""
    parser = argparse.ArgumentParser(description=__doc__.splitlines()[0])
    parser.add_argument("--native")
    parser.add_argument("--workers", default="")
    parser.add_argument("--commands", action="store_true")
    parser.add_argument("--orders", action="store_true")
    parser.add_argument("--instructions", action="store_true")
    parser.add_argument("--only", default="")
    parser.add_argument("--write")
    parser.add_argument("programs", nargs="*")
    given = parser.parse_args()
    if given.write:
        os.makedirs(given.write, exist_ok=True)
        for name, script in sessions():
            with open(os.path.join(given.write, name.replace(",", "").replace(" ", "-")), "w", encoding="ascii") as file:
                file.write(script)
        return
    programs = [os.path.abspath(p) for p in given.programs] or [os.path.join(TOP, "crates", "coxeter", "out", "coxeter")]
    columns = {str(k + 1): [program] for k, program in enumerate(programs)}
    if given.workers:
        numbers = given.workers.split(",")
        columns = {f"{k}, workers {n}": [*words, "--workers", n] for k, words in columns.items() for n in numbers}
    with tempfile.TemporaryDirectory() as folder:
        measure = cert.built_measure(folder)
        if given.commands:
            measure_commands(measure, given, columns)
        elif given.orders:
            measure_orders(measure, given, columns)
        else:
            columns |= {"native": [os.path.abspath(given.native)]} if given.native else {}
            measure_sessions(measure, given, columns, "native" if given.native else next(iter(columns)))


if __name__ == "__main__":
    main()
