#!/usr/bin/env python3
"""How long the Python package takes for long answers, and how much memory, beside the program alone.

    bench/python.py [--before FOLDER] [--runs N] [--only NAME] [PROGRAM]
                        the program of this repository, if none is named

Each row is a question that has a long answer, or many short ones, asked in a process of its own:

- `W-graph of E 6`, `W-graph of D 6`: `W_graph()`, whose edges are not asked for,
- `edges of E 6`: `W_graph().edges()`, all of them,
- `cell order of E 6`: `cell_order("two-sided")`,
- `mu of D 6`, `mu of S 8`: `mu_table()`,
- `all P of D 5`: `kazhdan_lusztig_table()`,
- `cosets of E 8`: the 2,160 shortest representatives of the cosets of D 7, by `coset_representatives`,
- `lengths of D 6, singly`, `lengths of D 6, map`: the lengths of its 23,040 elements, by `length` of each, and by `map`,
- `pairs of S 6`: the 98,407 pairs of the rows of all elements, by `iter_kazhdan_lusztig_basis`.

With --before the package in another folder, say the `python` of another checkout, runs in turn with that of this one. Each figure is the least of
all runs: `seconds` of the clock, `Python` the processor time of the Python process alone, without that of the program, and `MB` the most memory
that the Python process had. `program` is the time of the clock of the program alone for the same lines, and `processor` its processor time; its
answer is dropped. On a machine that is busy, the processor times tell more.
"""
import argparse
import json
import os
import resource
import subprocess
import sys
import time

from intervals import TOP

NAMES = {
    "W-graph of E 6": (("E", 6), "W_graph()", ["lwgraph"]),
    "edges of E 6": (("E", 6), "W_graph().edges()", ["lwgraph"]),
    "W-graph of D 6": (("D", 6), "W_graph()", ["lwgraph"]),
    "cell order of E 6": (("E", 6), 'cell_order("two-sided")', ["lrcells", "lwgraph"]),
    "mu of D 6": (("D", 6), "mu_table()", ["lwgraph"]),
    "mu of S 8": (("A", 7), "mu_table()", ["lwgraph"]),
    "all P of D 5": (("D", 5), "kazhdan_lusztig_table()", None),
    "cosets of E 8": (("E", 8), "coset_representatives([2, 3, 4, 5, 6, 7, 8])", None),
    "lengths of D 6, singly": (("D", 6), "length(w) for w in elements", "length"),
    "lengths of D 6, map": (("D", 6), 'map("length", elements)', "length"),
    "pairs of S 6": (("A", 5), "iter_kazhdan_lusztig_basis(w) for w in elements", "klbasis"),
}


def child(name, folder, program):
    """Asks a question, and prints what it took."""
    sys.path.insert(0, folder)
    import coxeter_shell

    kind, call, _ = NAMES[name]
    with coxeter_shell.CoxeterGroup(*kind, program=program) as W:
        names = {"W": W, "elements": list(W.elements()) if "elements" in call else None}
        W.length("e")
        begun, used = time.monotonic(), time.process_time()
        found = eval(f"(W.{call})", names)
        size = len(found) if hasattr(found, "__len__") else sum(map(counted, found))
        took = time.monotonic() - begun, time.process_time() - used
    print(json.dumps([*took, resource.getrusage(resource.RUSAGE_SELF).ru_maxrss / 1024, size]))


def counted(item):
    """How many things an item is: those of an iterator, which is read to its end, and else one."""
    return sum(1 for _ in item) if hasattr(item, "__next__") else 1


def alone(name, program):
    """How long the program alone takes for the same lines, by the clock and in processor time; None where the package asks what it has worked
    out of answers. A command of one word is asked for each element."""
    (letter, rank), _, lines = NAMES[name]
    if lines is None:
        return None
    if isinstance(lines, str):
        asked = subprocess.run([program], input=f"type {letter} {rank}\nlwgraph\n".encode(), stdout=subprocess.PIPE, check=True)
        lines = [f"{lines} {it.split()[0]}" for it in asked.stdout.decode("ascii").splitlines()[1:]]
    script = "\n".join([f"type {letter} {rank}", *lines, ""])
    begun, used = time.monotonic(), of_children()
    subprocess.run([program], input=script.encode(), stdout=subprocess.DEVNULL, check=True)
    return time.monotonic() - begun, of_children() - used


def of_children():
    """The processor time of the processes that this one has waited for."""
    used = resource.getrusage(resource.RUSAGE_CHILDREN)
    return used.ru_utime + used.ru_stime


def main():
    parser = argparse.ArgumentParser(description=__doc__, formatter_class=argparse.RawDescriptionHelpFormatter)
    parser.add_argument("program", nargs="?", default=os.path.join(TOP, "crates", "coxeter", "out", "coxeter"))
    parser.add_argument("--before")
    parser.add_argument("--runs", type=int, default=3)
    parser.add_argument("--only")
    parser.add_argument("--child", nargs=2, help=argparse.SUPPRESS)
    given = parser.parse_args()
    program = os.path.abspath(given.program)
    if given.child:
        child(*given.child, program)
        return
    folders = {"now": os.path.join(TOP, "python")}
    if given.before:
        folders = {"before": os.path.abspath(given.before), **folders}
    head = "".join(f"{f'{it} seconds':>17}{'Python':>9}{'MB':>7}" for it in folders)
    print(f"{'':23}{head}{'program':>9}{'processor':>11}")
    for name in NAMES:
        if given.only not in (None, name):
            continue
        found, sizes, least = {it: [] for it in folders}, set(), []
        for _ in range(given.runs):
            for it, folder in folders.items():
                words = [sys.executable, __file__, program, "--child", name, folder]
                *took, size = json.loads(subprocess.run(words, stdout=subprocess.PIPE, check=True).stdout)
                found[it].append(took)
                sizes.add(size)
            least.append(alone(name, program))
        if len(sizes) != 1:
            sys.exit(f"{name}: the answers differ: {sizes}")
        row = ""
        for it in folders:
            seconds, used, memory = map(min, zip(*found[it]))
            row += f"{seconds:17.2f}{used:9.2f}{memory:7.0f}"
        if least[0] is not None:
            row += "{:9.2f}{:11.2f}".format(*map(min, zip(*least)))
        print(f"{name:23}{row}", flush=True)


main()
