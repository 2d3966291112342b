#!/usr/bin/env python3
"""Refuses memory to the built program, one request after the other.

    checks/faults.py [PROGRAM]

Each script is run once for each request that it makes, with that request refused, and once more with all from that one on.
A request is for memory or for a thread (checks/refuse.c, which is built by cc). Each run has to end by status 5 with a
prefix of the whole answer, or with the whole answer and its usual status, and in both cases with nothing on standard error.
What is expected comes from the definitions (checks/definitions.py). It prints what differs, and a last line with counts;
the exit status is 1 where something differs. It needs Python 3, Linux and cc, takes some minutes, and is no part of the gate.
"""
import concurrent.futures
import os
import subprocess
import sys
import tempfile

from common import WORKERS, Count, program, refuse_library
from answers import example

DONE, REFUSED, BAD_USAGE, NO_MEMORY = 0, 1, 2, 5
USAGE = b"usage: coxeter [--workers N] [--context N] [--coef N] [--roots N]\n"

EVERY_COMMAND = """\
compute 1 | error 15
type A 3
compute 2312

length 2312
inverse 123
descent 213
inorder 13 123
interval 2 2132
coatoms 1232
betti 121321
rpol 2 12321
pol e 2132
invpol 2 2132
invpol e 121321
mu 2 2132
klbasis 2132
pol 4 x | error 16
extremals 12321
ihbetti 12321
lwgraph
rwgraph
lcells
rcells
lrcells
work 7 3
matrix 2 5 | error 14
matrix 3 3 2 4
compute 323232
klbasis 21321
foo | error 10
quit
compute 1
"""

LISTS = """\
type A 3
jobs
klbasis 2132
work 7 3
next
pol 4 x | error 16
lrcells
quit | error 10
next
rpol 2 12321
interval e 2132
end
length 21
jobs
next
pol e 2132
next
invpol e 121321
"""

# The name, the script, the arguments, and the usual status.
SCRIPTS = [
    ("an interval", "type A 3\ninterval e 121321\nbetti 121321\ncoatoms 121321\ncoatoms e\n", [], DONE),
    ("an interval with a member too many", "type A 3\ninterval e 121321 | error 31\n", ["--context", "23"], REFUSED),
    ("cells and work", "type A 4\nlrcells\nwork 7 20\n", [], DONE),
    ("every command", EVERY_COMMAND, [], REFUSED),
    ("cells of B 3", "type B 3\nlrcells\n", [], DONE),
    ("lists of jobs", LISTS, [], REFUSED),
]


class Runs:
    """Runs of a program with refused requests."""

    def __init__(self, built, folder):
        self.built, self.library = built, refuse_library(folder)

    def run(self, script, arguments, first=0, last=0):
        """The status, what was written to standard output and to standard error, and the number of requests."""
        read_end, write_end = os.pipe()
        variables = {"LD_PRELOAD": self.library, "REFUSE_COUNT": write_end, "REFUSE_FIRST": first, "REFUSE_LAST": last}
        environment = {name: str(value) for name, value in variables.items()}
        words = [self.built, *arguments]
        try:
            ran = subprocess.run(words, input=script, capture_output=True, env=environment, pass_fds=[write_end], timeout=60)
            ended = ran.returncode, ran.stdout, ran.stderr
        except subprocess.TimeoutExpired as late:
            ended = "none in 60 seconds", late.stdout or b"", late.stderr or b""
        os.close(write_end)
        with open(read_end, "rb") as report:
            return *ended, int(report.read() or 0)


def refusals(count, runs, what, script, arguments, usual, some=True):
    """Refuses each request of a script. Some run has to end by status 5, if nothing else is said."""
    ended = [runs.run(script, arguments) for _ in range(5)]
    for status, out, error, _ in ended:
        count.check(f"{what}, nothing refused", (status, out, error), usual)
    most = max(requests for *_, requests in ended)
    spans = [(first, last) for first in range(1, most + 1) for last in (first, sys.maxsize)]
    with concurrent.futures.ThreadPoolExecutor(max(1, os.cpu_count() // 2)) as pool:
        found = list(pool.map(lambda span: runs.run(script, arguments, *span)[:3], spans))
    ends = {"status 5": 0, "whole": 0}
    for (first, last), (status, out, error) in zip(spans, found):
        short = status == NO_MEMORY and usual[1].startswith(out) and not error
        ends["status 5"] += short
        ends["whole"] += (status, out, error) == usual
        count.check(f"{what}, refused {first} to {last}", usual if short else (status, out, error), usual)
    print(f"{what}: {most} requests; {ends['status 5']} runs end by status 5, {ends['whole']} with the whole answer", flush=True)
    if some:
        count.check(f"{what}: some run ends by status 5", ends["status 5"] > 0, True)


def main():
    count, built = Count(), program(sys.argv[1:])
    with tempfile.TemporaryDirectory() as folder:
        runs = Runs(built, folder)
        for workers in WORKERS:
            for name, text, arguments, status in SCRIPTS:
                script, answers = example(text)
                what = f"{name}, {' '.join(workers) or 'one thread'}"
                refusals(count, runs, what, script, workers + arguments, (status, answers, b""))
        refusals(count, runs, "wrong arguments", b"", ["--context", "0"], (BAD_USAGE, USAGE, b""))
    count.end("runs")


if __name__ == "__main__":
    main()
