#!/usr/bin/env python3
"""Runs scripts over and over with 1 to 16 workers: the bytes and the status are the same each time.

    checks/workers.py [--times N] [PROGRAM]

Each script is run N times, 100 if nothing is said, with each number of workers; those of larger groups a tenth as often. Threads
are started for much work alone, so it takes those to have several workers make rows. What has to come out is what the program
writes with no option, which one thread answers. Of some scripts the threads are counted that are started (checks/refuse.c, which
is built by cc): none by one worker, and by others no more than they may share the work among. And what `crates/workers_stress` has
to print of the rows of A 4 is counted by their definitions. It prints what differs, and a last line with counts; the exit status is
1 where something differs. It needs Python 3, Linux and cc, takes some minutes, and is no part of the gate.
"""
import argparse
import os
import subprocess
import tempfile

from common import TOP, Count, program, refuse_library, reported
from definitions import finite_group, labels_of

# Whole groups, whose rows several workers share; single rows, dealt out as chains; rows that are kept from line to line; refusals; and
# lists of jobs, whose blocks are answered at once.
SCRIPTS = [
    "type A 4\nlrcells\nwork 7 20\n",
    "type B 3\nklbasis 123212\nlcells\npol e 321323\ninvpol 2 321323\nrwgraph\nextremals 12321\n",
    "matrix 3 3 3 3\nklbasis 123123123\nmu 1 123123\ninvpol e 12312312\nihbetti 321321321\nlcells\n"
    "type D 4\ninvpol e 123412341234\nlrcells\npol 3 3431234\n",
    "type A 4\njobs\nlrcells\nnext\nklbasis 2132\npol e 12321\nnext\nwork 7 20\ninterval e 1234\nnext\ninvpol e 12321\ncert 2132\nmodule 2\n"
    "next\nfoo\nquit\nrpol 2 12321\nend\nmu 2 2132\njobs\nklbasis 123412\nnext\nlcells\nnext\nihbetti 4321\n",
]

# Whole groups of more than 1,024 elements, single rows that cost more than one thread begins, and a list of jobs that asks for them.
LARGER = [
    "type D 5\nlrcells\nmodule 2\ninvpol 2 13243213214321\nklbasis 35\n",
    "type A 6\nextremals 121321432154321\nmu e 654321\nlcells\n",
    "type D 6\npol e 64534231264534231265432\npol 3 12345643215432612345\nihbetti 6453423126453423\n",
    "type E 6\njobs\npol e 6543124543126543124543\nnext\npol 2 1345624531324565431243542\nnext\nextremals 243154234565431\nend\n",
]

# How many threads so many workers start beside the one that there is. Few rows, and short lines, are left to that one. Rows of many members
# are shared once, and are kept then; blocks of a list are shared after their rows are made, and each is answered by one thread.
THREADS = [
    ("type A 4\nlrcells\nklbasis 12321\nlrcells\n", lambda workers: 0),
    ("type D 5\nlrcells\nlcells\nklbasis 12321\n", lambda workers: workers - 1),
    ("type A 4\njobs\npol 2 2132\nnext\nmu 2 2132\nend\n", lambda workers: 0),
    ("type A 4\njobs\nlrcells\nend\n", lambda workers: 0),
    ("type A 4\njobs\nlrcells\nnext\nlwgraph\nnext\nlcells\nend\n", lambda workers: min(workers, 3) - 1),
    ("type D 5\njobs\nlrcells\nnext\nlwgraph\nnext\nlcells\nend\n", lambda workers: workers - 1 + min(workers, 3) - 1),
]

# A single row is made by all workers, from those that it needs. For each of these that is dear, and for itself, all threads that may share
# its polynomials are started once more. That was 26 times in all by 2, 3 and 4 workers; which worker makes which row is left to chance.
MOST_ROUNDS = 40
ONE_ROW = "type E 6\npol e 12314231435423143542654231435426543\n"


def counts(group, rows):
    """How many rows these are, and how many polynomials, each once in a row, and values of mu they have."""
    polynomials = sum(len(set(group.row(w).values())) for w in rows)
    mus = sum(1 for w in rows for x in group.below[w] if group.mu(x, w))
    return f"{len(rows)} rows, {polynomials} polynomials, {mus} values of mu"


def stress(count):
    """Compares the first lines that `crates/workers_stress` has to print, of all rows and of what the last one needs, each by 1, 2, 4
    and 16 workers."""
    group = finite_group(4, labels_of("A", 4))
    want = [counts(group, range(group.size))] * 4 + ["of the last one " + counts(group, group.needed(group.size - 1))] * 4
    with open(os.path.join(TOP, "crates", "workers_stress", "stdout"), encoding="utf-8") as lines:
        count.check("crates/workers_stress/stdout", lines.read().splitlines()[: len(want)], want)


def threads(count, built):
    """Compares how many threads are started with what the workers may share."""
    with tempfile.TemporaryDirectory() as folder:
        library = refuse_library(folder)

        def started(script, workers):
            ran, number = reported(library, "REFUSE_THREADS", [built, "--workers", str(workers)], script.encode())
            count.check(f"{script!r} with {workers} workers: how it ends", ran.returncode, 0)
            return number

        for workers in (1, 2, 3, 4, 16):
            for script, wanted in THREADS:
                count.check(f"threads of {script!r} with {workers} workers", started(script, workers), wanted(workers))
        count.check("threads of one row with 1 worker", started(ONE_ROW, 1), 0)
        for workers in (2, 4):
            rounds, rest = divmod(started(ONE_ROW, workers), workers - 1)
            count.check(f"threads of one row with {workers} workers: {rounds} rounds", (1 < rounds < MOST_ROUNDS, rest), (True, 0))


def main():
    """Runs all of them."""
    parser = argparse.ArgumentParser(description=__doc__, formatter_class=argparse.RawDescriptionHelpFormatter)
    parser.add_argument("--times", type=int, default=100)
    parser.add_argument("program", nargs="*")
    given = parser.parse_args()
    built = program(given.program)
    count = Count()
    stress(count)
    threads(count, built)

    def answer(script, *words):
        ran = subprocess.run([built, *words], input=script.encode(), stdout=subprocess.PIPE)
        return ran.returncode, ran.stdout

    often = [(script, given.times) for script in SCRIPTS]
    seldom = [(script, max(given.times // 10, 1)) for script in LARGER]
    for script, times in often + seldom:
        want = answer(script)
        for workers in range(1, 17):
            for _ in range(times):
                count.check(f"{script!r} with {workers} workers", answer(script, "--workers", str(workers)), want)
    count.end("runs")


if __name__ == "__main__":
    main()
