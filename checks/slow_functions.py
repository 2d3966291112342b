#!/usr/bin/env python3
"""Lists the functions that take longest to prove, by the times at which a check has written its files.

    checks/slow_functions.py [--seconds N] [CRATES] [NAME..]

CRATES is the folder of the crates, this checkout's if it is not given; each NAME is a crate, and with none it is all of them. A crate is
listed once `rt check --jobs 1` or `rt lib --jobs 1` has proved it from nothing. Such a check goes through one module after the other and
writes a file of out/incremental at the end of each, so the time between two files is the second one's. With more jobs at once the times
say nothing of one function, and of a crate that was checked again what was kept has its old time: the pause between two checks then counts
too, up to ten minutes. A check beside other work takes longer than alone.

There is a line for each function that took at least N seconds, ten if it is not given: the seconds, the crate, the file and line of the
function, and its name. Closures count with the function that they stand in, and functions that call one another with the one that their
proof is named after. The last line has the sums of all. It needs Python 3 alone, and is no part of
the gate; the exit status is 1 where there is no such crate.
"""
import argparse
import collections
import glob
import os
import re
import sys

from common import TOP

# The longest time between two files that is taken for work.
MOST = 600
GLUE = "Destruct++none"


def written(crate):
    """The files that the check of a crate has kept, in the order of their times: each time and module."""
    # `records` and `long` have second files of the same modules, by their own names or by checksums.
    paths = glob.glob(f"{glob.escape(crate)}/out/incremental/*/*.oantt")
    name = os.path.basename(crate)
    for time, path in sorted((os.stat(it).st_mtime, it) for it in paths):
        yield time, os.path.basename(path)[: -len(".oantt")].removeprefix(f"Rattle-{name}-")


def function_of(module, functions):
    """The function that a module is about, of these: None where it is about none."""
    parts = re.sub(r"^(specs\.contracts|proofs)\.", "", module).split(".")
    # The proof of a cycle of calls is named after one of its functions, with a plus before it.
    parts = [re.sub(r"^\+(\w+).*", r"\1", it) for it in parts]
    if "fn" in parts:
        place = parts.index("fn")
        parts = parts[:place] + parts[place + 1 : place + 2]
    names = (".".join(parts[:count]) for count in range(len(parts), 0, -1))
    return next((it for it in names if it in functions), None)


def seconds_of(crate):
    """How many seconds the check of a crate took for each function, and for each kind of all else."""
    files = list(written(crate))
    functions = {it[len("proofs.") : -len(".Symbol")] for _, it in files if re.match(r"proofs\..*\.Symbol$", it)}
    functions = {it for it in functions if ".fn." not in it} | {re.sub(r"fn\.(\w+).*", r"\1", it) for it in functions if ".fn." in it}
    spent, others = collections.Counter(), collections.Counter()
    for (before, _), (time, module) in zip(files, files[1:]):
        seconds = time - before if time - before < MOST else 0
        function = function_of(module, functions)
        if GLUE in module:
            others["drop glue"] += seconds
        elif function is not None:
            spent[function] += seconds
        else:
            others["lemmas" if module.startswith("proofs.") else "loading and contracts"] += seconds
    return spent, others


def place_of(crate, function):
    """Where a function stands in the sources of a crate, by file and line, and its name there with its type. What a derive has written
    stands nowhere, so that has no place."""
    parts = function.split(".")
    sources = os.path.join(crate, "src")
    for count in range(len(parts) - 1, -1, -1):
        for file in [f"{'/'.join(parts[:count])}.rt"] if count else ["lib.rt", "main.rt"]:
            path = os.path.join(sources, file)
            if os.path.isfile(path):
                with open(path, encoding="utf-8") as source:
                    lines = [number for number, line in enumerate(source, 1) if re.search(rf"\bfn {re.escape(parts[-1])}\b", line)]
                if lines:
                    return f"{file}:{lines[0]}", "::".join(parts[count:])
    return "", "::".join(parts)


def main():
    parser = argparse.ArgumentParser(description=__doc__, formatter_class=argparse.RawDescriptionHelpFormatter)
    parser.add_argument("--seconds", type=float, default=10)
    parser.add_argument("words", nargs="*")
    given = parser.parse_args()
    has_folder = bool(given.words) and "/" in given.words[0]
    crates = given.words[0] if has_folder else os.path.join(TOP, "crates")
    rows, sums, count = [], collections.Counter(), 0
    for name in given.words[has_folder:] or sorted(os.listdir(crates)):
        crate = os.path.join(crates, name)
        if not os.path.isdir(os.path.join(crate, "src")):
            sys.exit(f"there is no crate {crate}")
        spent, others = seconds_of(crate)
        count += bool(spent or others)
        rows += [(seconds, name, *place_of(crate, it)) for it, seconds in spent.items() if seconds >= given.seconds]
        sums += others
        sums["functions"] += sum(spent.values())
    for seconds, name, place, function in sorted(rows, reverse=True):
        print(f"{seconds:6.1f}  {name:18}  {place:32}  {function}")
    kinds = ", ".join(f"{kind} {seconds:.0f}" for kind, seconds in sums.most_common())
    print(f"{count} crates, seconds: {kinds}; the {len(rows)} functions listed {sum(it[0] for it in rows):.0f}")


main()
