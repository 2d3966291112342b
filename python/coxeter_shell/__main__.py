"""The package from the command line: python -m coxeter_shell is a prompt, and there are pictures:
python -m coxeter_shell hasse "A 3" 2132 --out h.svg"""
import argparse
import os
import sys

from . import pictures, prompt, version
from .base import CELLS
from .errors import CoxeterError
from .group import SIDES, CoxeterGroup
from .program import OPTIONS, find_program
from .provenance import provenance


class Version(argparse.Action):
    """Says the version, which is worked out for this alone."""

    def __init__(self, option_strings, dest, help=None):
        super().__init__(option_strings, dest, nargs=0, help=help)

    def __call__(self, parser, *_):
        print("coxeter_shell", version.version())
        parser.exit()


def arguments():
    description = "Without a KIND, a prompt over the program coxeter. Else pictures of Coxeter groups, as DOT, SVG or PNG."
    parser = argparse.ArgumentParser(prog="coxeter_shell", description=description)
    common = argparse.ArgumentParser(add_help=False)
    common.add_argument("group", help='the group: "A 3", or "matrix 3 3 2 4"')
    common.add_argument("--out", help="the file: .dot, .gv, .svg, or .png by graphviz; else DOT to standard output")
    parser.add_argument("--version", action=Version, help="the version of the package")
    # Both take these, and what stands behind the KIND doesn't wipe out what stands before it.
    for taker, default in ((parser, None), (common, argparse.SUPPRESS)):
        taker.add_argument("--program", default=default, help="the path of the program coxeter")
        for option in OPTIONS:
            taker.add_argument(f"--{option}", type=int, default=default, help="an option of the program")
    kinds = parser.add_subparsers(dest="kind", metavar="KIND")
    hasse = kinds.add_parser("hasse", parents=[common], help="the Hasse diagram of an interval in Bruhat order")
    hasse.add_argument("words", nargs="+", metavar="word", help="the greatest element, or the least and the greatest")
    graph = kinds.add_parser("wgraph", parents=[common], help="the W-graph of a finite group")
    graph.add_argument("--side", choices=SIDES, default="left")
    cells = kinds.add_parser("cells", parents=[common], help="the cells of a finite group")
    cells.add_argument("--side", choices=list(CELLS), default="left")
    origin = kinds.add_parser("provenance", help="where the program comes from: its checksum, its release, its logic; the status is 0 if it is one of a release")
    origin.add_argument("--program", default=argparse.SUPPRESS, help="the path of the program coxeter, or of coxcheck")
    given = parser.parse_args()
    if given.kind == "hasse" and len(given.words) > 2:
        hasse.error("give one word or two")
    return given


def say_provenance(path):
    """Says where a program comes from. A file of this name is it, whether it may be run or not. Gives the exit status: 0 if it is one of a
    release, else 1."""
    found = provenance(path if path and os.path.exists(path) else find_program(path))
    print(found)
    return int(found.release is None)


def main():
    given = arguments()
    if given.kind == "provenance":
        try:
            sys.exit(say_provenance(getattr(given, "program", None)))
        except CoxeterError as error:
            sys.exit(f"coxeter_shell: {error}")
    options = {name: getattr(given, name) for name in OPTIONS}
    try:
        if given.kind is None:
            sys.exit(prompt.main(given.program, **options))
        with CoxeterGroup(given.group, program=given.program, **options) as group:
            drawn = None
            if given.kind == "hasse":
                drawn = group.hasse_diagram(given.words[0] if given.words[1:] else (), given.words[-1])
            elif given.kind == "wgraph":
                drawn = group.W_graph(given.side)
            text = drawn.dot() if drawn is not None else pictures.cells(group, given.side)
        if given.out is None:
            sys.stdout.write(text)
        else:
            pictures.save(text, given.out, drawn)
    except (CoxeterError, ValueError, OSError) as error:
        sys.exit(f"coxeter_shell: {error}")


if __name__ == "__main__":
    main()
