#!/usr/bin/env python3
"""Tries wrong bodies that the check has to refuse, beside those that the gate tries.

    checks/wrong_bodies.py [NAME..]        of these crates, or of all that have some

They stand in checks/wrong_bodies/NAME, in the form of the edits in crates/NAME/must-fail, and most of them are of crates whose clauses say
what a definition gives, so that hardly any wrong body can pass. `rt must-fail` tries them in a copy of the checkout. It begins with what
`rt check` has kept of the crate and of those below it, and proves the rest first.

The exit status is that of `rt must-fail`: 0 when each is refused. It needs Python 3 and `rt`, and is no part of the gate.
"""
import argparse
import os
import shutil
import subprocess
import sys
import tempfile

from common import TOP

EDITS = os.path.join(TOP, "checks", "wrong_bodies")


def copy(folder, names):
    """Copies the crates into a folder, with these wrong bodies in the place of the gate's."""
    for it in ("crates.txt", "HANDLES"):
        shutil.copy2(os.path.join(TOP, it), folder)
    crates = os.path.join(folder, "crates")
    shutil.copytree(os.path.join(TOP, "crates"), crates, ignore=shutil.ignore_patterns("out", "must-fail"))
    for name in names:
        shutil.copytree(os.path.join(EDITS, name), os.path.join(crates, name, "must-fail"))


def main():
    known = sorted(os.listdir(EDITS))
    parser = argparse.ArgumentParser(description=__doc__, formatter_class=argparse.RawDescriptionHelpFormatter)
    parser.add_argument("names", metavar="NAME", nargs="*", help="a crate")
    names = parser.parse_args().names or known
    for name in names:
        if name not in known:
            sys.exit(f"there are no wrong bodies of {name} here, but of these: {' '.join(known)}")
    with tempfile.TemporaryDirectory() as folder:
        copy(folder, names)
        return subprocess.run(["rt", "must-fail", *names], cwd=folder).returncode


if __name__ == "__main__":
    sys.exit(main())
