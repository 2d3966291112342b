#!/usr/bin/env python3
"""Compares docs/PROOFS.md with the proof files: nothing is to be missing, and nothing to be named that is not there.

    checks/proofs.py
    checks/proofs.py --files CRATE ..
    checks/proofs.py --specs CRATE ..

In the section of each crate the table has each law of src/laws.rt, with the lemmas that its Answers.antt takes from the
proof files of the crate. Each file of lemmas begins with a comment that says what it has. It prints what is wrong, and a
last line with counts; the exit status is 1 where something is wrong.

With --files it prints the files of lemmas of these crates in an order in which a file needs only those above it, each
with what it says of itself; with --specs the files of definitions. It needs Python 3 alone.
"""
import os
import re
import sys
import textwrap

from common import TOP

DOCUMENT = os.path.join(TOP, "docs", "PROOFS.md")
USE = re.compile(r"^(?:pub )?use Rattle\.(\w+)\.proofs\.([\w.]+?)(?:\.\{([^}]*)\}| as \w+)$", re.M)


def read(path):
    with open(path, encoding="utf-8") as text:
        return text.read()


def uses(path):
    """What a proof file takes from proof files: the crate, the file and the names."""
    for crate, file, names in USE.findall(read(path)):
        yield crate, file, [name.split(" as ")[0].strip() for name in names.split(",") if name.strip()]


def said(path):
    """What a proof file says of itself: the comment that it begins with."""
    lines = []
    for line in read(path).splitlines():
        if not line.startswith("--"):
            break
        lines.append(line[2:].strip())
    return " ".join(" ".join(lines).split())


def files_of(crate):
    """The files of lemmas of a crate, and the path of each."""
    folder = os.path.join(TOP, "crates", crate, "proofs")
    names = os.listdir(folder) if os.path.isdir(folder) else []
    return {it[:-5]: os.path.join(folder, it) for it in sorted(names) if it.endswith(".antt") and it != "Lib.antt"}


def in_order(crate):
    """The files of lemmas of a crate, each behind those of the crate that it uses; else by name."""
    files, ordered = files_of(crate), []

    def add(name, above):
        if name in above:
            raise ValueError(f"{crate}: {name} uses itself, by {' '.join(above)}")
        if name in files and name not in ordered:
            for other in sorted({file for used, file, _ in uses(files[name]) if used == crate}):
                add(other, [*above, name])
            ordered.append(name)

    for name in files:
        add(name, [])
    return ordered


def show_files(crate):
    """Prints what each file of lemmas of a crate says of itself."""
    print(f"{crate}:")
    for name in in_order(crate):
        print(textwrap.fill(f"- {name}: {said(files_of(crate)[name])}", 100, subsequent_indent="  ", break_on_hyphens=False))


def show_specs(crate):
    """Prints what each file of definitions of a crate says of itself."""
    print(f"{crate}:")
    folder = os.path.join(TOP, "crates", crate, "specs")
    for name in sorted(os.listdir(folder)) if os.path.isdir(folder) else []:
        if name.endswith(".antt") and name != "Lib.antt":
            text = f"- {name[:-5]}: {said(os.path.join(folder, name))}"
            print(textwrap.fill(text, 100, subsequent_indent="  ", break_on_hyphens=False))


class Problems:
    def __init__(self):
        self.laws = self.files = self.count = 0

    def say(self, text):
        self.count += 1
        print(text)


def check_laws(problems, crate, section):
    """Each law has a row, which names its lemmas and their files."""
    rows = {}
    for cells in re.findall(r"^\|(.*)\|(.*)\|.*\|$", section, re.M):
        for law in re.findall(r"`(\w+)`", cells[0]):
            rows[law] = set(re.findall(r"`([^`]+)`", cells[1]))
    laws = os.path.join(TOP, "crates", crate, "src", "laws.rt")
    names = re.findall(r"^pub fn (\w+)", read(laws), re.M) if os.path.exists(laws) else []
    for law in set(rows) - set(names):
        problems.say(f"{crate}: there is no law {law}")
    for law in names:
        problems.laws += 1
        answers = os.path.join(TOP, "crates", crate, "proofs", "laws", law, "Answers.antt")
        wanted = set()
        for other, file, lemmas in uses(answers) if os.path.exists(answers) else []:
            if other == crate and not file.startswith("laws."):
                wanted |= {file, *lemmas}
        if law not in rows:
            problems.say(f"{crate}: the law {law} has no row; it is proved by {' '.join(sorted(wanted))}")
        elif not wanted <= rows[law]:
            problems.say(f"{crate}: the row of {law} does not name {' '.join(sorted(wanted - rows[law]))}")


def check_files(problems, crate):
    """Each file of lemmas says what it has."""
    for name, path in files_of(crate).items():
        problems.files += 1
        if not said(path):
            problems.say(f"{crate}: {name} begins with no comment")


SECTION = re.compile(r"^## `(\w+)`\n(.*?)(?=^## |\Z)", re.M | re.S)


def main():
    crates = sorted(os.listdir(os.path.join(TOP, "crates")))
    show = {"--files": show_files, "--specs": show_specs}.get(sys.argv[1] if sys.argv[1:] else "")
    if show and sys.argv[2:] and set(sys.argv[2:]) <= set(crates):
        for crate in sys.argv[2:]:
            show(crate)
        return
    if sys.argv[1:]:
        print(__doc__.strip())
        sys.exit(0 if sys.argv[1:] in (["-h"], ["--help"]) else 2)
    problems = Problems()
    sections = dict(SECTION.findall(read(DOCUMENT)))
    for name in set(sections) - set(crates):
        problems.say(f"there is no crate {name}")
    for crate in crates:
        if files_of(crate) and os.path.exists(os.path.join(TOP, "crates", crate, "src", "laws.rt")) and crate not in sections:
            problems.say(f"{crate} has laws, and no section")
        if crate in sections:
            check_laws(problems, crate, sections[crate])
        check_files(problems, crate)
    print(f"{problems.laws} laws, {problems.files} files, {problems.count} problems")
    sys.exit(1 if problems.count else 0)


main()
