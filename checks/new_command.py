#!/usr/bin/env python3
"""In how many files a command stands: adds a command `foo w`, which answers what `extremals w`
does, and counts the files that are changed.

    checks/new_command.py                   compares the files with the list in docs/DEVELOPING.md
    checks/new_command.py --patch           prints the patch
    checks/new_command.py --prove FOLDER    tries it in a copy of FOLDER, a proved checkout

With --prove only the new variant is there at first. Each crate is checked, lowest first; where the
check fails, those of the other files that it names get their part of the patch, and it is checked
again. So at the end it is known which files somebody names to who adds a command, and which nobody
does. Then these get their part too, all is checked once more, and `foo` has to answer. That takes
some ten minutes on a machine that does little else; --jobs says with how many jobs a check runs,
else 2.

It prints what is wrong, and a last line with counts; the exit status is 1 where something is wrong.
It needs Python 3, and with --prove the toolchain; it is no part of the gate.
"""
import argparse
import difflib
import os
import re
import shutil
import subprocess
import sys
import tempfile

from common import TOP, Count

# The command that `foo` is a twin of, and its name in the code.
TWIN, NAME = "extremals", "Extremals"
FIRST = "cox_command/src/inquiry.rt"
# The crates that are checked, lowest first, and the one whose program answers.
CRATES, PROGRAM = ["cox_command", "cox_replies", "cox_answers", "cox_shell", "cox_laws"], "coxeter"
SCRIPT = "type A 3\nfoo 2132\nextremals 2132\n"


def read(path):
    with open(path, encoding="utf-8") as text:
        return text.read()


def with_foo(text):
    """A file with a case of `foo` behind each one of its twin; None where it has none."""
    lines, out, at = text.split("\n"), [], 0
    # Its variant, its word, and its clause of a law with the proof of that.
    word = re.compile(rf'\b{NAME}\b|"{TWIN}"|\bensures {TWIN} |-clause-{TWIN}\b')
    while at < len(lines):
        line = lines[at]
        at += 1
        if not word.search(line) or line.lstrip().startswith(("//", "--")):
            out.append(line)
        elif re.match(r"\s*(ghost |pub )?use ", line):
            out.append(re.sub(rf"\b{NAME}\b", f"{NAME}, Foo", line))
        elif re.search(rf"∷ [^∷]*\b{NAME}\b", line):
            # An element of a list.
            out.append(re.sub(rf"(∷ [^∷]*?)\b{NAME}\b([^∷]*?)(?= ∷|$)", rf"\1{NAME}\2 \1Foo\2", line))
        elif re.search(rf"\w+::{NAME} \|", line):
            out.append(re.sub(rf"(\w+)::{NAME} \|", rf"\1::{NAME} | \1::Foo |", line))
        elif re.fullmatch(rf"\s*{NAME},", line):
            indent = line[: len(line) - len(line.lstrip())]
            out += [line, f"{indent}/// The same, under another name.", f"{indent}Foo,"]
        else:
            block = [line]
            indent = len(line) - len(line.lstrip())
            while at < len(lines) and lines[at].strip() and (
                word.search(lines[at]) or len(lines[at]) - len(lines[at].lstrip()) > indent
            ):
                block.append(lines[at])
                at += 1
            twins = [re.sub(rf"\b{NAME}\b", "Foo", it) for it in block]
            out += block + [word.sub(lambda it: it[0].replace(TWIN, "foo"), it) for it in twins]
    return None if out == lines else "\n".join(out)


def parts(top):
    """The files of the crates in which the command stands, by their paths in crates/, each with its
    new text; tests are left out."""
    found = {}
    for crate in CRATES:
        for folder in ("src", "specs", "proofs"):
            for root, _, names in os.walk(os.path.join(top, "crates", crate, folder)):
                for name in names:
                    path = os.path.join(root, name)
                    if name.endswith((".rt", ".antt")) and not name.startswith("tests"):
                        new = with_foo(read(path))
                        if new is not None:
                            found[os.path.relpath(path, os.path.join(top, "crates"))] = new
    return dict(sorted(found.items(), key=lambda it: (CRATES.index(it[0].split("/")[0]), it[0])))


def listed():
    """The files that docs/DEVELOPING.md lists."""
    text = read(os.path.join(TOP, "docs", "DEVELOPING.md"))
    found = re.search(r"^## A new command\n(.*?)(?=^## )", text, re.M | re.S)
    return re.findall(r"^\| `(cox_[^`]+)` \|", found.group(1), re.M) if found else []


class Room:
    """A copy of a checkout, in which crates can be checked."""

    def __init__(self, folder, source, jobs):
        self.top, self.jobs, self.checks = folder, jobs, 0
        for name in ("crates.txt", "HANDLES"):
            shutil.copy2(os.path.join(source, name), folder)
        # What is checked is written to, so it is a copy; of the others there are links to their
        # sources and to their proved libraries.
        for crate in sorted(os.listdir(os.path.join(source, "crates"))):
            old, new = os.path.join(source, "crates", crate), os.path.join(folder, "crates", crate)
            if crate in [*CRATES, PROGRAM]:
                subprocess.run(["cp", "-Rp", old, new], check=True)
                continue
            os.makedirs(os.path.join(new, "out"))
            for part in ("src", "specs", "proofs", "out/rlib"):
                if os.path.isdir(os.path.join(old, part)):
                    words = ["cp", "-Rpl", os.path.join(old, part), os.path.join(new, part)]
                    subprocess.run(words, check=True)

    def put(self, path, text):
        with open(os.path.join(self.top, "crates", path), "w", encoding="utf-8") as file:
            file.write(text)

    def check(self, crate):
        """Whether the crate is proved, and what the check says."""
        self.checks += 1
        words = ["nice", "rt", "check", "--jobs", str(self.jobs)]
        ran = subprocess.run(
            words, cwd=os.path.join(self.top, "crates", crate), capture_output=True, text=True,
        )
        return ran.returncode == 0, ran.stdout + ran.stderr


def prove(count, source, jobs):
    """Adds the command part by part, as the checks name the files."""
    with tempfile.TemporaryDirectory() as folder:
        os.mkdir(os.path.join(folder, "crates"))
        room, left = Room(folder, os.path.abspath(source), jobs), parts(source)
        room.put(FIRST, left.pop(FIRST))
        named = [FIRST]
        for crate in CRATES:
            proved, said = room.check(crate)
            while not proved:
                # By the path in its crate, or as a function's folder of proofs is named.
                told = [path for path in left if path.split("/", 1)[1] in said]
                told = told or [
                    path for path in left if path.startswith(crate + "/") and "/proofs/" in path
                ]
                if not told:
                    print(f"{crate}: the check names none of {' '.join(left)}:\n{said[-2000:]}")
                    break
                for path in told:
                    print(f"{crate}: the check names {path}", flush=True)
                    room.put(path, left.pop(path))
                named += told
                proved, said = room.check(crate)
        for path, text in left.items():
            print(f"nobody names {path}", flush=True)
            room.put(path, text)
        for crate in CRATES:
            proved, said = room.check(crate)
            count.check(f"{crate} with `foo`", proved or said[-1500:], True)
        ran = subprocess.run(
            ["rt", "try"],
            cwd=os.path.join(folder, "crates", PROGRAM),
            input=SCRIPT,
            capture_output=True,
            text=True,
        )
        lines = ran.stdout.splitlines()
        count.check(
            "what `foo` answers",
            len(lines) > 2 and lines[: len(lines) // 2] == lines[len(lines) // 2 :],
            True,
        )
        print(
            f"{len(named)} files are named by the checks, {len(left)} by none; {room.checks} checks"
        )


def main():
    words = argparse.ArgumentParser(
        description=__doc__, formatter_class=argparse.RawDescriptionHelpFormatter,
    )
    words.add_argument("--patch", action="store_true")
    words.add_argument("--prove", metavar="FOLDER")
    words.add_argument("--jobs", type=int, default=2)
    words = words.parse_args()
    count, found = Count(), parts(TOP)
    if words.patch:
        for path, new in found.items():
            old = read(os.path.join(TOP, "crates", path)).splitlines()
            print(
                "\n".join(
                    difflib.unified_diff(
                        old,
                        new.split("\n")[:-1],
                        f"a/crates/{path}",
                        f"b/crates/{path}",
                        lineterm="",
                    )
                )
            )
        return
    count.check("the files that docs/DEVELOPING.md lists", listed(), list(found))
    if words.prove:
        prove(count, words.prove, words.jobs)
    print(f"a command stands in {len(found)} files of the proved crates")
    count.end("things compared")


if __name__ == "__main__":
    main()
