#!/usr/bin/env python3
"""Runs the examples for Python users in README.md and in docs/: INSTALL.md, MANUAL.md, EXAMPLES.md; and compares what comes out.

    checks/examples_python.py [PROGRAM [CHECKER]]

An example is a block marked `python`, which is a program, or, in docs/EXAMPLES.md, `sh`, which are commands for the shell. The
block after it, marked `text`, is what comes out. It prints what differs, and a last line with counts; the exit status is 1
where something differs. The package is the one that this Python has, else the one of this checkout. It needs Python 3 alone,
and is no part of the gate.
"""
import importlib.util
import os
import shlex
import subprocess
import sys
import tempfile

from common import TOP, Count, examples, program

DOCUMENTS = [
    ("README.md", ("python",)),
    ("docs/INSTALL.md", ("python",)),
    (os.path.join("docs", "MANUAL.md"), ("python",)),
    (os.path.join("docs", "EXAMPLES.md"), ("python", "sh")),
]


def main():
    count, built, checker = Count(), program(sys.argv[1:2]), program(sys.argv[2:], "coxcheck")
    with tempfile.TemporaryDirectory() as folder:
        os.symlink(built, os.path.join(folder, "coxeter"))
        tools = os.path.join(folder, "tools")
        os.mkdir(tools)
        with open(os.path.join(tools, "python"), "w", encoding="utf-8") as python:
            python.write(f'#!/bin/sh\nexec {shlex.quote(sys.executable)} "$@"\n')
        os.chmod(os.path.join(tools, "python"), 0o755)
        environment = {**os.environ, "COXETER": built, "COXCHECK": checker, "PATH": f"{tools}:{os.environ['PATH']}"}
        if importlib.util.find_spec("coxeter_shell") is None:
            environment["PYTHONPATH"] = os.path.join(TOP, "python")
        for document, marks in DOCUMENTS:
            for where, mark, text, out in examples(document, marks):
                words = [os.path.join(tools, "python"), "-"] if mark == "python" else ["sh"]
                ran = subprocess.run(words, input=text.encode(), capture_output=True, cwd=folder, env=environment, timeout=600)
                count.check(where, (ran.stdout.decode(), ran.stderr.decode()), (out, ""))
    count.end("examples")


main()
