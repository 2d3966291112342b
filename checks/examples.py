#!/usr/bin/env python3
"""Runs the examples of README.md and docs/MANUAL.md, and compares what comes out.

    checks/examples.py [PROGRAM [CHECKER]]

An example is a block marked `coxeter`, which is a script, `coxcheck`, which is a certificate, or `sh`, which are commands for the shell,
and the block after it, marked `text`, which is what comes out. It prints what differs, and a last line with counts; the exit status is 1
where something differs. It needs Python 3 alone, and is no part of the gate.
"""
import os
import subprocess
import sys
import tempfile

from common import Count, examples, program

DOCUMENTS = ["README.md", os.path.join("docs", "MANUAL.md")]
COMMANDS = {"coxeter": "./coxeter", "coxcheck": "./coxcheck", "sh": "sh"}


def main():
    count, built, checker = Count(), program(sys.argv[1:2]), program(sys.argv[2:], "coxcheck")
    with tempfile.TemporaryDirectory() as folder:
        os.symlink(built, os.path.join(folder, "coxeter"))
        os.symlink(checker, os.path.join(folder, "coxcheck"))
        for document in DOCUMENTS:
            for where, mark, text, out in examples(document, COMMANDS):
                ran = subprocess.run([COMMANDS[mark]], input=text.encode(), capture_output=True, cwd=folder, timeout=60)
                count.check(where, (ran.stdout.decode(), ran.stderr), (out, b""))
    count.end("examples")


main()
