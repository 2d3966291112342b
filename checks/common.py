"""What the scripts beside this one share: which program they try, and the count of what differs."""
import fcntl
import os
import re
import shutil
import subprocess
import sys
import termios
import time

TOP = os.path.dirname(os.path.dirname(os.path.abspath(__file__)))

# What the launcher ends with where there is no program to run.
NOT_BUILT = (70, 127)


def program(words, name="coxeter"):
    """The program named by the script's arguments, else by the environment variable COXETER or COXCHECK, else the one of this name that the
    launcher of this checkout runs, which it builds first if need be. With --help the script says what it is for, and ends."""
    if words in (["-h"], ["--help"]):
        print(sys.modules["__main__"].__doc__.strip())
        sys.exit(0)
    named = words[0] if words else os.environ.get(name.upper())
    if named:
        found = shutil.which(named)
        if found is None:
            sys.exit(f"there is no program {named}")
        return os.path.abspath(found)
    launcher = os.path.join(TOP, name)
    if not os.path.exists(launcher):
        sys.exit(f"there is no program {name} in this checkout")
    if subprocess.run([launcher], stdin=subprocess.DEVNULL, stdout=subprocess.DEVNULL).returncode in NOT_BUILT:
        sys.exit(f"the program {name} is not built")
    found = subprocess.run([os.path.join(TOP, "launch", "program"), name], stdout=subprocess.PIPE)
    # Without the toolchain the launcher may have run one that was built from other sources.
    return os.path.join(TOP, os.fsdecode(found.stdout).rstrip("\n") or os.path.join("crates", name, "out", name))


# Arguments that set the number of workers.
WORKERS = [[], ["--workers", "1"], ["--workers", "2"], ["--workers", "16"]]


class Count:
    """How many things were tried, and how many of them differ from what they should be."""

    def __init__(self):
        self.tried = self.differ = 0

    def check(self, what, got, want):
        self.tried += 1
        if got != want:
            self.differ += 1
            print(f"{what}:\n  got  {short(got)}\n  want {short(want)}")

    def end(self, things):
        print(f"{self.tried} {things}, {self.differ} differ")
        sys.exit(1 if self.differ else 0)


def short(value):
    """The value as text, without the middle of a long one."""
    text = repr(value)
    return text if len(text) <= 400 else f"{text[:200]} .. {text[-190:]}"


def blocks(path):
    """The blocks of a document: the line that each begins at, its mark, and its text."""
    with open(os.path.join(TOP, path), encoding="utf-8") as document:
        text = document.read()
    for found in re.finditer(r"^```(\w*)\n(.*?)^```$", text, re.M | re.S):
        yield text[: found.start()].count("\n") + 1, found.group(1), found.group(2)


def examples(path, marks):
    """The examples of a document with these marks: where each stands, its mark, its text, and what has to come out."""
    listed = list(blocks(path))
    for (line, mark, text), (_, next_mark, out) in zip(listed, listed[1:] + [(0, "", "")]):
        if mark in marks:
            if next_mark != "text":
                sys.exit(f"{path}:{line}: what comes out of this example?")
            yield f"{path}:{line}", mark, text, out


def unread(descriptor):
    """How many bytes of a pipe have not been read."""
    return int.from_bytes(fcntl.ioctl(descriptor, termios.FIONREAD, bytes(4)), sys.byteorder)


def refuse_library(folder):
    """The library of checks/refuse.c, which is built into this folder by cc."""
    path = os.path.join(folder, "refuse.so")
    source = os.path.join(TOP, "checks", "refuse.c")
    subprocess.run(["cc", "-shared", "-fPIC", "-O2", "-o", path, source], check=True)
    return path


def reported(library, variable, words, script, **more):
    """A run of these words with checks/refuse.c loaded, and the number that this variable asks of it: None where it was not written."""
    read_end, write_end = os.pipe()
    variables = {"LD_PRELOAD": library, variable: str(write_end)}
    ran = subprocess.run(words, input=script, stdout=subprocess.PIPE, env=variables, pass_fds=[write_end], **more)
    os.close(write_end)
    with open(read_end, "rb") as report:
        line = report.read()
    return ran, int(line) if line else None


def peak(child):
    """The most memory that a process has had by now, in KiB, once it has read what it was given."""
    while unread(child.stdin.fileno()):
        time.sleep(0.01)
    time.sleep(0.2)
    with open(f"/proc/{child.pid}/status", encoding="ascii") as status:
        return next(int(line.split()[1]) for line in status if line.startswith("VmHWM"))
