#!/usr/bin/env python3
"""Runs the built program as a user does: with options and wrong arguments, to each exit status, and line by line.

    checks/program.py [PROGRAM]

It prints what differs, and a last line with counts; the exit status is 1 where something differs. What is expected is written
down here by hand. It needs Python 3 and Linux alone, and is no part of the gate.
"""
import os
import pty
import resource
import select
import subprocess
import sys
import tempfile
import tty

from common import Count, program

COXETER = program(sys.argv[1:])
COUNT = Count()

USAGE = b"usage: coxeter [--workers N] [--context N] [--coef N] [--roots N]\n"
DONE, REFUSED, BAD_USAGE, READ_FAULT, WRITE_FAULT, NO_MEMORY, INPUT_LIMIT = range(7)
MOST_BYTES = 16_777_216


# A run may not write more than this, whatever is wrong with the program.
MOST_WRITTEN = 64 << 20


def run(script=b"", arguments=(), name=b"coxeter", prepare=None, **more):
    """The status, the standard output and the standard error of a run, with no words at all where `name` is None. `prepare` is
    called in its process before it begins."""

    def begin():
        resource.setrlimit(resource.RLIMIT_FSIZE, (MOST_WRITTEN, MOST_WRITTEN))
        if prepare:
            prepare()

    given = {} if "stdin" in more else {"input": script}
    with tempfile.TemporaryFile() as out, tempfile.TemporaryFile() as error:
        streams = {"stdout": out, "stderr": error, **more}
        words = [] if name is None else [name, *arguments]
        try:
            ran = subprocess.run(words, executable=COXETER, preexec_fn=begin, timeout=60, **given, **streams)
            status = ran.returncode
        except subprocess.TimeoutExpired:
            status = "none in 60 seconds"
        out.seek(0)
        error.seek(0)
        return status, out.read(), error.read()


# ---- options and arguments

# The interval has 24 members.
SCRIPT = b"type A 3\nbetti 121321\n"
ANSWERED = (DONE, b"1 3 5 6 5 3 1\n", b"")
OVER = (REFUSED, b"error 31\n", b"")
WRONG = (BAD_USAGE, USAGE, b"")

ARGUMENTS = [
    (ANSWERED, [[], ["--context", "24"], ["--context=24"], ["--context=1048576"], ["--context", "1048576"]]),
    (ANSWERED, [["--context=+24"], ["--context", "+24"], ["--context=0024"], ["--context", "+0024"]]),
    (ANSWERED, [["--"], ["--context=24", "--"], ["--context", "0" * 5000 + "24"]]),
    (ANSWERED, [["--roots", "6"], ["--roots=4096"], ["--roots=+6", "--context", "24"], ["--context=24", "--roots=06"]]),
    (ANSWERED, [["--workers", "1"], ["--workers=16"], ["--workers=+2", "--context=24"], ["--roots=6", "--workers", "03"]]),
    (WRONG, [["--workers"], ["--workers=0"], ["--workers", "17"], ["--workers=x"], ["--workers=2", "--workers=2"]]),
    (ANSWERED, [["--coef", "1"], ["--coef=9223372036854775807"], ["--coef=+5", "--roots=6"], ["--context=24", "--coef=05"]]),
    (WRONG, [["--coef"], ["--coef="], ["--coef", "0"], ["--coef=-1"], ["--coef=x"], ["--coef=1", "--coef=1"]]),
    (WRONG, [["--coef", "9223372036854775808"], ["--coef=18446744073709551617"]]),
    (OVER, [["--context", "23"], ["--context=23"], ["--context=1"], ["--context", "1"], ["--context=23", "--"]]),
    (OVER, [["--context=+23"], ["--context", "+23"], ["--context=0023"], ["--context", "0023"]]),
    # twice, with the same number or another, or without its number
    (WRONG, [["--context", "23", "--context", "23"], ["--context=23", "--context=24"]]),
    (WRONG, [["--context"], ["--context="], ["--context", ""], ["--context", "--"], ["--context", "--context", "23"]]),
    # out of range, or no number
    (WRONG, [["--context=0"], ["--context", "0"], ["--context=1048577"], ["--context", "1048577"], ["--context=-1"]]),
    (WRONG, [["--context", "-1"], ["--context=18446744073709551617"], ["--context=18446744073709551639"]]),
    (WRONG, [["--context", "x"], ["--context=2x"], ["--context= 23"], ["--context=23 "], ["--context=23\n"]]),
    (WRONG, [["--context=0x17"], ["--context=2e1"], ["--context=23.0"], ["--context=++23"], ["--context=2_3"]]),
    (WRONG, [["--context=２３"], ["--context", "٢٣"], ["--context=+"], ["--context==23"], ["--context", "=23"]]),
    (WRONG, [["--roots=0"], ["--roots", "4097"], ["--roots"], ["--roots=x"], ["--roots=6", "--roots=6"], ["--root", "6"]]),
    # no option of the program, or no option at all
    (WRONG, [["--foo"], ["--contexts", "23"], ["--con", "23"], ["--Context", "23"], ["-context", "23"]]),
    (WRONG, [["-c", "23"], ["--context23"], ["--worker", "2"], ["--coefs", "5"], ["-x"], ["--="]]),
    (WRONG, [["--help"], ["-h"], ["--version"], ["-V"], ["help"], ["script"], ["-"], [""], [" "], ["é"]]),
    (WRONG, [["--", "script"], ["--", "--"], ["--", "--context", "23"], ["--context", "23", "24"], ["x" * 100_000]]),
    # bytes that are no UTF-8
    (WRONG, [[b"\xff"], [b"--context=\xff"], [b"--context=23\xff"], ["--context", b"2\xff"], ["--context=23", b"\xc3"]]),
    (WRONG, [[b"\xff", "--context=23"], ["--", b"\xff"], [b"--\xff"], [b"\xed\xa0\x80"]]),
]

# All options, each in two words. With `--` behind them no more is taken.
ALL = ["--context", "24", "--roots", "6", "--coef", "1", "--workers", "1"]


def arguments():
    for wanted, lists in ARGUMENTS:
        for words in lists:
            COUNT.check(f"arguments {words!r:.100}", run(SCRIPT, words), wanted)
    COUNT.check("no words, not even a name", run(SCRIPT, name=None), ANSWERED)
    # Each number of arguments, up to more than are ever taken: with the last one right, and with it wrong.
    for count in range(13):
        if count < 10:
            right = ALL[:count] if count % 2 == 0 else [*ALL[: count - 1], "--"]
            COUNT.check(f"{count} arguments", run(SCRIPT, right), ANSWERED)
        for last in ("x", b"\xff") if count else ():
            wrong = [*[*ALL, "--", "x", "x"][: count - 1], last]
            COUNT.check(f"{count} arguments, of which {last!r} is the last", run(SCRIPT, wrong), WRONG)
    # Wrong arguments are refused before anything is read, and the program's own name is no argument.
    read_end, write_end = os.pipe()
    COUNT.check("wrong arguments read nothing", run(arguments=["x"], stdin=read_end), WRONG)
    os.close(read_end)
    os.close(write_end)
    for name in (b"", b"--foo", b"--context=1", b"--", b"\xff\xfe", b"/a b/\xff/coxeter"):
        COUNT.check(f"the name {name!r}", run(SCRIPT, name=name), ANSWERED)
        COUNT.check(f"the name {name!r} and an option", run(SCRIPT, ["--context=23"], name=name), OVER)
        COUNT.check(f"the name {name!r} and a wrong argument", run(SCRIPT, [b"\xff"], name=name), WRONG)


# ---- scripts that are read to their end, or to `quit`


def scripts():
    rows = [
        (b"", DONE, b""),
        (b"\n", DONE, b""),
        (b"type A 2\ncompute 212\nlength 212\n", DONE, b"121\n3\n"),
        (b"type A 2\r\ncompute 212\r\nlength 212\r", DONE, b"121\n3\n"),
        (b"type A 2\ncompute 212\nfoo\nlength 212", REFUSED, b"121\nerror 10\n3\n"),
        (b"foo\nquit\n", REFUSED, b"error 10\n"),
        (b"type A 2\nquit\ncompute 212\n", DONE, b""),
        (b"quit\nfoo\n", DONE, b""),
        (b"  quit \r\nfoo\n", DONE, b""),
        (b"quit 1\nquit", REFUSED, b"error 11\n"),
        (b"quit\n" + b"z" * 17_000_000, DONE, b""),
        (b"type A 2\ncompute 1\xff\ncompute 1\x00\ncompute\t1\n", REFUSED, b"error 19\n" * 3),
        (b" " * 4096 + b"\n" + b"z" * 4096 + b"\n" + b"z" * 4097 + b"\n", REFUSED, b"error 10\nerror 18\n"),
    ]
    for script, status, out in rows:
        COUNT.check(f"the script {script[:60]!r}", run(script), (status, out, b""))


# ---- status 3: a read fails


def read_faults():
    folder = os.open("/", os.O_RDONLY)
    COUNT.check("a folder as standard input", run(stdin=folder), (READ_FAULT, b"", b""))
    os.close(folder)
    closed = run(stdin=None, prepare=lambda: os.close(0))
    COUNT.check("standard input closed", closed, (READ_FAULT, b"", b""))
    read_end, write_end = os.pipe()
    os.set_blocking(read_end, False)
    os.write(write_end, b"type A 2\ncompute 212\nlength 2")
    COUNT.check("a pipe that would block", run(stdin=read_end), (READ_FAULT, b"121\n", b""))
    os.close(read_end)
    os.close(write_end)
    # A terminal whose other end is gone.
    near, far = pty.openpty()
    tty.setraw(far)
    with subprocess.Popen([COXETER], stdin=near, stdout=subprocess.PIPE) as child:
        os.close(near)
        os.write(far, b"type A 2\ncompute 212\nfoo\nlength 2")
        first = read_bytes(child.stdout, len(b"121\nerror 10\n"))
        os.close(far)
        rest = child.stdout.read()
    got = child.returncode, first + rest
    COUNT.check("a terminal that hangs up", got, (READ_FAULT, b"121\nerror 10\n"))


# ---- status 4: a write fails


def write_faults():
    script = b"type A 2\ncompute 212\nlength 212\n"
    with open("/dev/full", "wb") as full:
        COUNT.check("a full device", run(script, stdout=full), (WRITE_FAULT, b"", b""))
        COUNT.check("a full device, wrong arguments", run(script, ["x"], stdout=full), (WRITE_FAULT, b"", b""))
        COUNT.check("a full device, no answer", run(b"type A 2\n\n", stdout=full), (DONE, b"", b""))
    closed = run(script, stdout=None, prepare=lambda: os.close(1))
    COUNT.check("standard output closed", closed, (WRITE_FAULT, b"", b""))
    read_end, write_end = os.pipe()
    os.close(read_end)
    for way, restore in (("is ignored", False), ("has its default", True)):
        got = run(script, stdout=write_end, restore_signals=restore)
        COUNT.check(f"a closed pipe, where SIGPIPE {way}", got, (WRITE_FAULT, b"", b""))
    os.close(write_end)
    # A file that may have so many bytes: a prefix of the answers is written.
    for most in range(7):

        def limit():
            resource.setrlimit(resource.RLIMIT_FSIZE, (most, most))

        wanted = (DONE if most == 6 else WRITE_FAULT), b"121\n3\n"[:most], b""
        COUNT.check(f"a file of at most {most} bytes", run(script, prepare=limit, restore_signals=False), wanted)


# ---- status 5: out of memory


def memory():
    """With less and less memory the answers are a prefix, of whole lines, and the status is 5."""
    script = b"type E 6\nlength 12\nbetti 123142314354231435426542314354265431\nlength 1\n"
    whole = run(script)
    COUNT.check("with memory", (whole[0], whole[1][:2], whole[1][-2:], whole[2]), (DONE, b"2\n", b"1\n", b""))
    prefixes = [b"".join(whole[1].splitlines(True)[:count]) for count in range(4)]
    ends = {DONE: 0, NO_MEMORY: 0}
    for kibibytes in [*range(1024, 4096, 64), *range(4096, 40 << 10, 2048), 64 << 10, 256 << 10]:
        size = kibibytes << 10

        def limit():
            resource.setrlimit(resource.RLIMIT_AS, (size, size))

        try:
            status, out, error = run(script, prepare=limit)
        except (OSError, subprocess.SubprocessError):
            continue
        if status == 127 or error:
            continue  # it could not be started
        if status in ends:
            ends[status] += 1
        known = (status == DONE and out == whole[1]) or (status == NO_MEMORY and out in prefixes[:3])
        COUNT.check(f"{kibibytes} KiB: status {status}, {out[-40:]!r}", known, True)
    COUNT.check("some runs end with status 0, some with status 5", min(ends.values()) > 0, True)


# ---- status 6: too many bytes


def input_limit():
    begin = b"type A 2\ncompute 212\n"
    rows = [
        ("exactly the most bytes, blank lines", b"\n" * MOST_BYTES, DONE, b""),
        ("one byte more", b"\n" * (MOST_BYTES + 1), INPUT_LIMIT, b""),
        ("a last line without LF", begin + b"\n" * (MOST_BYTES - len(begin) - 8) + b"length 1", DONE, b"121\n1\n"),
        ("the same and a byte", begin + b"\n" * (MOST_BYTES - len(begin) - 8) + b"length 1\n", INPUT_LIMIT, b"121\n"),
        ("the same a byte earlier", begin + b"\n" * (MOST_BYTES - len(begin) - 9) + b"length 1\nx", INPUT_LIMIT, b"121\n1\n"),
        ("one long line", b"z" * MOST_BYTES, REFUSED, b"error 18\n"),
        ("one longer line", b"z" * (MOST_BYTES + 1), INPUT_LIMIT, b""),
    ]
    for what, script, status, out in rows:
        COUNT.check(what, run(script), (status, out, b""))
    with open("/dev/zero", "rb") as zeros:
        COUNT.check("an endless line", run(stdin=zeros), (INPUT_LIMIT, b"", b""))
    with subprocess.Popen(["yes", "foo"], stdout=subprocess.PIPE) as endless:
        status, out, error = run(stdin=endless.stdout)
        endless.stdout.close()
    lines = MOST_BYTES // 4
    COUNT.check("endless lines", (status, out == b"error 10\n" * lines, error), (INPUT_LIMIT, True, b""))


# ---- line by line

TALK = [
    (b"type A 2", b""),
    (b"compute 212", b"121\n"),
    (b"", b""),
    (b"length 212", b"3\n"),
    (b"foo", b"error 10\n"),
    (b"coatoms 121", b"2\n12\n21\n"),
    (b"descent 12\r", b"L 1 R 2\n"),
    (b"compute 3", b"error 16\n"),
    (b"inorder 1 12", b"true\n"),
]


def read_bytes(stream, count, seconds=10):
    """So many bytes, or fewer if they do not come in time."""
    got = b""
    while len(got) < count and select.select([stream], [], [], seconds)[0]:
        more = os.read(stream.fileno(), count - len(got))
        if not more:
            break
        got += more
    return got


def line_by_line():
    """The answer to a line comes before the next line is written, and `quit` ends a run whose input is still open."""
    for last in (b"quit\n", b""):
        with subprocess.Popen([COXETER], stdin=subprocess.PIPE, stdout=subprocess.PIPE, bufsize=0) as child:
            try:
                talk(child)
                child.stdin.write(last)
            except BrokenPipeError:
                COUNT.check("the program goes on reading", False, True)
            if not last:
                child.stdin.close()
            try:
                ended = child.wait(10)
            except subprocess.TimeoutExpired:
                child.kill()
                ended = "none in 10 seconds"
            what = f"the end by {last or b'the end of the input'!r}"
            COUNT.check(what, (read_bytes(child.stdout, 100, 1), ended), (b"", REFUSED))


def talk(child):
    """Writes the lines of TALK, and a last one in pieces, and waits for each answer."""
    for line, wanted in TALK:
        child.stdin.write(line + b"\n")
        COUNT.check(f"the answer to {line!r}", read_bytes(child.stdout, len(wanted)), wanted)
    for piece in (b"len", b"gth 1", b"2"):
        child.stdin.write(piece)
        COUNT.check(f"no answer after {piece!r}", read_bytes(child.stdout, 1, 0.05), b"")
    child.stdin.write(b"\n")
    COUNT.check("the answer to a line in pieces", read_bytes(child.stdout, 2), b"2\n")


for part in (arguments, scripts, read_faults, write_faults, memory, input_limit, line_by_line):
    part()
COUNT.end("checks")
