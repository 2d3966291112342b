#!/usr/bin/env python3
"""Tries what the script ./coxeter does where no program is built: the first answer, by a build without proof, and what goes wrong.

    checks/first_answer.py

It works in small checkouts of its own, as checks/launcher.py does. It prints what differs, and a last line with counts; the exit
status is 1 where something differs. It needs Python 3 alone, and the command `unshare` for a disk that is full.
"""
import glob
import os
import pty
import select
import shutil
import signal
import socket
import stat
import subprocess
import tempfile
import time

from checkouts import ONE, Checkout, check, say, try_all, wait_for

HEAD = b"coxeter: FIRST ANSWER, BY A BUILD WITHOUT PROOF (exit status 7); the proved one comes on standard output\n"
SAME = b"coxeter: the proved answer is the same as the first one\n"
DIFFERS = b"THE PROVED ANSWER IS NOT THE FIRST ONE"


# What lasts until so many runs have tried for a first answer.
UNTIL = b'until [ "$(ls -d out/first.*/tried 2>/dev/null | wc -l)" -ge %d ]; do sleep 0.1; done\n'


def slow(here, then=b""):
    """A checkout, or this one, whose next build takes longer than a first answer."""
    here = here if isinstance(here, Checkout) else Checkout(here)
    here.write(here.path(b"meanwhile"), UNTIL % 1 + then)
    return here


def marked(said):
    """The lines without proof."""
    return [line for line in said.splitlines() if line.startswith(b"unproved: ")]


def tried(here):
    """How often `rt try` was called."""
    path = os.path.join(here.tools, b"tried")
    if not os.path.exists(path):
        return 0
    with open(path, "rb") as file:
        return len(file.readlines())


def left(here, name=b"coxeter"):
    """What a run has left in the folder of the program that it would not leave where all goes well."""
    out = here.path(b"crates/%b/out" % name)
    names = os.listdir(out) if os.path.isdir(out) else []
    return sorted(it for it in names if it.startswith((b"first.", b"rooms", b"differs")) or it.endswith(b".before"))


def session(ran):
    """The processes of a run, which has a session of its own. They have some seconds to end."""
    for _ in range(40):
        found = []
        for path in glob.glob("/proc/[0-9]*/stat"):
            try:
                with open(path, "rb") as file:
                    words = file.read().rpartition(b")")[2].split()
            except OSError:
                continue
            if int(words[3]) == ran.pid and words[0] != b"Z":
                found.append(path)
        if not found:
            break
        time.sleep(0.1)
    return len(found)


def shown(base):
    """What comes where, and when."""
    here = slow(base)
    ran = here.run(arguments=["--workers", "b c"])
    check("by a pipe", ran, 7, b"program of one:--workers b c\ninput\n", True)
    lines = b"unproved: program of one:--workers b c\nunproved: input\n"
    say("the first answer, marked, behind a line that says what it is", HEAD + lines in ran.stderr, True)
    say("what is said then", ran.stderr.endswith(SAME), True)
    say("all lines of it", sorted(it.split(b":")[0] for it in ran.stderr.splitlines()), [b"coxeter"] * 4 + [b"unproved"] * 2)
    say("nothing is left", left(here), [])
    say("once it is built", here.run().stderr, b"")
    say("how often it was tried", tried(here), 1)

    here.source(b"two")
    slow(here, b"until [ -e ../../go ]; do sleep 0.1; done\n")
    ran = here.begin()
    ran.stdin.write(b"input\n")
    ran.stdin.close()
    said = b""
    while b"unproved: input\n" not in said:
        said += os.read(ran.stderr.fileno(), 4096)
    wait_for(here.path(b"crates/building"))
    say("the build goes on", os.path.exists(here.path(b"crates/building")), True)
    say("standard output by then", select.select([ran.stdout], [], [], 0)[0], [])
    here.write(here.path(b"go"), b"")
    say("at last", (ran.stdout.read(), ran.wait()), (b"program of two:\ninput\n", 7))


def beside(base):
    """One crate alone is proved beside a first answer, and leaves it processors."""
    here = Checkout(base)
    here.write(here.path(b"crates.txt"), b"coxeter: low1 low2\nlow1:\nlow2:\n")
    for crate in (b"low1", b"low2"):
        here.source(b"//! Code.\n", crate, b"lib.rt")
    here.write(here.path(b"trying"), b"until [ -e ../../go ]; do sleep 0.1; done\n")
    ran = here.begin()
    ran.stdin.write(b"input\n")
    ran.stdin.close()
    ran.stdin = None
    begun = os.path.join(here.tools, b"jobs")
    wait_for(begun)
    time.sleep(0.5)
    with open(begun, "rb") as file:
        found = [line.split() for line in file]
    here.write(here.path(b"go"), b"")
    out, said = ran.communicate()
    jobs = int(said.split(b" checks at once")[0].split()[-1])
    say("beside a first answer", [it[1:] for it in found], [[b"%d" % max(jobs - 3, 1)]])
    with open(begun, "rb") as file:
        say("and behind it", (len(file.readlines()), out, ran.returncode), (2, ONE, 7))


def inputs(base):
    """Which inputs are kept."""
    here = slow(base)
    path = os.path.join(base, b"script")
    here.write(path, b"of a file\n")
    with open(path, "rb") as script:
        ran = here.begin(stdin=script)
        out, said = ran.communicate()
    say("from a file", (out, ran.returncode, SAME in said), (b"program of one:\nof a file\n", 7, True))
    here.source(b"two")
    slow(here)
    ours, theirs = socket.socketpair()
    ran = here.begin(stdin=theirs)
    ours.sendall(b"of a socket\n")
    ours.shutdown(socket.SHUT_WR)
    out, said = ran.communicate()
    say("from a socket", (out, ran.returncode, SAME in said), (b"program of two:\nof a socket\n", 7, True))
    say("both were tried", tried(here), 2)
    for what, how in (("with an empty pipe", subprocess.PIPE), ("with /dev/null", subprocess.DEVNULL)):
        here.source(what.split()[-1].encode().strip(b"/"))
        here.write(here.path(b"meanwhile"), b"sleep 2\n")
        ran = here.begin(stdin=how)
        out, said = ran.communicate(b"")
        say(what, (ran.returncode, said.count(b"\n"), tried(here)), (7, 1, 2))
    here.source(b"three")
    ran = here.begin(["sh", "-c", 'exec "$0" <&-', here.path(b"coxeter")])
    out, said = ran.communicate()
    say("with no input", (out, ran.returncode, b"answer" in said, tried(here)), (b"program of three:\n", 7, False, 2))
    here.source(b"four")
    slow(here)
    with tempfile.TemporaryFile() as large:
        large.write(b"x" * 17_000_000)
        large.seek(0)
        ran = here.begin(stdin=large)
        out, said = ran.communicate()
    # A program reads 16,777,216 bytes at most, and ends by status 6 where there are more.
    say("more than a program reads", (len(out), ran.returncode), (len(b"program of four:\n") + 16_777_216 + 512, 7))
    here.source(b"five")
    slow(here)
    ran = here.begin(["sh", "-c", 'yes | "$0"', here.path(b"coxeter")])
    out, said = ran.communicate()
    say("one without end", (len(out), ran.returncode), (len(b"program of five:\n") + 16_777_216 + 512, 7))
    say("nothing is left", left(here), [])


def long_answers(base):
    """At most 40 lines are shown."""
    for lines in (39, 40, 1000):
        here = slow(os.path.join(base, b"%d" % lines))
        ran = here.begin()
        text = b"".join(b"line %d\n" % it for it in range(lines))
        out, said = ran.communicate(text)
        say(f"{lines} lines and one", (out, SAME in said), (b"program of one:\n" + text, True))
        wanted = [b"unproved: " + it for it in (b"program of one:\n" + text).splitlines()[:40]]
        more = [] if lines < 40 else [b"unproved: .. and %d more lines" % (lines - 39)]
        say(f"what is shown of {lines} and one", marked(said), wanted + more)


def none(base):
    """Says in one line why there is no first answer."""
    limit = b"did not end within 60 seconds"
    last = b"echo run=no-answer proved=no >&2; exit %d\n"
    for number, (trying, why) in enumerate([
        (last % 6, limit),
        (last % 4, b"stopped at a fault"),
        (last % 1, b"rt try ended by status 1"),
        (b"kill -9 $$\n", b"rt try ended by status 137"),
        (b"old", b"this kit has no rt try"),
        (b"printf other >src/main.rt\n", b"a source has changed"),
    ]):
        here = slow(os.path.join(base, b"%d" % number))
        if trying == b"old":
            here.write(os.path.join(here.tools, b"old"), b"")
        else:
            here.write(here.path(b"trying"), trying)
        slow(here, b"word=one\n")
        ran = here.run()
        check(why.decode(), ran, 7, ONE, True)
        said = [it for it in ran.stderr.splitlines() if b"no first answer" in it]
        say(f"{why}: a line", [why in it and b"has to wait for the proved program" in it for it in said], [True])
        say(f"{why}: no more", (marked(ran.stderr), b"proved answer" in ran.stderr, left(here)), ([], False, []))
        if why == limit:
            with open(here.path(b"crates/coxeter/out/try.log"), "rb") as log:
                say("what rt says is kept", (log.name in said[0], log.read()), (True, b"run=no-answer proved=no\n"))


def late(base):
    """A first answer that comes too late is not waited for."""
    here = Checkout(base)
    here.write(here.path(b"trying"), b"exec sleep 100\n")
    here.write(here.path(b"meanwhile"), b"until ls out/first.*/trying; do sleep 0.1; done\n")
    begun = time.monotonic()
    ran = here.run()
    check("too late", ran, 7, ONE, True)
    say("that is not waited for", (time.monotonic() - begun < 50, marked(ran.stderr), tried(here)), (True, [], 1))
    # A program that is built meanwhile from other sources is no one to compare with.
    here.source(b"two")
    here.write(here.path(b"trying"), b"")
    slow(here, b"until ls out/first.*/status; do sleep 0.1; done; printf three >src/main.rt; word=three\n")
    ran = here.run()
    check("a source that changes after the first answer", ran, 7, b"program of three:\ninput\n", True)
    say("with its first answer", marked(ran.stderr), [b"unproved: program of two:", b"unproved: input"])
    say("is not compared with it", ran.stderr.splitlines()[-1].startswith(b"coxeter: a source has changed since"), True)


def differences(base):
    """A proved answer that is not the first one."""
    for name, trying, first in (
        (b"answer", b"word=two\n", (b"program of two:a\ninput\n", b"7\n")),
        (b"status", b"status=1\n", (b"program of one:a\ninput\n", b"1\n")),
    ):
        here = slow(os.path.join(base, name))
        here.write(here.path(b"trying"), trying)
        ran = here.run(arguments=["a"])
        out = b"program of one:a\ninput\n"
        check(f"another {name.decode()}", ran, 70, out, True)
        last = ran.stderr.splitlines()[-1]
        folder = here.path(b"crates/coxeter/out/differs")
        say("it says so at last, and where all is", (DIFFERS in last, folder in last), (True, True))
        kept = []
        for it in (b"first", b"status", b"proved", b"input"):
            with open(os.path.join(folder, it), "rb") as file:
                kept.append(file.read())
        say("what is kept", kept, [*first, out, b"input\n"])
        check("the next run", here.run(arguments=["a"]), 7, out, False)
    for status in (b"3", b"4", b"5"):
        here = slow(os.path.join(base, status))
        here.write(here.path(b"trying"), b"status=%b\n" % status)
        ran = here.run()
        check(f"a first answer by status {status}", ran, 7, ONE, True)
        say("with that there is nothing to compare", (len(marked(ran.stderr)), b"proved answer" in ran.stderr), (2, False))


def writes(base):
    """Where the answer can't be written."""
    here = slow(base)
    with open("/dev/full", "wb") as full:
        ran = here.begin(stdout=full)
        _, said = ran.communicate(b"input\n")
    say("on a device that is full", (ran.returncode, SAME in said), (4, True))
    here.source(b"two")
    slow(here)
    ran = here.begin()
    ran.stdout.close()
    ran.stdin.write(b"input\n")
    ran.stdin.close()
    say("into a pipe that is closed", (ran.wait(), SAME in ran.stderr.read(), left(here)), (4, True, []))


def terminals(base):
    """On a terminal nothing is kept, and a line says what to do."""
    here = Checkout(base)
    terminal, end = pty.openpty()
    ran = here.begin(stdin=end)
    os.close(end)
    line = ran.stderr.readline()
    say("on a terminal", b"a script by a pipe or from a file has a first answer within a minute" in line, True)
    line = ran.stderr.readline()
    say("and how long it takes", b"about 1 min" in line, True)
    os.write(terminal, b"typed\n\x04")
    out, said = ran.communicate()
    say("what is typed", (out, said, ran.returncode, tried(here)), (b"program of one:\ntyped\n", b"", 7, 0))
    os.close(terminal)
    say("nothing is left", left(here), [])


def conversations(base):
    """Where the input goes on, it is handed on as it comes."""
    here = Checkout(base)
    ran = here.begin()
    ran.stdin.write(b"one\n")
    ran.stdin.flush()
    say("the first line", [ran.stdout.readline() for _ in range(2)], [b"program of one:\n", b"one\n"])
    for number in range(10):
        ran.stdin.write(b"question %d\n" % number)
        ran.stdin.flush()
        say("an answer", ran.stdout.readline(), b"question %d\n" % number)
    large = b"".join(b"%d\n" % it for it in range(500_000))
    say("much at once", ran.communicate(large)[0] == large, True)
    say("its end", (ran.returncode, left(here), tried(here)), (7, [], 0))

    here = Checkout(os.path.join(base, b"ends"))
    ran = here.begin()
    here.write(here.path(b"meanwhile"), b'printf "#!/bin/sh\\nread line; echo \\$line; exit 6\\n" >out/coxeter; chmod +x out/coxeter; exit 7\n')
    ran.stdin.write(b"one\ntwo\n")
    ran.stdin.flush()
    say("a program that stops reading", (ran.wait(), ran.stdout.read(), session(ran), left(here)), (6, b"one\n", 0, []))
    ran.communicate()


def others(base):
    """The same for another program."""
    here = slow(base)
    here.write(here.path(b"crates.txt"), b"coxeter:\ncoxcheck:\n")
    here.source(b"six", b"coxcheck")
    os.symlink(b"coxeter", here.path(b"coxcheck"))
    ran = here.run(here.path(b"coxcheck"), ["a"])
    say("of coxcheck", (ran.stdout, ran.returncode), (b"program of six:a\ninput\n", 7))
    say("its first answer", marked(ran.stderr), [b"unproved: program of six:a", b"unproved: input"])
    say("by its name", all(it.startswith((b"coxcheck: ", b"unproved: ")) for it in ran.stderr.splitlines()), True)
    # A certificate that comes from a program which is not built either.
    here.source(b"seven")
    here.source(b"eight", b"coxcheck")
    ran = here.begin(["sh", "-c", "echo input | ./coxeter | ./coxcheck"], cwd=here.top)
    out, said = ran.communicate()
    say("one behind the other", out, b"program of eight:\nprogram of seven:\ninput\n")


def interrupts(base):
    """Nothing is left running, and nothing half done, whenever it is interrupted."""
    here = Checkout(base)
    here.write(here.path(b"crates.txt"), b"coxeter: low high\nlow:\nhigh: low\n")
    for crate in (b"low", b"high"):
        here.source(b"//! Code.\n", crate, b"lib.rt")
    out = here.path(b"crates/coxeter/out")

    def cut(what, number, everyone, ready, closed=True, there=()):
        ran = here.begin()
        ran.stdin.write(b"input\n")
        ran.stdin.flush()
        if closed:
            ran.stdin.close()
            ran.stdin = None
        for _ in range(300):
            if ready(ran):
                break
            time.sleep(0.1)
        (os.killpg if everyone else os.kill)(ran.pid, number)
        say(f"{what}: status", (ran.wait(), session(ran)), (70, 0))
        found, _ = ran.communicate()
        say(f"{what}: what is left", (found, set(left(here)) - set(there)), (b"", set()))

    def trying(_):
        return glob.glob(os.path.join(out, b"first.*", b"first"))

    def proving(_):
        return glob.glob(os.path.join(out, b"rooms", b"*", b"crates"))

    def building(_):
        return os.path.exists(here.path(b"crates/building"))

    here.write(here.path(b"trying"), b"exec sleep 100\n")
    signals = [(signal.SIGINT, True), (signal.SIGTERM, False), (signal.SIGHUP, True)]
    for number, everyone in signals:
        who = f"{number.name} for {'all' if everyone else 'the launcher'}"
        cut(f"{who} in the first answer", number, everyone, trying)
        cut(f"{who} in a proof", number, everyone, proving, closed=False)
    for number, everyone in signals:
        who = f"{number.name} for {'all' if everyone else 'the launcher'}"
        here.write(here.path(b"meanwhile"), b"exec sleep 100\n")
        cut(f"{who} in the build", number, everyone, building)
        os.rmdir(here.path(b"crates/building"))
    os.remove(here.path(b"meanwhile"))
    os.remove(here.path(b"trying"))
    check("the next run", here.run(), 7, ONE, True)
    # The program that was there stays.
    here.source(b"two")
    here.write(here.path(b"meanwhile"), b"echo half >out/coxeter; chmod +x out/coxeter; exec sleep 100\n")
    cut("a new build", signal.SIGINT, True, building)
    os.rmdir(here.path(b"crates/building"))
    os.remove(here.path(b"meanwhile"))
    with open(os.path.join(out, b"coxeter"), "rb") as file:
        say("the program that was there", b"program of one" in file.read(), True)
    # One that waits for another.
    here.write(here.path(b"meanwhile"), b"sleep 5\n")
    first = here.begin(stdin=subprocess.DEVNULL)
    wait_for(here.path(b"crates/building"))
    own = left(here)
    cut("one that waits", signal.SIGTERM, False, lambda ran: b"waiting" in os.read(ran.stderr.fileno(), 4096), there=own)
    out_of_first, _ = first.communicate()
    say("the one that it waited for", (out_of_first, first.returncode), (b"program of two:\n", 7))
    # The proved program.
    here.source(b"three")
    ran = here.begin()
    ran.stdin.write(b"one\n")
    ran.stdin.flush()
    say("the program runs", ran.stdout.readline(), b"program of three:\n")
    os.killpg(ran.pid, signal.SIGINT)
    say("interrupted there", (ran.wait(), session(ran), left(here)), (130, 0, []))
    ran.communicate()


def killed(base):
    """The next run goes on where one was killed."""
    here = Checkout(base)
    here.write(here.path(b"meanwhile"), b"sleep 100\n")
    ran = here.begin()
    ran.stdin.write(b"input\n")
    ran.stdin.close()
    ran.stdin = None
    wait_for(here.path(b"crates/building"))
    while b"unproved: input" not in os.read(ran.stderr.fileno(), 4096):
        pass
    os.killpg(ran.pid, signal.SIGKILL)
    ran.communicate()
    say("killed", (len(left(here)), session(ran)), (1, 0))
    os.rmdir(here.path(b"crates/building"))
    os.remove(here.path(b"meanwhile"))
    check("the next run", here.run(), 7, ONE, True)
    say("what was left goes", left(here), [])
    # The build of a launcher that was killed alone ends, and what it had done is not lost.
    here.source(b"two")
    here.write(here.path(b"meanwhile"), b"exec sleep 100\n")
    ran = here.begin()
    wait_for(here.path(b"crates/building"))
    os.kill(ran.pid, signal.SIGKILL)
    say("of a launcher that was killed alone nothing runs", session(ran), 0)
    ran.communicate()
    with open(here.path(b"crates/coxeter/out/coxeter"), "rb") as file:
        say("the program that was there", b"program of one" in file.read(), True)
    os.rmdir(here.path(b"crates/building"))
    os.remove(here.path(b"meanwhile"))
    check("the run behind it", here.run(), 7, b"program of two:\ninput\n", True)
    # So does one that waits for another, and launch/prove.
    here.source(b"three")
    here.write(here.path(b"meanwhile"), b"exec sleep 100\n")
    first = here.begin()
    wait_for(here.path(b"crates/building"))
    second = here.begin([here.path(b"launch/prove")])
    up_to_waiting(second)
    for it in (second, first):
        os.kill(it.pid, signal.SIGKILL)
        say("one behind another that was killed", session(it), 0)
        it.communicate()
    os.rmdir(here.path(b"crates/building"))
    os.remove(here.path(b"meanwhile"))
    check("and the next", here.run(), 7, b"program of three:\ninput\n", True)


def up_to_waiting(ran):
    """What a run says until it waits for another. What it says then can be read too, where it was begun without a buffer."""
    lines = []
    for line in ran.stderr:
        lines.append(line)
        if b"waiting" in line:
            break
    return b"".join(lines)


def two_at_once(base):
    """Two first runs at once: one builds, and both have a first answer."""
    here = Checkout(base)
    here.write(here.path(b"meanwhile"), UNTIL % 2 + b"for it in $(seq 300); do [ -e ../../waits ] && break; sleep 0.1; done\n")
    runs = []
    for number in (1, 2):
        ran = here.begin([here.path(b"coxeter"), b"%d" % number], bufsize=0)
        ran.stdin.write(b"input %d\n" % number)
        ran.stdin.close()
        ran.stdin = None
        runs.append(ran)
        wait_for(here.path(b"crates/building"))
    # The build doesn't end before the other run has come to it, for half a minute.
    begins = [b"", up_to_waiting(runs[1])]
    here.write(here.path(b"waits"), b"")
    for number, (ran, begin) in enumerate(zip(runs, begins), 1):
        out, said = ran.communicate()
        said = begin + said
        answer = b"program of one:%d\ninput %d\n" % (number, number)
        say(f"run {number}", (out, ran.returncode), (answer, 7))
        say(f"the first answer of run {number}", marked(said), [b"unproved: " + it for it in answer.splitlines()])
        say(f"what run {number} says", (b"waiting" in said, SAME in said), (number == 2, True))
    say("nothing is left", left(here), [])


def folders(base):
    """Where nothing can be written."""
    here = Checkout(base)
    here.write(here.path(b"crates/coxeter/out"), b"no folder\n")
    ran = here.run()
    check("no folder", ran, 70, b"", False)
    say("one line says so", (ran.stderr.count(b"\n"), b"no files can be made in " in ran.stderr), (1, True))
    os.remove(here.path(b"crates/coxeter/out"))

    def as_nobody():
        if os.geteuid() == 0:
            os.setgid(65534)
            os.setuid(65534)

    os.chmod(base, 0o755)
    folder = here.path(b"crates/coxeter")
    os.chmod(folder, stat.S_IRUSR | stat.S_IXUSR | stat.S_IRGRP | stat.S_IXGRP | stat.S_IROTH | stat.S_IXOTH)
    how = {"preexec_fn": as_nobody}
    ran = here.begin(**how)
    out, said = ran.communicate(b"input\n")
    say("a folder of someone else", (out, ran.returncode, said.count(b"\n"), b"no files can be made in " in said), (b"", 70, 1, True))
    os.chmod(folder, 0o755)
    check("once it can be written", here.run(), 7, ONE, True)
    os.chmod(os.path.join(folder, b"out"), 0o555)
    ran = here.begin(**how)
    out, said = ran.communicate(b"input\n")
    say("a program that is built is only run", (out, ran.returncode, said), (ONE, 7, b""))
    os.chmod(os.path.join(folder, b"out"), 0o755)


def disks(base):
    """A disk that is full, in a name space where one can be mounted."""
    here = Checkout(base)
    out = here.path(b"crates/coxeter/out")
    os.makedirs(out)
    mounted = 'mount -t tmpfs -o size=100k tmpfs "$1" && shift && exec "$@"'
    words = ["unshare", "--user", "--map-root-user", "--mount", "sh", "-c", mounted, "sh", out]
    if subprocess.run([*words, "true"]).returncode:
        print("no disk could be mounted, so none was full")
        return
    ran = here.begin([*words, here.path(b"coxeter")])
    found, said = ran.communicate(b"x" * 200_000)
    say("an input that can't be kept", (found, ran.returncode, b"could not be kept" in said, session(ran)), (b"", 70, True, 0))
    filled = [*words, "sh", "-c", 'dd if=/dev/zero of="$1/zeros" bs=1k 2>&3; rm -f "$1/none"; exec "$2"', "sh", out, here.path(b"coxeter")]
    with open(os.devnull, "wb") as null:
        os.dup2(null.fileno(), 3)
        ran = here.begin(filled, pass_fds=(3,))
        found, said = ran.communicate(b"input\n")
    say("a disk with no room", (found, ran.returncode, said.count(b"full") > 0, session(ran)), (b"", 70, True, 0))
    here.write(here.path(b"meanwhile"), b"rm ../../meanwhile; dd if=/dev/zero of=out/zeros bs=1k count=200 2>&1; exit 1\n")
    ran = here.begin([*words, here.path(b"coxeter")])
    found, said = ran.communicate(b"input\n")
    shutil.rmtree(here.path(b"crates/building"))
    say("one that gets full", (found, ran.returncode, session(ran)), (b"", 70, 0))
    say("it says so", (b"the program could not be built" in said, b"the disk is full" in said), (True, True))
    check("with room again", here.run(), 7, ONE, True)


try_all(
    shown, beside, inputs, long_answers, none, late, differences, writes, terminals, conversations, others, interrupts, killed, two_at_once,
    folders, disks,
)
