#!/usr/bin/env python3
"""Tries the script ./coxeter in small checkouts of its own, where a stand-in for `rt` 'builds' a stand-in for the program.

    checks/launcher.py

It prints what differs, and a last line with counts; the exit status is 1 where something differs. It needs Python 3 alone.
"""
import os
import pty
import shutil
import signal
import subprocess
import sys
import time

from checkouts import ONE, PROGRAM, RELEASES, TOP, Checkout, check, say, try_all, wait_for

sys.path.insert(0, os.path.join(TOP, "python"))
from coxeter_shell.version import NEWEST  # noqa: E402


def changes(base):
    """Builds when something changed, and else doesn't."""
    here = Checkout(base)
    check("a first run builds", here.run(arguments=["a", "b c"]), 7, b"program of one:a b c\ninput\n", True)
    check("a second run doesn't", here.run(), 7, ONE, False)
    here.source(b"two")
    check("a changed source", here.run(), 7, b"program of two:\ninput\n", True)
    here.write(here.path(b"crates/coxeter/src/more.rt"), b"more")
    check("a new source", here.run(), 7, b"program of two:\ninput\n", True)
    os.remove(here.path(b"crates/coxeter/src/more.rt"))
    check("a source that is gone", here.run(), 7, b"program of two:\ninput\n", True)
    os.utime(here.path(b"crates.txt"), (time.time() + 1e6,) * 2)
    check("a source dated in the future", here.run(), 7, b"program of two:\ninput\n", False)
    os.utime(here.path(b"crates/coxeter/out/coxeter"))
    check("a program dated anew", here.run(), 7, b"program of two:\ninput\n", False)
    here.write(here.path(b"crates/coxeter/out/coxeter"), b"#!/bin/sh\necho another\n")
    check("another program in its place", here.run(), 7, b"program of two:\ninput\n", True)
    here.source(b"three")
    here.write(here.path(b"meanwhile"), b"printf four >src/main.rt\n")
    check("a source that changes while it is built", here.run(), 7, b"program of three:\ninput\n", True)
    check("and is built by the next run", here.run(), 7, b"program of four:\ninput\n", True)
    check("and only by that", here.run(), 7, b"program of four:\ninput\n", False)
    here.source(b"five")
    here.write(here.path(b"meanwhile"), b"printf broken >src/main.rt\n")
    check("a source that breaks while it is built", here.run(), 7, b"program of five:\ninput\n", True)
    check("and can't be built by the next run", here.run(), 70, b"", True)
    check("nor by the one after it", here.run(), 70, b"", True)
    here.source(b"five")
    check("a source that is mended", here.run(), 7, b"program of five:\ninput\n", False)


def places(base):
    """Finds its checkout wherever it is called from."""
    here = Checkout(base)
    link, second = os.path.join(base, b"link"), os.path.join(base, b"tools", b"second")
    os.symlink(b"checkout/coxeter", link)
    os.symlink(b"../link", second)
    check("through a symbolic link", here.run(link, folder="/"), 7, ONE, True)
    check("through two", here.run(second, folder="/"), 7, ONE, False)
    check("by its name on the PATH", here.run(b"second"), 7, ONE, False)
    os.makedirs(os.path.join(base, b"other/checkout"))
    cd = {"CDPATH": os.path.join(base, b"other")}
    check("with CDPATH set", here.run(b"checkout/coxeter", folder=base, **cd), 7, ONE, False)
    check("with CDPATH set, as ./coxeter", here.run(b"./coxeter", folder=here.top, **cd), 7, ONE, False)
    for name in (b"not UTF-8 \xff\xfe", b"- $(false) `'\"", "Ω".encode()):
        there = Checkout(base, name)
        check(f"in the folder {name!r}", there.run(folder="/"), 7, ONE, True)
        check(f"from the folder {name!r}", there.run(b"./coxeter", folder=there.top), 7, ONE, False)
    check("as bash reads it", here.run(b"bash", [here.path(b"coxeter")]), 7, ONE, False)


def names(base):
    """Runs the program that it has the name of."""
    here = Checkout(base)
    here.write(here.path(b"crates.txt"), b"coxeter:\ncoxcheck:\n")
    here.source(b"six", b"coxcheck")
    os.symlink(b"coxeter", here.path(b"coxcheck"))
    other = os.path.join(base, b"other")
    os.symlink(b"checkout/coxcheck", other)
    check("another program", here.run(here.path(b"coxcheck")), 7, b"program of six:\ninput\n", False)
    check("by a link with a name of its own", here.run(other), 7, b"program of six:\ninput\n", False)
    check("the first one beside it", here.run(), 7, ONE, True)
    say("the other one", here.run(here.path(b"coxcheck"), ["a"]).stdout, b"program of six:a\ninput\n")


def failures(base):
    """Says so where it can't build."""
    here = Checkout(base)
    ran = here.run(tools=False)
    check("without rt", ran, 127, b"", False)
    say("without rt it names the page", b"docs/INSTALL.md" in ran.stderr, True)
    here.source(b"broken")
    ran = here.run()
    check("a source that can't be built", ran, 70, b"", True)
    say("what rt says stands in a file", b"stand-in works" in ran.stderr, False)
    with open(here.path(b"crates/coxeter/out/build.log"), "rb") as log:
        say("the file that is named", (log.name in ran.stderr, log.read()), (True, b"stand-in works\n"))
    here.source(b"one")
    check("mended", here.run(), 7, ONE, True)
    ran = here.run(tools=False)
    check("without rt, once it is built", ran, 7, ONE, False)
    say("it says nothing then", ran.stderr, b"")
    here.source(b"two")
    ran = here.run(tools=False)
    check("without rt, when a source has changed", ran, 7, ONE, False)
    say("it says that on a line", (ran.stderr.count(b"\n"), b"no command rt" in ran.stderr), (1, True))
    check("with rt again", here.run(), 7, b"program of two:\ninput\n", True)


def noted(here, what):
    """What the stand-in wrote into that file beside it. The file goes."""
    path = os.path.join(here.tools, what.encode())
    if not os.path.exists(path):
        return []
    with open(path, "rb") as file:
        lines = file.read().splitlines()
    os.remove(path)
    return lines


def most_at_once(rows):
    """How many crates were proved at once, by the rows that the stand-in wrote."""
    now = most = 0
    for row in rows:
        now += 1 if row.startswith(b"+") else -1
        most = max(most, now)
    return most


def crates(base):
    """Proves several crates at once, each behind those that it stands on, and only those of the program."""
    here = Checkout(base)
    chain = {b"low1": b"", b"low2": b"low1", b"low5": b"low2", b"low6": b"low5"}
    uses = {**chain, b"low3": b"", b"low4": b"", b"low7": b"", b"low8": b"", b"high": b"low4 std"}
    rows = b"".join(b"%b: %b\n" % it for it in uses.items())
    here.write(here.path(b"crates.txt"), b"# all\ncoxeter: low6 low5 low3 low7 low8 high std\n%bother: low1\n" % rows)
    for crate in [b"other", *uses]:
        here.source(b"//! Code.\n" * (2 if crate in chain else 1), crate, b"lib.rt")

    ran = here.begin(stdin=subprocess.DEVNULL)
    out, said = ran.communicate()
    say("a program of several crates", (out, ran.returncode), (b"program of one:\n", 7))
    jobs = int(said.split(b" checks at once")[0].split()[-1])
    lines = noted(here, "checked")
    say("what is proved", sorted(it for it in lines if it.startswith(b"+")), sorted(b"+" + it for it in uses))
    early = [(it, low) for it in uses for low in uses[it].replace(b"std", b"").split() if lines.index(b"+" + it) < lines.index(b"-" + low)]
    say("each behind those that it stands on", early, [])
    say("the longest chain first", lines[0], b"+low1")
    say("how many at once", most_at_once(lines), min(5, jobs))
    each = {name: int(count) for name, count in map(bytes.split, noted(here, "jobs"))}
    say("the longest chain has all jobs", [each[it] for it in chain], [jobs] * 4)
    first, last = lines.index(b"+low1"), lines.index(b"-low6")
    beside = [it for it in uses if it not in chain and b"+" + it in lines[first:last]]
    say("what begins beside it has one", [each[it] for it in beside], [1] * len(beside))
    names = [*uses, b"other"]
    say("what came of it", [os.path.exists(here.path(b"crates/%b/out/rlib/stamp" % it)) for it in names], [True] * 9 + [False])
    say("no folder is left", os.path.exists(here.path(b"crates/coxeter/out/rooms")), False)
    here.source(b"two")
    check("another time", here.run(), 7, b"program of two:\ninput\n", True)
    say("nothing is proved ahead then", noted(here, "checked"), [])
    time.sleep(1.1)
    here.source(b"//! Other code.\n", b"low5", b"lib.rt")
    check("a lower crate that changed", here.run(), 7, b"program of two:\ninput\n", True)
    say("it and those above it", noted(here, "checked"), [b"+low5", b"-low5", b"+low6", b"-low6"])
    say("by what is there of them", noted(here, "again"), [b"low5", b"low6"])
    time.sleep(1.1)
    here.source(b"broken", b"low2", b"lib.rt")
    here.source(b"broken")
    check("a lower crate that is refused", here.run(), 70, b"", True)
    say("nothing above it is tried", noted(here, "checked"), [b"+low2"])
    say("what was there of it stays", os.path.exists(here.path(b"crates/low2/out/before")), True)


def tenths(base):
    """Crates whose chains differ by less than a tenth all have all jobs, and shorter ones have one."""
    here = Checkout(base)
    here.write(here.path(b"crates.txt"), b"coxeter: low1 low2 low3\nlow1:\nlow2:\nlow3:\n")
    for crate, lines in ((b"coxeter", 0), (b"low1", 400), (b"low2", 350), (b"low3", 100)):
        here.source(b"//! Code.\n" * lines, crate, b"lib.rt")
    ran = here.begin(stdin=subprocess.DEVNULL)
    out, said = ran.communicate()
    jobs = int(said.split(b" checks at once")[0].split()[-1])
    say("crates of about the same chain", (out, ran.returncode), (b"program of one:\n", 7))
    each = {name: int(count) for name, count in map(bytes.split, noted(here, "jobs"))}
    say("their jobs", (each[b"low1"], each[b"low2"]), (jobs, jobs))
    say("those of a shorter one beside them", each[b"low3"] if jobs > 2 else 1, 1)


def turns(base):
    """Builds once where it is called twice, and again where it was interrupted."""
    here = Checkout(base)
    building = here.path(b"crates/building")
    here.write(here.path(b"meanwhile"), b"sleep 5\n")
    first = here.begin()
    wait_for(building)
    second = here.run()
    check("the second of two at once", second, 7, ONE, False)
    say("it says that it waits", b"waiting" in second.stderr, True)
    say("the first of them", (first.communicate(b"input\n")[0], first.returncode), (ONE, 7))
    here.source(b"two")
    here.write(here.path(b"meanwhile"), b"exec sleep 100\n")
    cut = here.begin()
    wait_for(building)
    os.killpg(cut.pid, signal.SIGINT)
    say("one that is interrupted", (cut.communicate()[0], cut.returncode), (b"", 70))
    os.rmdir(building)
    os.remove(here.path(b"meanwhile"))
    check("the one after it", here.run(), 7, b"program of two:\ninput\n", True)


def goes_on(base):
    """Goes on with what was kept of a crate whose proof was not ended."""
    here = Checkout(base)
    here.write(here.path(b"crates.txt"), b"coxeter: low\nlow:\n")
    here.source(b"//! Code.\n", b"low", b"lib.rt")
    here.write(os.path.join(here.tools, b"slow"), b"")
    for number, kept in ((signal.SIGINT, []), (signal.SIGKILL, [b"low"])):
        cut = here.begin(stdin=subprocess.DEVNULL)
        wait_for(os.path.join(here.tools, b"checked"))
        time.sleep(0.5)
        os.killpg(cut.pid, number)
        cut.communicate()
        say(f"cut by {number.name}", (noted(here, "checked"), noted(here, "kept")), ([b"+low"], kept))
    os.remove(os.path.join(here.tools, b"slow"))
    check("the one after these", here.run(), 7, ONE, True)
    say("it goes on", noted(here, "kept"), [b"low"])
    time.sleep(1.1)
    here.source(b"broken", b"low", b"lib.rt")
    shutil.rmtree(here.path(b"crates/low/out/incremental"))
    here.source(b"broken")
    check("a crate that is refused", here.run(), 70, b"", True)
    say("what was kept of it", os.path.exists(here.path(b"crates/low/out/incremental")), True)


def running(base):
    """Leaves nothing behind when the program runs."""
    here = Checkout(base)
    here.write(here.path(b"meanwhile"), b"echo 'crate coxeter: modules loaded=0'\n")
    first = here.begin()
    say("a program that runs", first.stdout.readline(), b"program of one:\n")
    here.source(b"two")
    second = here.run()
    check("a build meanwhile", second, 7, b"program of two:\ninput\n", True)
    say("it does not wait", b"waiting" in second.stderr, False)
    time.sleep(3)
    rest, said = first.communicate(b"input\n")
    say("the first one goes on", (rest, said.count(b"\n")), (b"input\n", 1))


def progress(base):
    """Says how far it is."""
    here = Checkout(base)
    work = b"echo 'crate coxeter: modules loaded=0'; sleep 5\n"
    here.write(here.path(b"meanwhile"), work)
    say("once it is done", b"coxeter: 1 of 1 crates proved in 0 min, about 1 min left\n" in here.run().stderr, True)
    here.source(b"two")
    here.write(here.path(b"meanwhile"), work)
    terminal, end = pty.openpty()
    here.begin(stdin=subprocess.DEVNULL, stderr=end).communicate()
    os.close(end)
    shown = os.read(terminal, 1 << 16)
    say("on a terminal", [b"\r" + b"coxeter: %d of 1 crates" % it in shown for it in (0, 1)], [False, True])


def kept(base):
    """What was found by sums is taken again while no file has changed, and no longer."""
    here = Checkout(base)
    here.run()
    source, program, ready = (here.path(b"crates/coxeter/" + it) for it in (b"src/main.rt", b"out/coxeter", b"out/coxeter.ready"))
    check("just built", here.run(), 7, ONE, False)
    say("is not kept", os.path.exists(ready), False)

    def settle():
        time.sleep(4.1)
        here.run()
        say("some seconds later it is", os.path.exists(ready), True)

    def disguised(path, text):
        """Another text of the same length in a file, of the same date."""
        dates = os.stat(path)
        here.write(path, text)
        os.utime(path, ns=(dates.st_atime_ns, dates.st_mtime_ns))

    settle()
    check("the next run", here.run(), 7, ONE, False)
    here.write(os.path.join(here.tools, b"sha256sum"), b"#!/bin/sh\necho sum >>\"${0%/*}/sums\"\nexec /usr/bin/sha256sum \"$@\"\n")
    os.chmod(os.path.join(here.tools, b"sha256sum"), 0o755)
    check("with a look at the sums", here.run(), 7, ONE, False)
    say("there is none", noted(here, "sums"), [])
    disguised(source, b"two")
    check("a source of the same length and date", here.run(), 7, b"program of two:\ninput\n", True)
    settle()
    disguised(program, PROGRAM % b"owt")
    check("a program of the same length and date", here.run(), 7, b"program of two:\ninput\n", True)
    settle()
    os.utime(source, (time.time() + 1e6,) * 2)
    check("a source dated in the future", here.run(), 7, b"program of two:\ninput\n", False)
    settle()
    disguised(source, b"six")
    check("one that changes then", here.run(), 7, b"program of six:\ninput\n", True)
    settle()
    here.write(here.path(b"crates/coxeter/src/more.rt"), b"more")
    check("a new source", here.run(), 7, b"program of six:\ninput\n", True)
    settle()
    os.remove(here.path(b"crates/coxeter/src/more.rt"))
    check("a source that is gone", here.run(), 7, b"program of six:\ninput\n", True)
    settle()
    os.remove(program)
    check("a program that is gone", here.run(), 7, b"program of six:\ninput\n", True)
    settle()
    moved = os.path.join(base, b"moved")
    os.rename(here.top, moved)
    check("in another place", here.run(os.path.join(moved, b"coxeter")), 7, b"program of six:\ninput\n", False)


def released(base):
    """Runs the program of a release of the sources that are there, with the toolchain or without, and says so once."""
    here = Checkout(base)
    here.write(here.path(b"crates.txt"), b"coxeter:\ncoxcheck:\n")
    here.source(b"six", b"coxcheck")
    os.symlink(b"coxeter", here.path(b"coxcheck"))
    here.release()
    ran = here.run(arguments=["a", "b c"], tools=False)
    check("a release", ran, 7, b"program of one:a b c\ninput\n", False)
    line = b"coxeter: version 1.1, proved and built from exactly these sources; launch/prove proves and builds it here\n"
    say("it says which", ran.stderr, line)
    ran = here.run()
    check("again, with rt", ran, 7, ONE, False)
    say("it says nothing then", ran.stderr, b"")
    ran = here.run(here.path(b"coxcheck"))
    say("the other program", (ran.stdout, ran.returncode, ran.stderr.startswith(b"coxcheck: version 1.1")), (b"program of six:\ninput\n", 7, True))
    say("nothing is built", (noted(here, "checked"), noted(here, "tried")), ([], []))
    check("--help is the program's own", here.run(arguments=["--help"]), 7, b"program of one:--help\ninput\n", False)
    time.sleep(4.1)
    here.run()
    say("it is kept", os.path.exists(here.path(b"crates/coxeter/out/coxeter.ready")), True)
    say("and says nothing", here.run().stderr, b"")
    here.source(b"two")
    ran = here.run(tools=False)
    check("a source that has changed, without rt", ran, 127, b"", False)
    why = b"coxeter: release/coxeter is not run: it is version 1.1, of other sources than those that are there\n"
    say("it says why", (ran.stderr.startswith(why), ran.stderr.count(b"\n")), (True, 2))
    ran = here.run()
    check("with rt", ran, 7, b"program of two:\ninput\n", True)
    say("it says that too", why in ran.stderr, True)
    here.source(b"one")
    check("the source as it was", here.run(), 7, ONE, False)
    os.rename(here.path(b"release"), here.path(b"other"))
    ran = here.run()
    check("no release", ran, 7, ONE, True)
    say("of which nothing is said", b"release" in ran.stderr, False)

    first = here.begin()
    second = here.begin()
    for ran in (first, second):
        say("two at once", (ran.communicate(b"input\n")[0], ran.returncode), (ONE, 7))


def refused(base):
    """A release that is changed, or can't be run, is not run, and it says why."""
    for number, (why, change) in enumerate([
        (b"it is not version 1.1, by the checksum in docs/RELEASES.md", "printf x >>release/coxeter"),
        (b"it is not version 1.1, by the checksum in docs/RELEASES.md", "head -c 20 release/coxeter >cut; cat cut >release/coxeter"),
        (b"it is not version 1.1, by the checksum in docs/RELEASES.md", "cp release/coxcheck release/coxeter"),
        (b"docs/RELEASES.md has no checksum of it for version 1.1", "rm docs/RELEASES.md"),
        (b"docs/RELEASES.md has no checksum of it for version 1.1", "sed -i 's/ 1[.]1 / 1.0 /' docs/RELEASES.md"),
        (b"docs/RELEASES.md has no checksum of it for version 1.2", "sed -i 's/^1[.]1/1.2/' release/sources"),
        (b"it is version 1.1, of other sources than those that are there", "echo '1.1 0123' >release/sources"),
        (b"release/sources can not be read", "rm release/sources"),
        (b"release/sources can not be read", "printf '' >release/sources"),
        (b"there is no such file", "rm release/coxeter"),
        (b"it may not be run: its mode is without x", "chmod a-x release/coxeter"),
        (b"this machine can not run it: it needs Linux on x86-64", "echo exit 1 >release/coxeter; sed -i 's/ [0-9a-f]*\\( | [0-9a-f]* |$\\)/ '$(sha256sum release/coxeter | cut -d' ' -f1)'\\1/' docs/RELEASES.md"),
        (b"this machine can not run it: it needs Linux on x86-64", "printf '#!/bin/sh\\necho Linux aarch64\\n' >../tools/uname; chmod +x ../tools/uname"),
    ]):
        here = Checkout(os.path.join(base, b"%d" % number))
        here.release()
        if number % 2:
            time.sleep(4.1)
            here.run()
            say("the release is kept", os.path.exists(here.path(b"crates/coxeter/out/coxeter.ready")), True)
            shutil.rmtree(here.path(b"crates/coxeter/out"))
        subprocess.run(change, shell=True, cwd=here.top, check=True)
        ran = here.run()
        check(change, ran, 7, ONE, True)
        say(f"{change}: it says why", b"coxeter: release/coxeter is not run: " + why in ran.stderr, True)
        if b"tools" not in change.encode():
            os.remove(here.path(b"crates/coxeter/out/coxeter"))
            ran = here.run(tools=False)
            check(f"{change}, without rt", ran, 127, b"", False)
            say(f"{change}: it says both", (why in ran.stderr, b"no command rt" in ran.stderr, ran.stderr.count(b"\n")), (True, True, 2))
        say("the release is as it was", sorted(os.listdir(here.path(b"release")))[-1:], [b"sources"] if b"rm release/sources" not in change.encode() else [b"coxeter"])


def places_of_others(base):
    """Where nothing can be written, and where nothing can be run."""
    here = Checkout(base)
    here.release()
    os.chmod(base, 0o755)

    def as_nobody():
        if os.geteuid() == 0:
            os.setgid(65534)
            os.setuid(65534)

    os.chmod(here.path(b"crates/coxeter"), 0o555)
    for what in ("a checkout of someone else", "again"):
        ran = here.begin(preexec_fn=as_nobody)
        out, said = ran.communicate(b"input\n")
        say(what, (out, ran.returncode, said), (ONE, 7, b""))
    terminal, end = pty.openpty()
    ran = here.begin(preexec_fn=as_nobody, stderr=end)
    out, _ = ran.communicate(b"input\n")
    os.close(end)
    say("on a terminal it says which release it is", (out, b"coxeter: version 1.1" in os.read(terminal, 1 << 16)), (ONE, True))
    os.close(terminal)
    say("nothing is left there", os.listdir(here.path(b"crates/coxeter")), [b"src"])
    mounted = 'mount --bind "$1" "$1" && mount -o remount,bind,noexec "$1" && shift && exec "$@"'
    words = ["unshare", "--user", "--map-root-user", "--mount", "sh", "-c", mounted, "sh", here.top]
    if subprocess.run([*words, "true"]).returncode:
        print("no folder could be mounted, so none was without programs")
        return
    ran = here.begin([*words, "sh", here.path(b"coxeter")])
    out, said = ran.communicate(b"input\n")
    say("mounted with noexec", (out, ran.returncode, said.count(b"\n"), b"noexec" in said), (b"", 70, 1, True))


def proves(base):
    """launch/prove proves and builds both programs, and compares them with the release."""
    here = Checkout(base)
    here.write(here.path(b"crates.txt"), b"coxeter: low\nlow:\ncoxcheck: low\n")
    here.source(b"//! Code.\n", b"low", b"lib.rt")
    here.source(b"six", b"coxcheck")
    os.symlink(b"coxeter", here.path(b"coxcheck"))

    def lines(**how):
        ran = here.run(here.path(b"launch/prove"), folder="/", **how)
        said = [b"no release" if b"; there is no release" in it else it.partition(b"; ")[2][:8] for it in ran.stdout.splitlines()]
        return ran.returncode, said, ran.stderr

    say("without rt", lines(tools=False)[:2], (127, []))
    say("without a release", lines()[:2], (0, [b"no release"] * 2))
    say("what was proved", noted(here, "checked"), [b"+low", b"-low"])
    here.release()
    say("compared with one", lines()[:2], (0, [b"the same"] * 2))
    say("nothing is proved again", noted(here, "checked"), [])
    check("the program is the one that was built here", here.run(), 7, ONE, False)
    say("so nothing is said", here.run().stderr, b"")
    here.source(b"two")
    here.release()
    ran = here.run()
    check("a release of other sources than those it was built from here", ran, 7, ONE, False)
    status, said, _ = lines()
    say("one that comes out different", (status, said), (1, [b"NOT THE ", b"the same"]))
    check("what was built here is run", here.run(), 7, b"program of two:\ninput\n", False)
    here.source(b"broken")
    say("a source that is refused", lines()[:2], (70, []))
    here.source(b"three")
    here.write(here.path(b"meanwhile"), b"printf four >src/main.rt\n")
    status, said, _ = lines()
    say("a source that changes meanwhile", (status, said[0]), (1, b""))


# Runs checks/release where programs name the logic of the stand-in kit.
MAKE = """
import runpy, sys
sys.path[:0] = ["checks", "python"]
from coxeter_shell import elf
elf.logic = lambda data: "0123456789abcdef" * 4
runpy.run_path("checks/release", run_name="__main__")
"""


def makes(base):
    """checks/release makes a release of what was built, and says whether it is of the crates that are there."""
    here = Checkout(base)
    here.write(here.path(b"crates.txt"), b"coxeter:\ncoxcheck:\n")
    answer = b'" >/dev/null; echo 4; echo 1+q; echo cert; : "'
    here.source(answer)
    here.source(b'" >/dev/null; echo yes; exit 0; "', b"coxcheck")
    os.symlink(b"coxeter", here.path(b"coxcheck"))
    for name in ("checks", "python"):
        shutil.copytree(os.path.join(TOP, name).encode(), here.path(name.encode()), symlinks=True)
    here.write(here.path(b".gitignore"), b"out/\n__pycache__/\n")
    os.makedirs(here.path(b"docs"))
    version = NEWEST.encode()
    listed = (RELEASES % ("a" * 64, "b" * 64)).encode().replace(b"| 1.1 |", b"| 0.9 |").replace(b"| 1.2 |", b"| %b |" % version)
    here.write(here.path(b"docs/RELEASES.md"), listed)

    def git(command):
        subprocess.run(f"git -c user.name=x -c user.email=x {command}", shell=True, cwd=here.top, check=True, stdout=subprocess.DEVNULL)

    def made(*checkouts):
        ran = here.run(sys.executable, ["-B", "-c", MAKE, "--make", *checkouts], folder=here.top)
        return ran.returncode, ran.stderr

    def told():
        ran = here.run(sys.executable, ["-B", "-c", MAKE], folder=here.top)
        return ran.returncode, ran.stdout

    def not_made(what, why, *checkouts):
        status, said = made(*checkouts)
        with open(here.path(b"docs/RELEASES.md"), "rb") as file:
            left = file.read() == listed, os.path.exists(here.path(b"release"))
        say(f"no release: {what}", (status, why in said, left), (1, True, (True, False)))

    git("init -q .")
    git("add .")
    git("commit -qm x")
    say("there is none", told(), (0, b"there is no release/\n"))
    not_made("nothing is built", b"there is no program")
    say("both are built", here.run(here.path(b"launch/prove")).returncode, 0)
    record = here.path(b"crates/coxcheck/out/coxcheck.built-from")
    os.rename(record, record + b".aside")
    not_made("one that nobody knows of", b"not by launch/prove or the gate")
    here.write(here.path(b"crates/coxcheck/out/coxcheck.by-rattle"), b"")
    os.utime(here.path(b"crates/coxcheck/src/main.rt"), (time.time() + 100,) * 2)
    not_made("one that is older than a source", b"not by launch/prove or the gate")
    os.utime(here.path(b"crates/coxcheck/src/main.rt"), (time.time() - 100,) * 2)
    other = os.path.join(base, b"another")
    shutil.copytree(here.top, other, symlinks=True)
    with open(os.path.join(other, b"crates/coxcheck/out/coxcheck"), "ab") as program:
        program.write(b"#\n")
    not_made("another program elsewhere", b"not the same in all", here.top, other)
    here.source(b"two")
    not_made("a source that is not of the commit", b"these differ from the commit")
    here.source(answer)
    os.utime(here.path(b"crates/coxeter/src/main.rt"), (time.time() - 100,) * 2)
    os.remove(os.path.join(other, b"crates/coxcheck/src/main.rt"))
    not_made("other sources elsewhere", b"are others than those here", other)
    shutil.rmtree(other)
    shutil.copytree(here.top, other, symlinks=True)
    ran = made(here.top, other)
    say("a release", ran, (0, b""))
    say("it is of the crates that are there", told(), (0, b"release/ is version %b, of the crates that are there\n" % version))
    git("add .")
    git("commit -qm release")
    clone = os.path.join(base, b"clone")
    subprocess.run(["git", "clone", "-q", here.top, clone], check=True)
    ran = here.run(os.path.join(clone, b"coxeter"), tools=False)
    say("a clone runs it without rt", (ran.stdout, ran.returncode), (b"4\n1+q\ncert\ninput\n", 7))
    here.source(b"two")
    say("of other crates", told()[0:1] + (b"of other crates than these" in told()[1],), (0, True))
    with open(here.path(b"release/coxeter"), "ab") as program:
        program.write(b"#\n")
    os.chmod(here.path(b"release/coxcheck"), 0o644)
    here.write(here.path(b"release/more"), b"")
    status, said = told()
    say("one that has changed", (status, said.count(b"\n")), (1, 4))
    git("checkout -q release")
    os.remove(here.path(b"release/sources"))
    say("one without a record", told()[0], 1)


try_all(
    changes, places, names, failures, crates, tenths, turns, goes_on, running, progress, kept, released, refused, places_of_others, proves,
    makes,
)
