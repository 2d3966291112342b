"""Small checkouts with the launcher, where a stand-in for `rt` 'builds' a stand-in for the program, for the scripts beside this one."""
import hashlib
import os
import shutil
import signal
import subprocess
import sys
import tempfile
import time

TOP = os.path.dirname(os.path.dirname(os.path.abspath(__file__)))

# What a shell starts in the background ignores an interrupt, and so would all that is started here.
signal.signal(signal.SIGINT, signal.default_int_handler)

# 'Builds' the program of the folder that it is run in: one that prints what the source said at the end of the build, its arguments,
# and its input, and ends with 7, as `rt run` then does. It first does what a file `meanwhile` says, if there is one, and fails where
# the source says so, or where it is run twice at once. Under `lib` it writes down the crate, behind a + where it begins and a - where
# it ends, how many jobs it has, and what it found of that crate from before: all, or what was kept of a run that did not end. It takes
# long where there is a file `slow` beside it. It fails where crates.txt names a crate that has no line there, or one below is not
# proved. `check` is none of its words, since it leaves no library for the crates above.
RT = b"""#!/bin/sh
for count; do :; done
case "$1 $2" in
  "version ")
    echo "rattle-kit-1 logic 0123456789abcdef"
    exit ;;
  "help ")
    [ -e "${0%rt}old" ] || echo "       rt try [NAME]"
    exit ;;
  "try --seconds")
    [ ! -e "${0%rt}old" ] || { echo "usage: rt new FOLDER" >&2; exit 2; }
    [ "$3 $4" = "60 --" ] || exit 2
    shift 4
    echo "$TMPDIR" >>"${0%rt}tried"
    word=$(cat src/main.rt) status=7
    if [ -e ../../trying ]; then . ../../trying; fi
    echo "program of $word:$*"; cat
    printf 'checked: ended status=%s\\nrun=ended status=%s runners=1 races=unchecked proved=no\\n' "$status" "$status" >&2
    exit "$status" ;;
esac
[ "$count" -gt 0 ] || exit 1
echo "stand-in works"
case "$1 $2" in
  "lib --jobs")
    name=${PWD##*/}
    echo "+$name" >>"${0%rt}checked"
    echo "$name $3" >>"${0%rt}jobs"
    [ ! -e out/before ] || echo "$name" >>"${0%rt}again"
    [ ! -e out/incremental ] || echo "$name" >>"${0%rt}kept"
    mkdir -p out/incremental
    for it in $(sed "s/.*://" ../../crates.txt); do
      [ "$it" = std ] || grep -q "^$it:" ../../crates.txt || exit 1
    done
    for it in $(sed "s/:.*//" ../../crates.txt); do
      [ "$it" = "$name" ] || [ -e "../$it/out/rlib/stamp" ] || exit 1
    done
    sleep 1
    [ ! -e "${0%rt}slow" ] || exec sleep 100
    [ "$(cat src/lib.rt)" = broken ] && exit 1
    mkdir -p out/rlib
    : >out/rlib/stamp
    : >out/before
    echo "-$name" >>"${0%rt}checked"
    echo "crate $name: modules loaded=0" ;;
  "run --jobs")
    name=${PWD##*/}
    mkdir ../building || exit 1
    word=$(cat src/main.rt)
    [ "$word" != '$PWD' ] || word=$PWD
    if [ -e ../../meanwhile ]; then . ../../meanwhile; rm ../../meanwhile; fi
    rmdir ../building
    [ "$word" = broken ] && exit 1
    printf '#!/bin/sh\\necho "program of %s:$*"; cat; exit 7\\n' "$word" >"out/$name"
    chmod +x "out/$name"
    exit 7 ;;
  *) exit 1 ;;
esac
"""

# What the first program answers when it is run with no arguments.
ONE = b"program of one:\ninput\n"
BUILDING = b"coxeter: proving and building the program"

# The program that the stand-in builds of a source, and a list of releases that has two such programs.
PROGRAM = b"#!/bin/sh\necho \"program of %s:$*\"; cat; exit 7\n"
RELEASES = """| version | date | commit | kit | sha256 of `coxeter` | sha256 of `coxcheck` |
|---|---|---|---|---|---|
| 1.2 | not released yet | - | - | - | - |
| 1.1 | 2030-01-31 | abab | rattle-kit-1 logic 0123456789abcdef | %s | %s |
"""
counts = {"tried": 0, "differ": 0}


class Checkout:
    """A checkout in a folder of this name, beside a folder with the stand-in `rt`."""

    def __init__(self, base, name=b"checkout"):
        self.tools, self.top = os.path.join(base, b"tools"), os.path.join(base, name)
        os.makedirs(self.tools, exist_ok=True)
        self.write(os.path.join(self.tools, b"rt"), RT)
        os.chmod(os.path.join(self.tools, b"rt"), 0o755)
        os.makedirs(self.top)
        shutil.copy(os.path.join(TOP, "coxeter").encode(), self.top)
        shutil.copytree(os.path.join(TOP, "launch").encode(), self.path(b"launch"))
        self.write(self.path(b"crates.txt"), b"coxeter:\n")
        self.source(b"one")

    def path(self, name):
        return os.path.join(self.top, name)

    def write(self, path, text):
        with open(path, "wb") as out:
            out.write(text)

    def source(self, text, crate=b"coxeter", file=b"main.rt"):
        folder = os.path.join(self.top, b"crates", crate, b"src")
        os.makedirs(folder, exist_ok=True)
        self.write(os.path.join(folder, file), text)

    def release(self, coxeter=b"one", coxcheck=b"six"):
        """Makes a release of programs that were built from these texts, as of the sources that are there."""
        sums = []
        for name in (b"release", b"docs"):
            os.makedirs(self.path(name), exist_ok=True)
        for name, text in ((b"coxeter", coxeter), (b"coxcheck", coxcheck)):
            program = PROGRAM % text
            self.write(self.path(b"release/" + name), program)
            os.chmod(self.path(b"release/" + name), 0o755)
            sums.append(hashlib.sha256(program).hexdigest())
        self.write(self.path(b"docs/RELEASES.md"), (RELEASES % tuple(sums)).encode())
        listed = subprocess.run(["launch/sources"], cwd=self.top, stdout=subprocess.PIPE, check=True).stdout
        self.write(self.path(b"release/sources"), b"1.1 %s\n" % hashlib.sha256(listed).hexdigest().encode())

    def environment(self, tools=True, **more):
        """The environment, with the stand-in on the PATH or no `rt` at all."""
        places = os.environb[b"PATH"].split(b":")
        places = [self.tools] * tools + [it for it in places if not os.path.exists(os.path.join(it, b"rt"))]
        return {**os.environb, b"PATH": b":".join(places), **{name.encode(): value for name, value in more.items()}}

    def run(self, path=None, arguments=(), folder=None, **how):
        words = [path or self.path(b"coxeter"), *arguments]
        ran = self.begin(words, cwd=folder, env=self.environment(**how))
        try:
            out, error = ran.communicate(b"input\n", timeout=60)
        except subprocess.TimeoutExpired:
            os.killpg(ran.pid, signal.SIGKILL)
            out, error = ran.communicate()
        return subprocess.CompletedProcess(words, ran.returncode, out, error)

    def begin(self, words=None, **how):
        """Starts a run that goes on in a session of its own."""
        how = {**{it: subprocess.PIPE for it in ("stdin", "stdout", "stderr")}, "env": self.environment(), **how}
        return subprocess.Popen(words or [self.path(b"coxeter")], start_new_session=True, **how)


def check(what, ran, status, out, building):
    """Compares a run's status and standard output, and whether it said that it builds."""
    counts["tried"] += 1
    built = BUILDING in ran.stderr
    got, want = (ran.returncode, ran.stdout, built), (status, out, building)
    if got != want:
        counts["differ"] += 1
        print(f"{what}: got the status, output and whether it builds {got}, want {want}")


def say(what, got, want):
    """Compares anything else."""
    counts["tried"] += 1
    if got != want:
        counts["differ"] += 1
        print(f"{what}: got {got}, want {want}")


def wait_for(path):
    """Waits until this file or folder is there, half a minute at most."""
    for _ in range(300):
        if os.path.exists(path):
            break
        time.sleep(0.1)


def try_all(*parts):
    """Tries each of these parts in a folder of its own, and ends with the counts."""
    for part in parts:
        with tempfile.TemporaryDirectory() as base:
            part(os.fsencode(base))
    print(f"{counts['tried']} things, {counts['differ']} differ")
    sys.exit(1 if counts["differ"] else 0)
