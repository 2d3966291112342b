#!/usr/bin/env python3
"""How long Bruhat intervals take, and how much memory: whole finite groups, and intervals of growing length in affine A 2.

    bench/intervals.py [--instructions] [PROGRAM]
                                the program of this repository, if none is named; it is built first where it is not

Each row asks `betti w` of one element w, as often as makes a run take some tenths of a second. The time of a run that only
sets the group is taken off. Time a member is also given over length times rank, since that is what it may grow by. The peak
of memory is that of a run with one `betti w`, beside that of a run that only sets the group; both are the program's own, as
the kernel keeps them (VmHWM), so this script runs on Linux alone.

With `--instructions` each row has the instructions a member in place of times and memory, counted by valgrind's callgrind:
they do not depend on what else the machine does.
"""
import os
import re
import subprocess
import sys
import tempfile
import time

HERE = os.path.dirname(os.path.abspath(__file__))
TOP = os.path.dirname(HERE)


def cases():
    """The rows: a name, the line that sets the group, its rank, and a word, from intervals.txt."""
    with open(os.path.join(HERE, "intervals.txt"), encoding="ascii") as lines:
        for line in lines:
            if line.strip() and not line.startswith("#"):
                name, group, rank, word = (part.strip() for part in line.split("|"))
                yield name, group, int(rank), word


def run(program, script):
    """The output of a run, and its seconds."""
    start = time.perf_counter()
    ran = subprocess.run([program], input=script.encode(), stdout=subprocess.PIPE)
    seconds = time.perf_counter() - start
    if ran.returncode != 0:
        sys.exit(f"the program ended with status {ran.returncode} on:\n{script}")
    return ran.stdout.decode(), seconds


def peak(program, script, answers):
    """The peak of a run's memory in MiB. It is read once these many lines of answers have come, before the run ends."""
    with subprocess.Popen([program], stdin=subprocess.PIPE, stdout=subprocess.PIPE) as child:
        child.stdin.write(script.encode())
        child.stdin.flush()
        for _ in range(answers):
            child.stdout.readline()
        with open(f"/proc/{child.pid}/status", encoding="ascii") as status:
            kibibytes = re.search(r"^VmHWM:\s*(\d+) kB$", status.read(), re.M).group(1)
        child.stdin.close()
    return int(kibibytes) / 1024


def best(program, script, times=5):
    """The least seconds of some runs."""
    return min(run(program, script)[1] for _ in range(times))


def instructions(program, script):
    """How many instructions a run takes."""
    with tempfile.TemporaryFile() as given:
        given.write(script.encode())
        given.seek(0)
        counting = ["valgrind", "--tool=callgrind", "--callgrind-out-file=/dev/null", program]
        told = subprocess.run(counting, stdin=given, stdout=subprocess.DEVNULL, stderr=subprocess.PIPE, check=True)
    return int(re.search(rb"Collected : (\d+)", told.stderr).group(1))


def count(program):
    """A row for each interval: the instructions of one more `betti`, a member."""
    print(f"{'interval':<22}{'members':>8}{'letters':>8}{'a member':>10}{'/(l*r)':>9}")
    for name, group, rank, word in cases():
        betti, length = run(program, f"{group}\nbetti {word}\nlength {word}\n")[0].splitlines()
        members, letters = sum(map(int, betti.split())), int(length)
        once, twice = (instructions(program, f"{group}\n" + f"betti {word}\n" * times) for times in (1, 2))
        each = (twice - once) / members
        print(f"{name:<22}{members:>8}{letters:>8}{each:>10.0f}{each / (letters * rank):>9.1f}")


def measure(program):
    """A row for each interval: times and memory."""
    print(f"{'interval':<20}{'members':>8}{'letters':>8}{'ms':>9}{'us/member':>10}{'ns/(m*l*r)':>11}{'MiB':>7}{'above':>7}")
    for name, group, rank, word in cases():
        numbers, once = run(program, f"{group}\nbetti {word}\nlength {word}\n")
        betti, length = numbers.splitlines()
        members, letters = sum(map(int, betti.split())), int(length)
        repeats = max(1, min(60, int(0.3 / max(once, 0.001))))
        idle = best(program, f"{group}\n")
        seconds = (best(program, f"{group}\n" + f"betti {word}\n" * repeats) - idle) / repeats
        each = seconds / members
        floor, top = peak(program, f"{group}\nlength e\n", 1), peak(program, f"{group}\nbetti {word}\n", 1)
        print(
            f"{name:<20}{members:>8}{letters:>8}{seconds * 1e3:>9.2f}{each * 1e6:>10.2f}"
            f"{each * 1e9 / (letters * rank):>11.2f}{top:>7.1f}{top - floor:>7.1f}"
        )


def main():
    words = [word for word in sys.argv[1:] if word != "--instructions"]
    if not words:
        run(os.path.join(TOP, "coxeter"), "")
    program = os.path.abspath(words[0] if words else os.path.join(TOP, "crates", "coxeter", "out", "coxeter"))
    (count if len(words) < len(sys.argv) - 1 else measure)(program)


if __name__ == "__main__":
    main()
