#!/usr/bin/env python3
"""Runs the gate, and says how many minutes of processor time each crate takes.

    checks/gate_table.py [--write] COMMAND..       as checks/gate_table.py --write .ci/run
    checks/gate_table.py [--write] --log FILE      of a gate that writes into FILE, and runs already or has ended
    checks/gate_table.py --above                   what a change in each crate costs, by the figures of checks/gate.csv

What `rt ci` prints has no times, so its processes are looked at four times a second. Each that runs `rattle` names its crate, and one that
tries an edit stands in a folder of its own. Their times are those of the kernel, with those of processes that they have ended; what ends
between two looks is lost, a quarter of a second at most each time.

It prints a row for each crate, as checks/gate.csv has them: the minutes of its proof with that of its tests, those of its edits, and the
commit that is checked out. With --write it puts the rows there, a summary into docs/DECISIONS.md, and what the gate printed last into
README.md. A proof, or edits, that the gate kept from an earlier run keep their minutes. A crate that is gone loses its row. Of a gate that
has ended only what it printed is known. The exit status is that of the command. It needs Python 3 and Linux alone, and is no part of the
gate.

With --above it runs nothing. A change in a crate proves that crate and all that stand on it anew: the minutes of these are added up.
"""
import argparse
import os
import re
import resource
import subprocess
import sys
import textwrap
import threading
import time

from common import TOP

DECISIONS, README = os.path.join(TOP, "docs", "DECISIONS.md"), os.path.join(TOP, "README.md")
FIGURES = os.path.join(TOP, "checks", "gate.csv")
HEAD = "crate,proof,edits,commit\n"
ROW = re.compile(r"^(\w+),([0-9.]+),([0-9.]+),(\w+)$", re.M)
SUMMARY = re.compile(r"The last run that was measured so is of commit .*?\n\n", re.S)
# What README.md says of the gate, and behind it what that has printed.
PRINTED = re.compile(r"(by the\s+developers' gate .*?is refused\.\n)(\nAt commit `\w+` it printed\n\n(?:    [^\n]*\n)+)?", re.S)
TICKS = os.sysconf("SC_CLK_TCK") * 60


def read(path):
    with open(path, encoding="utf-8") as text:
        return text.read()


def write(path, text):
    with open(path, "w", encoding="utf-8") as out:
        out.write(text)


def words_of(process):
    """The command line of a process, and the folder that it stands in; nothing where it is gone."""
    try:
        with open(f"/proc/{process}/cmdline", "rb") as line:
            return line.read().decode(errors="replace").split("\0")[:-1], os.readlink(f"/proc/{process}/cwd")
    except OSError:
        return [], ""


def processes():
    """Of each process the one that started it, when it began, and its ticks with those of all that it has waited for."""
    found = {}
    for name in os.listdir("/proc"):
        if name.isdigit():
            try:
                with open(f"/proc/{name}/stat", "rb") as line:
                    cells = line.read().rpartition(b")")[2].split()
            except OSError:
                continue
            found[int(name)] = int(cells[1]), int(cells[19]), sum(map(int, cells[11:15]))
    return found


class Watch:
    """The ticks of the processes of a gate, by crate and by what they do."""

    def __init__(self, top):
        self.top, self.kinds, self.ticks = top, {}, {}

    def kind(self, process, begun):
        """The crate that a process works on, and whether it tries an edit; nothing where it does something else."""
        key = process, begun
        if not self.kinds.get(key):
            words, folder = words_of(process)
            is_rattle = bool(words) and os.path.basename(words[0]) == "rattle" and "--crate-name" in words
            self.kinds[key] = (words[words.index("--crate-name") + 1], "/rt-edit-" in folder) if is_rattle else None
        return self.kinds[key]

    def look(self):
        """Looks once at all processes below the top."""
        found, children = processes(), {}
        for process, (parent, _, _) in found.items():
            children.setdefault(parent, []).append(process)
        left = [(process, None) for process in children.get(self.top, [])]
        sums = {}
        while left:
            process, first = left.pop()
            _, begun, ticks = found[process]
            if first is None and self.kind(process, begun):
                first = process, begun
            if first:
                sums[first] = sums.get(first, 0) + ticks
            left += [(child, first) for child in children.get(process, [])]
        for first, ticks in sums.items():
            self.ticks[first] = max(ticks, self.ticks.get(first, 0))
        return self.top in found

    def minutes(self):
        """Of each crate the minutes of its proofs and of its edits."""
        found = {}
        for first, ticks in self.ticks.items():
            crate, is_edit = self.kinds[first]
            found.setdefault(crate, [0.0, 0.0])[is_edit] += ticks / TICKS
        return found


def running_gate():
    """The process of an `rt ci` with no names, if there is one."""
    for process in processes():
        words = words_of(process)[0]
        if any(os.path.basename(word) == "rt" for word in words[:2]) and words[-1] == "ci":
            return process
    return None


def crates():
    """The crates of crates.txt."""
    return re.findall(r"^(\w+)[ :]", read(os.path.join(TOP, "crates.txt")), re.M)


def watched(command, log):
    """What was seen of a gate, what it printed, and its exit status."""
    if not command:
        watch = Watch(running_gate())
        while watch.top and watch.look():
            time.sleep(0.25)
        with open(log, encoding="utf-8", errors="replace") as text:
            return watch, text.read(), 0
    ran = subprocess.Popen(command, cwd=TOP, stdin=subprocess.DEVNULL, stdout=subprocess.PIPE, stderr=subprocess.STDOUT)
    watch, ended = Watch(ran.pid), threading.Event()

    def look_on():
        while not ended.wait(0.25):
            watch.look()

    looks = threading.Thread(target=look_on)
    looks.start()
    printed = []
    for line in ran.stdout:
        printed.append(line.decode(errors="replace"))
        print(printed[-1], end="", flush=True)
    status = ran.wait()
    ended.set()
    looks.join()
    return watch, "".join(printed), status


def above():
    """Of each crate how many stand on it, and the minutes of it and of these, the most first."""
    minutes = {crate: float(proof) + float(edits) for crate, proof, edits, _ in ROW.findall(read(FIGURES))}
    below = {crate: names.split() for crate, names in re.findall(r"^(\w+)[^:\n]*:(.*)$", read(os.path.join(TOP, "crates.txt")), re.M)}

    def stands_on(crate, lower):
        return any(name == lower or stands_on(name, lower) for name in below.get(crate, []))

    upper = {crate: [other for other in below if stands_on(other, crate)] for crate in below}
    costs = {crate: sum(minutes.get(it, 0.0) for it in [crate, *upper[crate]]) for crate in below}
    for crate in sorted(costs, key=lambda crate: -costs[crate]):
        print(f"{costs[crate]:6.1f} min  {crate}, with the {len(upper[crate])} crates above it")


def main():
    parser = argparse.ArgumentParser(description=__doc__, formatter_class=argparse.RawDescriptionHelpFormatter)
    parser.add_argument("--write", action="store_true")
    parser.add_argument("--log")
    parser.add_argument("--above", action="store_true")
    parser.add_argument("command", nargs=argparse.REMAINDER)
    given = parser.parse_args()
    if bool(given.command) + bool(given.log) + given.above != 1:
        parser.error("give a command, --log FILE, or --above")
    if given.above:
        above()
        return
    begun = time.monotonic()
    watch, printed, status = watched(given.command, given.log)
    clock = (time.monotonic() - begun) / 60
    used = resource.getrusage(resource.RUSAGE_CHILDREN)
    kept = re.findall(r"^rt: (\w+) is kept:", printed, re.M)
    tried = re.findall(r"^rt: (\w+): [0-9]+ of its [0-9]+ must-fail edits were tried by an earlier run", printed, re.M)
    commit = subprocess.run(["git", "rev-parse", "--short=8", "HEAD"], cwd=TOP, stdout=subprocess.PIPE, text=True).stdout.strip()
    rows = {crate: (float(proof), float(edits), of) for crate, proof, edits, of in ROW.findall(read(FIGURES)) if crate in crates()}
    for crate, (proof, edits) in watch.minutes().items():
        if crate in crates() and not (crate in kept and (crate in tried or not edits)):
            before = rows.get(crate, (0.0, 0.0, commit))
            rows[crate] = (before[0] if crate in kept else proof, before[1] if crate in tried else edits, commit)
    table = HEAD
    for crate, (proof, edits, of) in sorted(rows.items(), key=lambda row: -sum(row[1][:2])):
        table += f"{crate},{proof:.1f},{edits:.1f},{of}\n"
    proofs, edits = (sum(row[place] for row in rows.values()) for place in (0, 1))
    summary = f"The last run that was measured so is of commit {commit}: {len(crates())} crates, {len(kept)} of them kept from earlier runs, "
    summary += f"{clock:.0f} minutes of the clock on {os.cpu_count()} processors"
    summary += f", and {(used.ru_utime + used.ru_stime) / 60:.0f} of processor time. " if given.command else ". "
    summary += f"By checks/gate.csv proofs take {proofs:.1f} minutes, and edits {edits:.1f}: {proofs + edits:.1f} together.\n"
    summary = textwrap.fill(summary, 100) + "\n"
    last = re.findall(r"^(?:rt: ok; .*|[0-9]+ passed.*)$", printed, re.M)
    print(f"\n{table}\n{summary}")
    missing = [crate for crate in crates() if crate not in rows]
    if missing:
        print(f"no figures of {' '.join(missing)}: the gate kept what it had proved of them before")
    if given.write and watch.ticks:
        write(FIGURES, table)
        write(DECISIONS, SUMMARY.sub(lambda _: summary + "\n", read(DECISIONS)))
    if given.write and last and last[-1].endswith(" 0 failed"):
        told = f"\nAt commit `{commit}` it printed\n\n" + "".join(f"    {line}\n" for line in last)
        write(README, PRINTED.sub(lambda found: found.group(1) + told, read(README), count=1))
    sys.exit(status)


main()
