"""Programs that stand in for the real one and do something wrong."""
import os
import shlex
import sys
import tempfile

# It hands lines to a program and back. Where one of them is a given one, it ends by a signal, so many times.
RELAYED = """
import os, signal, subprocess, sys
program = subprocess.Popen([{program!r}, *sys.argv[1:]], stdin=subprocess.PIPE, stdout=sys.stdout)
for line in sys.stdin.buffer:
    if line.decode().strip() == {line!r}:
        for k in range({times}):
            try:
                os.mkdir({marks!r} + str(k))
            except FileExistsError:
                continue
            program.kill()
            os.kill(os.getpid(), signal.SIGKILL)
    program.stdin.write(line)
    program.stdin.flush()
program.stdin.close()
sys.exit(program.wait())
"""

# A stand-in says nothing to `type`, `matrix` and blank lines, and `error 19` to the line that marks the end of an answer.
# To other lines it does what its own code says, with the line as `line`.
FAKE = """
import os, signal, sys, time
def say(*lines):
    sys.stdout.write("".join(line + chr(10) for line in lines))
    sys.stdout.flush()
for line in iter(sys.stdin.readline, ""):
    line = line.rstrip(chr(10))
    if line == chr(9):
        say("error 19")
    elif line.split(" ")[0] not in ("type", "matrix", ""):
{code}
"""


# What stands before a program so that it ends by a signal so many times. A folder that can be made once counts each time.
KILLED = """
for k in $(seq {times}); do
    if mkdir '{marks}'$k 2>/dev/null; then kill -9 $$; fi
done
exec '{program}'
"""


class Fakes:
    """A folder of programs, for a `with` block."""

    def __init__(self):
        self.folder = tempfile.TemporaryDirectory()
        self.count = 0

    def __enter__(self):
        return self

    def __exit__(self, *_):
        self.folder.cleanup()

    def python(self, source):
        """A program that runs this Python source."""
        return self.shell(f'exec {shlex.quote(sys.executable)} -c {shlex.quote(source)} "$@"')

    def shell(self, source):
        """A program that runs these commands of a shell."""
        self.count += 1
        path = os.path.join(self.folder.name, f"fake {self.count}")
        with open(path, "w", encoding="utf-8") as out:
            out.write(f"#!/bin/sh\n{source}\n")
        os.chmod(path, 0o755)
        return path

    def fake(self, code):
        """A stand-in with this code."""
        return self.python(FAKE.format(code="".join(f"        {line}\n" for line in code.splitlines())))

    def killed(self, times, program):
        """The program, whose first so many processes end by a signal."""
        return self.shell(KILLED.format(times=times, marks=os.path.join(self.folder.name, f"mark {self.count} "), program=program))

    def killed_by(self, line, times, program):
        """The program, but a process that is asked this line ends by a signal, so many times."""
        marks = os.path.join(self.folder.name, f"asked {self.count} ")
        return self.python(RELAYED.format(line=line, times=times, marks=marks, program=program))

    def kills_its_worker(self, line, times, program):
        """The program, whose parent ends by a signal where it is asked this line, so many times."""
        marks = os.path.join(self.folder.name, f"worker {self.count} ")
        return self.python(RELAYED.format(line=line, times=times, marks=marks, program=program).replace("os.kill(os.getpid(), signal.SIGKILL)", "os.kill(os.getppid(), signal.SIGKILL); os._exit(1)"))

    def saying(self, *lines):
        """A stand-in that answers these lines."""
        return self.fake(f"say(*{lines!r})")
