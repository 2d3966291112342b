"""The cell magic `%%coxeter`, which runs a cell of a notebook as a script of the program."""
import re
import shlex
import subprocess

from . import parents
from .errors import STATUSES, CoxeterError, Refusal
from .program import find_program


def coxeter(line, cell):
    """Runs the lines of the cell by the program, and prints the answers. The line may have options of the program.

    %%coxeter --workers 2
    type A 3
    pol e 2132
    """
    script = "".join(f"{it}\n" for it in cell.splitlines())
    pipes = {"stdin": subprocess.PIPE, "stdout": subprocess.PIPE}
    with parents.start([find_program(), *shlex.split(line)], **pipes) as process:
        try:
            answers, _ = process.communicate(script.encode())
        except BaseException:
            process.kill()
            raise
    print(with_meanings(answers.decode("latin-1")), end="")
    # The status is 1 where a line was refused, and the answer says so itself.
    if process.returncode not in (0, 1):
        raise CoxeterError(f"exit status {process.returncode}: {STATUSES.get(process.returncode, 'it failed')}")


def with_meanings(answers):
    """The answers, with what each refusal means behind it.

    >>> print(with_meanings("1\\nerror 16\\n"), end="")
    1
    error 16: a word has a letter that the group doesn't have
    """
    return re.sub("^error ([1-9][0-9])$", lambda it: f"{it[0]}: {Refusal(int(it[1]), '').meaning}", answers, flags=re.M)
