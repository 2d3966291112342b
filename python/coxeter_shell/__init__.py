"""Coxeter groups by the program `coxeter`, for Python and Sage."""
# What is imported as itself is public too, for mypy: it is no name that `from coxeter_shell import *` brings.
from .base import Word as Word
from .certificates import Verdict
from .certificates import check as check
from .classes import ConjugacyClasses
from .errors import (
    CheckFailed,
    CoxeterError,
    ExecutorFailed,
    JobRefusal,
    ProgramClosed,
    ProgramEnded,
    ProgramError,
    ProgramNotFound,
    QuestionTimeout,
    Refusal,
    Unanswered,
    UnexpectedAnswer,
    UnexpectedResult,
)
from .graphs import CellOrder, HasseDiagram, Vertex, WGraph
from .group import CoxeterGroup, Work
from .hecke import Laurent
from .jobs import Answers
from .modules import CellModule, InV
from .polynomial import Polynomial
from .program import Program, find_program
from .provenance import Provenance
from .provenance import Release as Release
from .right_modules import RightCellModule
from .schubert import SchubertVariety
from .tables import Cells, ElementDict, KazhdanLusztigTable, PairDict
from .tables import RowTable as RowTable
from .tables import Table as Table
from .texts import gap as gap

__all__ = [
    "Answers",
    "CellModule",
    "CellOrder",
    "Cells",
    "CheckFailed",
    "ConjugacyClasses",
    "CoxeterError",
    "CoxeterGroup",
    "ElementDict",
    "ExecutorFailed",
    "HasseDiagram",
    "InV",
    "JobRefusal",
    "KazhdanLusztigTable",
    "Laurent",
    "PairDict",
    "Polynomial",
    "Program",
    "ProgramClosed",
    "ProgramEnded",
    "ProgramError",
    "ProgramNotFound",
    "Provenance",
    "QuestionTimeout",
    "Refusal",
    "RightCellModule",
    "SchubertVariety",
    "Unanswered",
    "UnexpectedAnswer",
    "UnexpectedResult",
    "Verdict",
    "Vertex",
    "WGraph",
    "Work",
    "find_program",
]


def __getattr__(name):
    """`__version__`, which is worked out when it is asked for."""
    if name == "__version__":
        from .version import version

        return version()
    raise AttributeError(f"module {__name__!r} has no attribute {name!r}")


def load_ipython_extension(ipython):
    """What `%load_ext coxeter_shell` does in IPython and Jupyter: it brings the cell magic `%%coxeter`."""
    from .magic import coxeter

    ipython.register_magic_function(coxeter, "cell", "coxeter")
