"""What the prompt calls a group, and what it says where one is set."""
import re

from . import kinds
from .prompt_words import BY_PACKAGE

# The types whose nodes Coxeter 3 numbers otherwise. C n is B n.
OTHERWISE = "BCDF"


def name(given, group):
    """The name of a group, as `type` shows it behind its word: the one by which it was given, or its `matrix` line.

    >>> [name(it, CoxeterGroup(it)) for it in ("C3", "b 3", "A2xB 2", "matrix 2 4")]
    ['C 3', 'b 3', 'A 2 x B 2', 'matrix 2 4']
    """
    if kinds.PRODUCT.fullmatch(given):
        return " x ".join(type_name(kinds.read(it).cartan) for it in re.split("[x×]", given))
    return type_name(group._cartan) if group._cartan is not None else group.line


def type_name(cartan):
    """The name of a Cartan type.

    >>> type_name(("B", 3)), type_name(("B", 3, 1))
    ('B 3', 'b 3')
    """
    letter, number, *affine = cartan
    return f"{letter.lower() if affine else letter} {number}"


def remarks(called, group):
    """What is said of a group of this name: what the package gives the program in its place, and where Coxeter 3 has other numbers.

    >>> remarks("C 3", CoxeterGroup("C", 3))[0]
    '-- type C 3 by the package, not proved: type B 3'
    """
    said = []
    if group.line not in (called, f"type {called}"):
        said.append(f"-- type {called} {BY_PACKAGE}: {group.line}")
    if any(factor[0] in OTHERWISE for factor in called.split(" x ")):
        said.append("-- Coxeter 3 numbers the nodes of B, D and F the other way round")
    return said
