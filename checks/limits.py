#!/usr/bin/env python3
"""Compares the limits that the packages for Python and GAP write out, and those of the checks, with
those of the crates.

    checks/limits.py

Each limit of a package is looked up in the source that the program is proved and built from, by the
name of its constant there; so are those that stand in the text of a refusal, and the numbers that
named types take. What a refusal means both packages have to say in the same words. It prints what
differs, and a last line with counts; the exit status is 1 where something differs. It needs Python 3
alone, runs no program, and is no part of the gate.
"""
import ast
import os
import re
import sys

from common import TOP, Count

sys.path.insert(0, os.path.join(TOP, "python"))

from coxeter_shell import certificates, errors, jobs, kinds  # noqa: E402
from coxeter_shell import polynomial, program, prompt_words  # noqa: E402

# The file of a crate and the constant there, and what the package has.
LIMITS = [
    ("cox_tokens/src/limits.rt", "LINE_LIMIT", program.MOST_OF_LINE),
    ("cox_outside/src/limits.rt", "INPUT_LIMIT", program.MOST_OF_INPUT),
    ("cox_shell/src/limits.rt", "MAX_BLOCKS", program.MOST_OF_BLOCKS),
    ("cox_shell/src/limits.rt", "MAX_LINES", program.MOST_OF_JOBS),
    ("cox_shell/src/limits.rt", "MAX_LINES", 2 * jobs.MOST_OF_LINES),
    ("cox_base/src/limits.rt", "MAX_LETTERS", program.MOST_OF_WORD),
    ("cox_base/src/limits.rt", "MAX_LETTERS", polynomial.MOST_DEGREE),
    ("cox_base/src/limits.rt", "MAX_RANK", kinds.MOST_RANK),
    ("cox_tokens/src/number.rt", "MAX_DIGITS", prompt_words.MOST_DIGITS),
    ("cox_command/src/generated.rt", "MODULUS", prompt_words.MOST_START + 1),
    ("cox_command/src/limits.rt", "MAX_COUNT", prompt_words.MOST_COUNT),
    ("cox_context/src/members.rt", "MAX_MEMBERS", program.MOST_OF_CONTEXT),
    ("cox_options/src/options.rt", "MAX_WORKERS", program.OPTIONS["workers"][1]),
    ("cox_options/src/options.rt", "MAX_CONTEXT", program.OPTIONS["context"][1]),
    ("cox_options/src/options.rt", "MAX_ROOTS", program.OPTIONS["roots"][1]),
    ("cox_options/src/options.rt", "MAX_COEF", program.OPTIONS["coef"][1]),
    ("cox_certtext/src/limits.rt", "MAX_LISTED", certificates.MOST_OF_CERTIFICATE),
    ("cox_certtext/src/limits.rt", "MAX_DEGREE", certificates.MOST_OF_LETTERS),
    ("cox_certtext/src/limits.rt", "MAX_CHECKED_COEFFICIENT", certificates.MOST_OF_COEFFICIENT),
]

# The number of a refusal or of an exit status, and the limits that its text has to name.
NAMED = [
    (errors.MEANINGS, 17, [("cox_base/src/limits.rt", "MAX_LETTERS")]),
    (errors.MEANINGS, 18, [("cox_tokens/src/limits.rt", "LINE_LIMIT")]),
    (errors.MEANINGS, 31, [("cox_certtext/src/limits.rt", "MAX_LISTED")]),
    (errors.MEANINGS, 34, [("cox_rpoly/src/lib.rt", "MAX_DIFFERENCE")]),
    (errors.MEANINGS, 35, [("cox_shell/src/limits.rt", "MAX_BLOCKS"), ("cox_shell/src/limits.rt", "MAX_LINES")]),
    (errors.STATUSES, 6, [("cox_outside/src/limits.rt", "INPUT_LIMIT")]),
]

# The same of what stands in gap/lib/program.gi.
LIMITS_OF_GAP = [
    ("cox_tokens/src/limits.rt", "LINE_LIMIT", "MostOfLine"),
    ("cox_base/src/limits.rt", "MAX_LETTERS", "MostOfWord"),
]


# The same of the checks, which run without the package: the file, and the names there.
LIMITS_OF_CHECKS = [
    ("certificates.py", "MOST_RANK", "cox_base/src/limits.rt", "MAX_RANK"),
    ("certificates.py", "MOST_LETTERS", "cox_base/src/limits.rt", "MAX_LETTERS"),
    ("certificates.py", "MOST_ENTRIES", "cox_certtext/src/limits.rt", "MAX_LISTED"),
    ("certificates.py", "MOST_OF_LINE", "cox_tokens/src/limits.rt", "LINE_LIMIT"),
    ("certificates.py", "MOST_OF_INPUT", "cox_outside/src/limits.rt", "INPUT_LIMIT"),
    ("certificates.py", "MOST_LENGTH", "cox_rpoly/src/lib.rt", "MAX_DIFFERENCE"),
    ("certificates.py", "MOST_DEGREE", "cox_certtext/src/limits.rt", "MAX_DEGREE"),
    ("certificates.py", "MOST_COEFFICIENT", "cox_certtext/src/limits.rt", "MAX_CHECKED_COEFFICIENT"),
    ("jobs.py", "MOST_BLOCKS", "cox_shell/src/limits.rt", "MAX_BLOCKS"),
    ("jobs.py", "MOST_LINES", "cox_shell/src/limits.rt", "MAX_LINES"),
    ("jobs.py", "MOST_BYTES", "cox_tokens/src/limits.rt", "LINE_LIMIT"),
    ("jobs.py", "MOST_OF_INPUT", "cox_outside/src/limits.rt", "INPUT_LIMIT"),
    ("program.py", "MOST_BYTES", "cox_outside/src/limits.rt", "INPUT_LIMIT"),
    ("hostile.py", "MOST_BYTES", "cox_outside/src/limits.rt", "INPUT_LIMIT"),
]


def numbers_of(check):
    """The numbers that a check writes out, by their names: it is read, and not run."""
    with open(os.path.join(TOP, "checks", check), encoding="utf-8") as text:
        lines = ast.parse(text.read()).body
    found = {}
    for line in lines:
        if isinstance(line, ast.Assign) and isinstance(line.targets[0], (ast.Name, ast.Tuple)):
            names = line.targets[0].elts if isinstance(line.targets[0], ast.Tuple) else [line.targets[0]]
            values = line.value.elts if isinstance(line.value, ast.Tuple) else [line.value]
            for name, value in zip(names, values):
                if all(isinstance(it, (ast.Constant, ast.BinOp, ast.operator)) for it in ast.walk(value)):
                    found[name.id] = eval(compile(ast.Expression(value), check, "eval"))
    return found


def constant(path, name):
    """The value of a constant in a source."""
    with open(os.path.join(TOP, "crates", path), encoding="utf-8") as source:
        found = re.search(rf"^pub(?:\(crate\))? const {name}: \w+ = ([0-9_]+);", source.read(), re.M)
    return int(found.group(1).replace("_", "")) if found else None


def named_types():
    """The named types as `has_type` of cox_base takes them: the least and the greatest number of each letter."""
    with open(os.path.join(TOP, "crates", "cox_base", "src", "named_type.rt"), encoding="utf-8") as source:
        lines = re.findall("^ +b'(\\w)' => (.*),$", source.read().partition("fn has_type(")[2].partition("_ => false")[0], re.M)
    greatest, found = kinds.MOST_RANK, {}
    for letter, text in lines:
        least, most = re.fullmatch(r"(?:(\d+) <= n && n (<=? ?\S+)(?: as u32)?|n == \d+)", text).groups()
        if least is None:
            found[letter] = (int(text.split()[-1]),) * 2
        else:
            sign, number = most.split()
            found[letter] = int(least), (greatest if number == "MAX_RANK" else int(number)) - (sign == "<")
    return found


def of_gap(name):
    """The text of a file of the package for GAP."""
    with open(os.path.join(TOP, "gap", "lib", name), encoding="utf-8") as source:
        return source.read()


def number(text):
    """A number of GAP, which may be a power, less another number."""
    base, exponent, less = re.fullmatch(r"([0-9]+)(?:\^([0-9]+))?(?: - ([0-9]+))?", text).groups()
    return int(base) ** int(exponent or 1) - int(less or 0)


def main():
    count = Count()
    for path, name, ours in LIMITS:
        count.check(f"{name} in crates/{path}", ours, constant(path, name))
    for check, ours, path, name in LIMITS_OF_CHECKS:
        count.check(f"{name} in crates/{path}, in checks/{check}", numbers_of(check).get(ours), constant(path, name))
    for texts, key, constants in NAMED:
        numbers = [int(it.replace(",", "")) for it in re.findall("[0-9][0-9,]*", texts[key])]
        count.check(f"the numbers of {texts[key]!r}", numbers, [constant(*it) for it in constants])
    count.check("the named types", kinds.TYPES, named_types())
    for path, name, gap_name in LIMITS_OF_GAP:
        [ours] = re.findall(rf'"CoxeterShell{gap_name}", ([0-9]+) \);', of_gap("program.gi"))
        count.check(f"{name} in crates/{path}, for GAP", int(ours), constant(path, name))
    [listed] = re.findall(r'"CoxeterShellOptions", rec\( (.*) \) \);', of_gap("group.gi"))
    options = {name: number(it) for name, it in (it.split(" := ") for it in listed.split(", "))}
    greatest = {name: it for name, (_, it) in program.OPTIONS.items()}
    count.check("the options in GAP", options, greatest)
    [most] = re.findall(r'"CoxeterShellMostOfInput", ([0-9]+) \);', of_gap("program.gi"))
    room = program.MOST_OF_INPUT - program.MOST_OF_LINE
    count.check("what GAP sends to one process", int(most) <= room, True)
    said = re.findall(r"^CoxeterShellRefusals\[(\d+)\] := (.*?);$", of_gap("program.gi"), re.M | re.S)
    texts = {int(it): "".join(re.findall('"([^"]*)"', text)).replace("'", "`") for it, text in said}
    wanted = {it: text.replace("'", "`") for it, text in errors.MEANINGS.items()}
    count.check("refusals in GAP", texts, wanted)
    count.end("limits")


main()
