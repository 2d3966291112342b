#!/usr/bin/env python3
"""Compares the documents with the tree: tables of crates, limits, links, names of files and of
things, and the width of lines.

    checks/documents.py [--write]

docs/floors.svg is what checks/floors.py draws. docs/ARCHITECTURE.md has the one table of crates. It has to have each crate of crates.txt once,
in the order and under the headings of that file, with the crates that its code names; no crate
may stand on one below it, or list there what its files do not name. The tables of other
documents have each crate that they are about, and none that is not there. A limit has the value
that its constant has, where a table or a sentence tells it. Links lead to files and headings,
what is named as a file is one, and a name in backticks stands somewhere in the tree. README.md's first
script is that of the law `first_script`. Lines have
at most 100 characters, but for tables, blocks of code and links that are too long by themselves.
docs/BENCHMARKS.md has at most 120 lines, and README.md 200. Files of the crates have at most 400 lines, unless
docs/DECISIONS.md says why one is longer, and lines of at most 140 characters. What is in release/ is
what docs/RELEASES.md lists; a line says whether it is of the crates that are there, which it need
not be.

With --write it writes the column of what crates name and the values of limits, fills paragraphs
that are too wide, and then checks. It prints what is wrong, and a last line with counts; the exit
status is 1 where something is wrong. It needs Python 3 alone, runs none of the programs, and is no
part of the gate.
"""
import os
import re
import sys
import textwrap

import believed
import floors as picture
import released
from common import TOP

WIDTH = 100
# How many lines docs/BENCHMARKS.md has at most: one table for each script. The rest is in HISTORY.md.
MOST_BENCHMARKS = 120
# And README.md, which is read first.
MOST_README = 200
# Of a file of the crates: its lines, and the characters of a line.
MOST_LINES, MOST_WIDE = 400, 140
# The files of the crates that may have more lines.
LONG = {"PassStates.antt"}
DOCUMENTS = ["README.md", "CONTRIBUTING.md", "gap/NOTES.md", "gap/doc/CoxeterShell.md", "python/NOTES.md"]
DOCUMENTS = [name for name in DOCUMENTS if os.path.exists(os.path.join(TOP, name))]
DOCUMENTS += sorted(
    "docs/" + name for name in os.listdir(os.path.join(TOP, "docs")) if name.endswith(".md")
)
ARCHITECTURE, DEFINITIONS = "docs/ARCHITECTURE.md", "docs/DEFINITIONS.md"
# Documents in which each name in backticks is one of the tree.
OF_THE_TREE = [
    "docs/" + name
    for name in ("ARCHITECTURE.md", "DEFINITIONS.md", "DEVELOPING.md", "PROVED.md")
]
# Words of the toolchain and of shells that such a document may name.
FOREIGN = {"antt", "perf", "env", "args"}
# Crates that hold tests, and nothing to prove of public functions.
TESTS = {"word_tests", "text_tests", "row_tests", "claims_stress", "workers_stress"}
# Sentences that tell a limit: the document, what stands before and behind the number, the crate and
# the name of the constant.
SAID = [
    ("README.md", "by their Coxeter matrix, of rank 1 to {}", "cox_base", "MAX_RANK"),
    ("README.md", "words of up to {} letters", "cox_base", "MAX_LETTERS"),
    ("README.md", "whole groups of up to {} elements", "cox_context", "MAX_MEMBERS"),
    ("docs/MANUAL.md", "| `--workers N` | 1 to {} |", "cox_options", "MAX_WORKERS"),
    ("docs/MANUAL.md", "| `--context N` | 1 to {} |", "cox_options", "MAX_CONTEXT"),
    ("docs/MANUAL.md", "| `--coef N` | 1 to {} |", "cox_options", "MAX_COEF"),
    ("docs/MANUAL.md", "| `--roots N` | 1 to {} |", "cox_options", "MAX_ROOTS"),
    ("docs/MANUAL.md", "A line has at most {} bytes", "cox_tokens", "LINE_LIMIT"),
    ("docs/MANUAL.md", "The input has at most {} bytes", "cox_outside", "INPUT_LIMIT"),
    ("docs/MANUAL.md", "A word has at most {} letters", "cox_base", "MAX_LETTERS"),
    ("docs/MANUAL.md", "A **number** is 1 to {} decimal digits", "cox_tokens", "MAX_DIGITS"),
    (
        "docs/MANUAL.md",
        "| coefficients | {} in absolute value |",
        "cox_certtext",
        "MAX_CHECKED_COEFFICIENT",
    ),
    ("docs/MANUAL.md", "| bytes of the input | {} |", "cox_outside", "INPUT_LIMIT"),
    ("docs/PROVED.md", "At status 6 the same of the first {} bytes", "cox_outside", "INPUT_LIMIT"),
    ("docs/PROVED.md", "fewer than {} bytes were read beyond", "cox_outside", "CHUNK_SIZE"),
    ("docs/PROVED.md", "by its normal form of at most {} letters", "cox_certtext", "MAX_DEGREE"),
    ("docs/PROVED.md", "the lengths differ by more than {}", "cox_rpoly", "MAX_DIFFERENCE"),
    ("docs/PROVED.md", "For at most {} elements", "cox_certtext", "MAX_LISTED"),
    ("docs/PROVED.md", "fewer than {}, else the first 64", "cox_symmetry", "MAX_SYMMETRIES"),
    ("docs/DEFINITIONS.md", "`--context` up to {}", "cox_options", "MAX_CONTEXT"),
    ("docs/DEFINITIONS.md", "`--roots` up to {}", "cox_options", "MAX_ROOTS"),
    ("docs/DEFINITIONS.md", "`--workers` up to {}", "cox_options", "MAX_WORKERS"),
    ("docs/DECISIONS.md", "At the limit** of {} bytes", "cox_outside", "INPUT_LIMIT"),
    ("docs/DECISIONS.md", "At most {} symmetries are listed", "cox_symmetry", "MAX_SYMMETRIES"),
    ("docs/MANUAL.md", "| letters of the element | {} |", "cox_certtext", "MAX_DEGREE"),
    ("docs/MANUAL.md", "| elements below it | {} |", "cox_certtext", "MAX_LISTED"),
]
CODE = re.compile(r"^```.*?^```$", re.M | re.S)


def read(*path):
    with open(os.path.join(TOP, *path), encoding="utf-8") as text:
        return text.read()


class Problems:
    """What was looked at, and what of it is wrong."""

    def __init__(self):
        self.looked = self.count = 0

    def want(self, holds, text):
        self.looked += 1
        if not holds:
            self.count += 1
            print(text)


def floors():
    """The headings of crates.txt, each with its crates, and what each crate stands on."""
    listed, below = [], {}
    for line in read("crates.txt").splitlines():
        if line.startswith("## "):
            listed.append((line[3:].strip(), []))
        elif line.strip() and not line.startswith("#"):
            name, _, others = line.partition(":")
            listed[-1][1].append(name.split()[0])
            below[name.split()[0]] = others.split()
    return listed, below


def files_of(folder, endings):
    for root, folders, names in os.walk(os.path.join(TOP, folder)):
        folders[:] = [it for it in folders if it not in ("out", "__pycache__", ".git")]
        for name in names:
            if name.endswith(endings):
                yield os.path.join(root, name)


def used_by(crate):
    """What the code, the definitions and the proofs of a crate name, crates of the kit among them."""
    found = set()
    for path in files_of(os.path.join("crates", crate), (".rt", ".antt")):
        text = re.sub(r"^\s*//.*$", "", read(path), flags=re.M)
        found |= set(re.findall(r"\bRattle\.(\w+)\.", text))
        if path.endswith(".rt"):
            found |= set(re.findall(r"\b(\w+)::", text))
    return found


def named_by(crate, crates):
    """The crates that the code of a crate names, in the order of crates.txt. A module may have the
    name of a crate that stands further down there."""
    found = set()
    for path in files_of(os.path.join("crates", crate, "src"), ".rt"):
        text = re.sub(r"^\s*//.*$", "", read(path), flags=re.M)
        found |= set(re.findall(r"\b(\w+)::", text)) | set(re.findall(r"\bRattle\.(\w+)\.", text))
    return [it for it in crates[: crates.index(crate)] if it in found]


def section(text, heading):
    """What stands under a heading, up to the next one of its kind or of a higher one."""
    level = heading.split()[0]
    found = re.search(
        rf"^{re.escape(heading)}\n(.*?)(?=^#{{1,{len(level)}}} |\Z)", text, re.M | re.S,
    )
    return found.group(1) if found else ""


def rows_of(text):
    """The rows of the tables of a text, each as its cells, without heads."""
    for line in re.findall(r"^\|(.*)\|$", text, re.M):
        cells = [cell.strip() for cell in line.split("|")]
        if not set("".join(cells)) <= set("-: "):
            yield cells


def spans(text):
    return re.findall(r"`([^`\n]+)`", CODE.sub("", text))


def uses(crate, crates):
    """The cell of the table that has what the code of a crate names."""
    return ", ".join(f"`{it}`" for it in named_by(crate, crates))


def write_section(document, text, old, new):
    """Puts another text in the place of a section of a document."""
    if new != old:
        with open(os.path.join(TOP, document), "w", encoding="utf-8") as out:
            out.write(text.replace(old, new))


def architecture_table(problems, listed, write):
    """The one table of crates: as crates.txt has them, and with what their code names."""
    crates = [crate for _, names in listed for crate in names]
    text = read(ARCHITECTURE)
    table = new = section(text, "## Crates")
    got = []
    for cells in list(rows_of(table))[1:]:
        crate = cells[0].strip("`")
        if cells[0].startswith("**"):
            got.append((cells[0].strip("*"), []))
            continue
        got[-1][1].append(crate)
        wanted = uses(crate, crates) if crate in crates else cells[1]
        if write:
            old = f"| {cells[0]} | {cells[1]} |"
            new = new.replace(old, f"| {cells[0]} | {wanted} |")
        else:
            told = f"{ARCHITECTURE}: the code of {crate} names {wanted}, not {cells[1]}"
            problems.want(cells[1] == wanted, told)
    write_section(ARCHITECTURE, text, table, new)
    told = f"{ARCHITECTURE}: the crates are not those of crates.txt:\n  {got}\n  {listed}"
    problems.want(got == listed, told)


def crate_tables(problems, write):
    """crates.txt and the tables of crates."""
    listed, below = floors()
    crates = [crate for _, names in listed for crate in names]
    folders = sorted(os.listdir(os.path.join(TOP, "crates")))
    there = [it for it in folders if os.path.isdir(os.path.join(TOP, "crates", it, "src"))]
    told = f"crates.txt and crates/ differ: {set(crates) ^ set(there)}"
    problems.want(sorted(crates) == there, told)
    for place, crate in enumerate(crates):
        late = [it for it in below[crate] if it in crates[place:]]
        problems.want(not late, f"crates.txt: {crate} stands on {late}, which come later")
        idle = [it for it in below[crate] if it not in used_by(crate)]
        problems.want(not idle, f"crates.txt: {crate} lists {idle}, and does without")
    architecture_table(problems, listed, write)
    table = rows_of(section(read("docs/PROVED.md"), "## Crate by crate"))
    proved = sorted(it for cells in table for it in spans(cells[0]))
    wanted = sorted(set(crates) - TESTS - {"coxeter", "coxcheck"})
    told = f"docs/PROVED.md, crate by crate: {sorted(set(proved) ^ set(wanted))}, or one twice"
    problems.want(proved == wanted, told)
    table = rows_of(section(read("docs/DEVELOPING.md"), "## What to run after a change"))
    named = {it for cells in table for it in spans(" ".join(cells))} | {"cox_lemmas"}
    for crate in crates:
        told = f"docs/DEVELOPING.md: no row says what to run after a change in {crate}"
        problems.want(crate in named, told)
    names = [it for cells in rows_of(read("docs/DECISIONS.md")) for it in spans(cells[0])]
    times = [it for it in names if re.fullmatch(r"cox_\w+|\w+_(tests|stress)", it)]
    told = "docs/DECISIONS.md: a crate stands twice in the table of times"
    problems.want(len(times) == len(set(times)), told)
    for crate in times:
        problems.want(crate in crates, f"docs/DECISIONS.md: there is no crate {crate}")


def constant(path, name):
    """The value of a constant in a source, as a number or a text, or None where it is neither."""
    file = os.path.join(TOP, "crates", path)
    if not os.path.exists(file):
        return None
    found = re.search(
        rf"^\s*(?:pub(?:\([a-z ]+\))? )?const {name}: [^=]+ = ([^;]+);", read(file), re.M,
    )
    if not found:
        return None
    text = re.sub(r"(?<=[0-9])_(?=[0-9])", "", found.group(1)).strip()
    text = re.sub(r"(?<=[0-9])(?:[iu](?:8|16|32|64|128|size))\b", "", text)
    text = re.sub(r"\b(\w+)::MAX\b", lambda it: str(most(it.group(1))), text)
    text = re.sub(r" as \w+", "", text)
    text = re.sub(r"\b1 << (?=[0-9])", "2 ** ", text)
    text = re.sub(
        r"\b[A-Z][A-Z_0-9]*\b", lambda it: str(elsewhere(path.split("/")[0], it.group(0))), text,
    )
    if re.fullmatch(r"[0-9 ()+*<>-]+", text):
        return eval(text)  # digits and operators alone
    return text.strip('"') if text.startswith('"') else None


def elsewhere(crate, name):
    """The value of a constant of a crate, wherever it stands there."""
    folder = os.path.join("crates", crate, "src")
    found = (
        constant(os.path.relpath(file, os.path.join(TOP, "crates")), name)
        for file in files_of(folder, ".rt")
    )
    return next((value for value in found if value is not None), None)


def most(kind):
    """The greatest value of an integer type."""
    bits = 64 if kind[1:] == "size" else int(kind[1:])
    return 2 ** (bits - (kind[0] == "i")) - 1


def shown(value):
    """A value as documents write it."""
    if isinstance(value, str):
        return f"`{value}`"
    for power in range(20, 128):
        if value == 2**power - 1:
            return f"2^{power} - 1"
    return f"{value:,}"


def limits(problems, write):
    """The table of limits, and the sentences that tell one."""
    text = read(ARCHITECTURE)
    table = new = section(text, "## Where limits stand")
    for cells in rows_of(table):
        names, files = spans(cells[2]), spans(cells[3])
        if not names:
            continue  # the head of a table
        found = [[constant(path, name) for path in files] for name in names]
        values = [next((it for it in row if it is not None), "?") for row in found]
        wanted = "; ".join(shown(it) for it in values)
        for name, value in zip(names, values):
            problems.want(value != "?", f"{ARCHITECTURE}: {files} has no constant {name}")
        if write:
            row = "| " + " | ".join(cells) + " |"
            new = new.replace(row, "| " + " | ".join([cells[0], wanted, *cells[2:]]) + " |")
        else:
            told = f"{ARCHITECTURE}: {', '.join(names)} is {wanted}, not {cells[1]}"
            problems.want(cells[1] == wanted, told)
    write_section(ARCHITECTURE, text, table, new)
    for document, sentence, crate, name in SAID:
        value = elsewhere(crate, name)
        before, behind = (re.escape(part).replace(r"\ ", r"\s+") for part in sentence.split("{}"))
        said = re.findall(before + r"([0-9][0-9,]*[0-9]|[0-9])" + behind, read(document))
        numbers = {int(it.replace(",", "")) for it in said}
        problems.want(bool(said), f"{document} does not say '{sentence}'")
        told = f"{document}: '{sentence}': {numbers}, and {name} is {value}"
        problems.want(numbers <= {value}, told)


def anchors(path):
    """The headings of a document, as links write them."""
    for heading in re.findall(r"^#+ (.*)$", CODE.sub("", read(path)), re.M):
        yield re.sub(r"[^\w\- ]", "", heading.replace("`", "").lower()).strip().replace(" ", "-")


def links(problems):
    """Links lead to files that are there, and to headings of theirs."""
    for document in DOCUMENTS:
        text = re.sub(r"`[^`]*`", "", CODE.sub("", read(document)))
        for target in re.findall(r"\]\(([^)\s]+)\)", text):
            path, _, anchor = target.partition("#")
            if re.match(r"\w+:", target):
                continue
            if path:
                path = os.path.normpath(os.path.join(os.path.dirname(document), path))
            there = os.path.exists(os.path.join(TOP, path or document))
            problems.want(there, f"{document}: a link to {target}, which is not there")
            if there and anchor:
                told = f"{document}: a link to {target}, which has no such heading"
                problems.want(anchor in anchors(path or document), told)


def named_files(problems, crates):
    """What is named by a path is there."""
    folders = {"checks", "bench", "docs", "launch", "python", "gap", "crates"}
    for document in DOCUMENTS:
        paths = [span.split()[0] for span in spans(read(document))]
        for path in paths:
            parts = path.split("/")
            is_path = len(parts) > 1 and re.fullmatch(r"[\w./-]+", path)
            if not is_path or {"out", "NAME"} & set(parts):
                continue
            if parts[0] in folders:
                there = os.path.exists(os.path.join(TOP, path))
            else:
                there = parts[0] not in crates or os.path.exists(os.path.join(TOP, "crates", path))
            problems.want(there, f"{document}: there is no {path}")


def followed(crates):
    """The files of definitions, by crate, that the clauses of `run` and `check` reach, and the
    types and constants of the code."""
    files = believed.specs([os.path.join(TOP, "crates", it) for it in sorted(crates)])
    reached, named = set(), set()
    for function in ("run", "check"):
        items, outside = believed.follow(files, believed.clauses(function, None))
        reached |= {(path.split(".")[1], path.split(".")[-1]) for path in items if items[path]}
        for path, name in outside:
            if believed.own(path):
                kind = path.removesuffix(".TheVariants").split(".")[-1]
                named.add(name if name.isupper() else kind)
    return reached, named


def specs_of(crate):
    """The names of the files of definitions of a crate."""
    names = os.listdir(os.path.join(TOP, "crates", crate, "specs"))
    return {name[:-5] for name in names if name.endswith(".antt") and name != "Lib.antt"}


def laws_of(crate):
    """The names of the laws of a crate."""
    path = os.path.join(TOP, "crates", crate, "src", "laws.rt")
    return re.findall(r"^pub fn (\w+)", read(path), re.M) if os.path.exists(path) else []


def definitions(problems, crates):
    """Each file of definitions that has to be believed is named in its section, and none that is
    not there; so is each type and constant, and each law."""
    text = read(DEFINITIONS)
    reached, named = followed(crates)
    said = set(spans(section(text, "## What has to be believed")))
    for name in sorted(named):
        told = f"{DEFINITIONS}, what has to be believed: {name} is not named"
        problems.want(name in said, told)
    for head in re.findall(r"^## (.*)$", text, re.M):
        owners = re.findall(r"`(?:crates/)?(\w+)/specs`", head)
        body = section(text, "## " + head)
        files = {it: specs_of(it) for it in owners}
        for item in re.findall(r"^- (`.*?)(?:: |$)", body, re.M) if owners else []:
            for name in set(re.findall(r"`(\w+)`", item)) - set(owners):
                there = any(name in names for names in files.values())
                problems.want(there, f"{DEFINITIONS}, {head}: there is no file {name}")
        for owner in owners:
            for name in sorted(files[owner] - set(spans(body))):
                told = f"{DEFINITIONS}, {head}: {owner}/specs/{name}.antt is not named"
                problems.want((owner, name) not in reached, told)
    for cells in rows_of(section(text, "## The laws")):
        owners = [it for it in spans(cells[0]) if it in crates]
        known = {name for it in owners for name in laws_of(it)}
        for group in re.findall(r"\(((?:`\w+`(?:, )?)+)\)", cells[-1]) if owners else []:
            for name in spans(group):
                problems.want(name in known, f"{DEFINITIONS}: {owners} have no law {name}")
    for crate in crates:
        for name in laws_of(crate):
            named = f"`{name}`" in text or f"`laws::{name}`" in text
            problems.want(named, f"the law {name} of {crate} is not named")


def counts(problems, crates):
    """What documents say of the lines that have to be believed."""
    files = believed.specs([os.path.join(TOP, "crates", it) for it in sorted(crates)])
    for wrong in believed.wrong_steps(files):
        problems.want(False, wrong)
    for name, places in sorted(believed.twins(files).items()):
        problems.want(False, f"{DEFINITIONS}: {name} stands for two things, in {' and '.join(places)}")
    shared = re.search(r"Constructors may:.*?\n\n", read(DEFINITIONS), re.S)
    told, found = set(spans(shared.group(0))) if shared else set(), set(believed.shared_constructors(files))
    for name in sorted(told ^ found):
        problems.want(False, f"{DEFINITIONS}: the constructor {name} {'is not listed' if name in found else 'is listed, and shares no name'}")
    documents, missing = believed.told(files)
    for sentence in missing:
        problems.want(False, sentence)
    for document, (old, new) in documents.items():
        for before, behind in zip(old.splitlines(), new.splitlines()):
            told = f"{document}: {before}\n  should be {behind} (checks/believed.py --write)"
            problems.want(before == behind, told)


def first_script(problems):
    """README.md's first script, and its answer, are those of the law `first_script`."""
    found = re.search(r"printf '([^']*)' \| \./coxeter\n```\n\n```text\n(.*?)```", read("README.md"), re.S)
    told = [found.group(1).replace("\\n", "\n"), found.group(2)] if found else []
    text = read("crates", "cox_laws", "specs", "FirstScript.antt")
    stated = ["".join(f"{line}\n" for line in re.findall(r'codes "([^"]*)"', it)) for it in re.findall(r"^\w+ = bytes_of .*$", text, re.M)]
    problems.want(told == stated, f"README.md: its first script and answer are not those of the law first_script: {told}, {stated}")


def names(problems):
    """A name in backticks is a word of the tree."""
    words = set(FOREIGN)
    for folder in ("crates", "checks", "bench", "launch", "python", "gap", ".ci"):
        for path in files_of(folder, ""):
            try:
                words |= set(re.findall(r"\w+", read(path)))
                words |= set(re.findall(r"\w+", os.path.relpath(path, TOP)))
            except UnicodeDecodeError:
                pass
    for document in OF_THE_TREE:
        for span in spans(read(document)):
            if re.fullmatch(r"[A-Za-z_]\w*(?:(?:::|\.)\w+)*", span):
                missing = [it for it in re.split(r"::|\.", span) if it not in words]
                problems.want(not missing, f"{document}: `{span}` stands nowhere in the tree")


def widths(problems, write):
    """Lines are no wider than they may be."""
    for document in DOCUMENTS:
        text = read(document)
        if write:
            write_section(document, text, text, filled(text))
            text = read(document)
        wide = [str(number) for number, line in prose(text) if len(line) > WIDTH]
        told = f"{document}: lines of more than {WIDTH} characters: {' '.join(wide)}"
        problems.want(not wide, told)


def lengths(problems):
    """The page of benchmarks and README.md are no longer than they may be."""
    for document, most in (("docs/BENCHMARKS.md", MOST_BENCHMARKS), ("README.md", MOST_README)):
        count = len(read(document).splitlines())
        problems.want(count <= most, f"{document} has {count} lines, more than {most}")


def release(problems):
    """What is in release/ is what the list of releases has."""
    what, wrong = released.problems()
    print(what)
    problems.want(not wrong, "\n".join(wrong))


def sizes(problems):
    """Files of the crates are no longer than they may be, and their lines no wider. One of those
    that may be longer has its reason in docs/DECISIONS.md."""
    named = set(spans(section(read("docs", "DECISIONS.md"), "## Names and files")))
    for path in files_of("crates", (".rt", ".antt")):
        file, lines = os.path.relpath(path, TOP), read(path).splitlines()
        few = len(lines) <= MOST_LINES or os.path.basename(path) in LONG & named
        problems.want(few, f"{file} has {len(lines)} lines, more than {MOST_LINES}")
        wide = [str(number) for number, line in enumerate(lines, 1) if len(line) > MOST_WIDE]
        told = f"{file}: lines of more than {MOST_WIDE} characters: {' '.join(wide)}"
        problems.want(not wide, told)


def prose(text):
    """The lines that are neither in blocks of code nor in tables, with their numbers; a line of one
    word alone is left out."""
    inside = False
    for number, line in enumerate(text.splitlines(), 1):
        if line.startswith("```"):
            inside = not inside
        elif not inside and not line.startswith(("|", "    ", "#")) and len(line.split()) > 1:
            yield number, line


def filled(text):
    """The text with those paragraphs filled anew that have too wide a line."""
    parts, block, inside = [], [], False

    def close():
        if any(len(line) > WIDTH for line in block):
            parts.extend(fill(block))
        else:
            parts.extend(block)
        block.clear()

    for line in text.splitlines():
        if line.startswith("```"):
            inside = not inside
        starts = re.match(r"(\s*)([-*]|\d+\.) ", line)
        kept = inside or not line.strip() or line.startswith(("```", "|", "#")) or (
            line.startswith("    ") and not block
        )
        if kept or starts:
            close()
        if kept:
            parts.append(line)
        else:
            block.append(line)
    close()
    return "\n".join(parts) + "\n"


def fill(block):
    """A paragraph, or an item of a list, in lines of at most the width."""
    mark = re.match(r"\s*(?:[-*]|\d+\.) |\s*", block[0]).group(0)
    words = " ".join(line.strip() for line in [block[0][len(mark) :], *block[1:]])
    # A span of code stays whole, and no line begins as an item of a list or a heading does.
    words = re.sub(r"`[^`]*`", lambda it: it.group(0).replace(" ", "\0"), words)
    words = re.sub(r" (?=(?:[-+*#>=]+|\d+[.)])(?: |$))", "\0", words)
    lines = textwrap.wrap(
        words,
        WIDTH,
        initial_indent=mark,
        subsequent_indent=" " * len(mark),
        break_long_words=False,
        break_on_hyphens=False,
    )
    return [line.replace("\0", " ") for line in lines]


def main():
    if sys.argv[1:] not in ([], ["--write"]):
        print(__doc__.strip())
        sys.exit(0 if sys.argv[1:] in (["-h"], ["--help"]) else 2)
    write, problems = sys.argv[1:] == ["--write"], Problems()
    crates = {crate for _, listed in floors()[0] for crate in listed}
    crate_tables(problems, write)
    limits(problems, write)
    links(problems)
    named_files(problems, crates)
    definitions(problems, crates)
    counts(problems, crates)
    first_script(problems)
    names(problems)
    widths(problems, write)
    lengths(problems)
    problems.want(not picture.is_stale(), "docs/floors.svg is stale: checks/floors.py --write")
    release(problems)
    sizes(problems)
    print(
        f"{len(DOCUMENTS)} documents, {problems.looked} things compared, {problems.count} problems"
    )
    sys.exit(1 if problems.count else 0)


main()
