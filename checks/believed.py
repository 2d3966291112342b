#!/usr/bin/env python3
"""Which definitions the clauses of `run` unfold to, or those of `check`: what a reader has to believe, beside the toolchain.

    checks/believed.py [--list] [--kit KIT] [--clause NAME] [--beyond OTHER] [FUNCTION]
    checks/believed.py [--list] CRATE::NAME        as cox_module::cell_module, or a law: cox_replies::printed_modules
    checks/believed.py --command NAME
    checks/believed.py --commands
    checks/believed.py --write

It begins with the names in the clauses of FUNCTION (`run` if none is named) in crates/cox_shell/src/top.rt, or of `check` in
crates/cox_cert/src/checking.rt, and of `code`, which gives the exit status, in the file `status.rt` beside it, and follows them through the
`use` lines and definitions of crates/*/specs. For each file it prints how many lines those of
its definitions have that are reached, and which are not reached; with `--list` also which are. Then come the types of
the code that are reached, and the names of std and of the kit's crates. With `--kit`, the folder of the toolchain, the
definitions of `clap` are followed too. With `--clause` it begins with the clause of that name of FUNCTION alone. With `--beyond` it leaves
out what the clauses of that function unfold to. CRATE::NAME is any function of a crate's src/: a public call, or a law.

With `--command` it prints what is proved of one command, say `pol`: its clause of the law `commands` in crates/cox_laws/src/laws.rt. Then
come the lines that a reader of that has to believe: of the mathematics that the answer is, of its text, and of its refusals, with the tokens
of a line and the words that they read as, each part counted, and each line in one part alone. With `--commands` it prints that of all commands together, each line once: the
mathematics by the steps of docs/PROVED.md, the texts, the refusals, and then the clauses of the law, so that all that a line needs stands
above it.
`--write` puts these counts into the table at the head of docs/PROVED.md, and those of `run` and `check` into docs/DEFINITIONS.md and
README.md; checks/documents.py fails where they are others.

Lines of a definition are those that are neither blank nor comment; `use` lines are not counted. It needs Python 3 alone.
"""
import argparse
import os
import re
import sys
from collections import defaultdict

TOP = os.path.dirname(os.path.dirname(os.path.abspath(__file__)))
# The file of each function that can be named, and the file of `code`, which gives the exit status.
SHELL, CHECKER = "cox_shell/src/top.rt", "cox_cert/src/checking.rt"
STARTS = {"run": SHELL, "run_one": SHELL, "check": CHECKER}
STATUSES = {SHELL: "cox_shell/src/status.rt", CHECKER: "cox_cert/src/status.rt"}
NAME = r"[^\s(){}\[\].,;:λ→×∷≡≢≤<>=¬⊎⊥↔+\-*/&|\"]+(?:-[^\s(){}\[\].,;:]+)*"
HEAD = re.compile(rf"(?:pub\s+)?(?:abbrev|unfoldable|record|data)\s+(?:pub\s+)?({NAME})")
USE = re.compile(r"^(?:ghost\s+|pub\s+)?use\s+([\w.]+?)(?:\.\{([^}]*)\}|\s+as\s+(\w+))?;?[ \t]*$", re.M)

class Item:
    """A definition: its name, the lines of it, and the lines of comment above it."""

    def __init__(self, name, comments):
        self.name, self.lines, self.comments, self.constructors = name, [], comments, []

    def text(self):
        """Its lines, in which the constructors of data do not stand as names of other things."""
        lines = self.lines
        if self.constructors:
            lines = [re.sub(rf"^\s+{NAME}\s*:", "", line) for line in lines]
        return "\n".join(lines)


class File:
    """A file of definitions, or of code: what it imports, and its items by name."""

    def __init__(self, path):
        self.path, self.imports, self.aliases, self.items, self.all = path, {}, {}, {}, []
        with open(path, encoding="utf-8") as text:
            self.text = USE.sub(self.use, text.read())
        if path.endswith(".antt"):
            self.divide()

    def use(self, found):
        """Takes a `use` line, and leaves nothing of it in the text."""
        path, names, alias = found.groups()
        for name in (names or "").split(","):
            first, _, other = name.strip().partition(" as ")
            self.imports[(other or first).strip()] = (path, first.strip())
        if alias:
            self.aliases[alias] = path
        return ""

    def divide(self):
        """Divides the text into items, each with the comment above it."""
        comments, item = [], None
        for line in self.text.splitlines():
            bare, head = line.strip(), HEAD.match(line)
            if not bare:
                comments, item = [], None
            elif bare.startswith("--") and item and line.startswith(" "):
                item.comments.append(line)
            elif bare.startswith("--"):
                comments, item = comments + [line], None
            elif head:
                item, comments = Item(head.group(1), comments), []
                item.lines.append(line)
                self.items[item.name] = item
                self.all.append(item)
            elif item:
                item.lines.append(line)
                constructor = re.match(rf"\s+({NAME})\s*:", line)
                if constructor and "data " in item.lines[0]:
                    self.items[constructor.group(1)] = item
                    item.constructors.append(constructor.group(1))


def specs(folders):
    """The files of definitions of crates, by the path that a `use` line writes."""
    files = {}
    for folder in folders:
        crate, inside = os.path.basename(folder), os.path.join(folder, "specs")
        for name in sorted(os.listdir(inside)) if os.path.isdir(inside) else []:
            if name.endswith(".antt") and name != "Lib.antt":
                files[f"Rattle.{crate}.specs.{name[:-5]}"] = File(os.path.join(inside, name))
    return files


def head_of(path, function):
    """A file of code, and the clauses of a function there."""
    here = File(os.path.join(TOP, "crates", path))
    begin = re.search(rf"\bfn {function}\b", here.text)
    if not begin:
        sys.exit(f"{path} has no function {function}")
    head = here.text[begin.start() : begin.start() + re.search(r"\n *\{\}?\n", here.text[begin.start() :]).start()]
    return here, re.sub(r"^\s*//.*$", "", head, flags=re.M)


def named_clauses(path, function):
    """A file of code, and the clauses of a function there that have names, by these."""
    here, head = head_of(path, function)
    return here, dict(re.findall(r"\bensures\s+(\w+)\s*(\{.*?)(?=\bensures\b|$)", head, re.S))


def clauses(function, clause):
    """Where to begin: files, and the text of clauses in each."""
    here, named = named_clauses(STARTS[function], function)
    if clause and clause not in named:
        sys.exit(f"{function} has no clause {clause}")
    if clause:
        return [(here, named[clause])]
    return [(here, "\n".join(named.values())), head_of(STATUSES[STARTS[function]], "code")]


def function_of(name):
    """Where to begin for a function that is written CRATE::NAME: its file, and its head."""
    crate, _, function = name.partition("::")
    folder = os.path.join(TOP, "crates", crate, "src")
    for root, _, names in os.walk(folder):
        for path in sorted(os.path.join(root, it) for it in names if it.endswith(".rt")):
            with open(path, encoding="utf-8") as text:
                if re.search(rf"\bpub fn {function}\b", text.read()):
                    return [head_of(os.path.relpath(path, os.path.join(TOP, "crates")), function)]
    return sys.exit(f"{crate} has no public function {function}")


def laws_of(crates):
    """The laws of crates, written CRATE::NAME."""
    found = []
    for crate in crates:
        path = os.path.join(TOP, "crates", crate, "src", "laws.rt")
        if os.path.exists(path):
            with open(path, encoding="utf-8") as text:
                found += [f"{crate}::{name}" for name in re.findall(r"^pub fn (\w+)", text.read(), re.M)]
    return found


def named_things(files):
    """What the clauses of `run` and `check` unfold to, by names: the places of definitions, types and constants of the code; and those of
    constructors, of the definitions and of the types of the code."""
    things, constructors = defaultdict(set), defaultdict(set)
    for function in ("run", "check"):
        reached, outside = follow(files, clauses(function, None))
        for path, items in reached.items():
            for item in items:
                things[item.name].add(place(path))
                if re.match(r"(pub )?data ", item.lines[0]):
                    for name in item.constructors:
                        constructors[name].add(f"{place(path)}.{item.name}")
        for path, name in outside:
            if own(path):
                (constructors if path.endswith(".TheVariants") else things)[name].add(place(path))
    return things, constructors


def twins(files):
    """Names that stand for two things among what the clauses of `run` and `check` unfold to: definitions, types and constants of the code."""
    return {name: sorted(where) for name, where in named_things(files)[0].items() if len(where) > 1}


def shared_constructors(files):
    """The names of constructors there that stand for something else too: another constructor, a definition, a type or a constant."""
    things, constructors = named_things(files)
    return sorted(name for name, where in constructors.items() if len(where) > 1 or name in things)


def names_in(text):
    """The names of a text, with those that stand behind an alias and a dot."""
    text = re.sub(r'"[^"]*"', "", text)
    text = re.sub(r"--.*$", "", text, flags=re.M)
    behind_dots = set(re.findall(r"\w+\.\w+", text))
    # What stands behind a value and a dot is a part of it, as in `limits.roots`, whatever else has that name.
    return set(re.findall(NAME, re.sub(rf"\b([a-z]\w*)(?:\.{NAME})+", r"\1", text))) | behind_dots


def follow(files, starts, left=frozenset()):
    """All items that are reached from texts in files, but for those whose names are to be left, and the names from outside the files of
    definitions."""
    reached, outside, todo = defaultdict(set), set(), list(starts)

    def take(path, name):
        file = files.get(path)
        if file is None:
            outside.add((path, name))
        elif name in left:
            return
        elif name in file.items:
            item = file.items[name]
            if item not in reached[path]:
                reached[path].add(item)
                todo.append((file, item.text()))
        elif name in file.imports:
            take(*file.imports[name])
        else:
            sys.exit(f"{path} does not define {name}")

    while todo:
        file, text = todo.pop()
        for name in names_in(text):
            alias, _, last = name.partition(".")
            if name in file.items:
                take(path_of(files, file), name)
            elif name in file.imports:
                take(*file.imports[name])
            elif last and alias in file.aliases:
                outside.add((file.aliases[alias], last))
    return reached, outside


# ---- one command

# The laws, of which `commands` has a clause for each command.
LAWS = "cox_laws/src/laws.rt"
REPLIES = "Rattle.cox_replies.specs."
GRAMMAR = "Rattle.cox_command.specs."
# What stands behind the name of a command, by the shape of its word in the table of command words.
SHAPES = {"One": " w", "Two": " y w", "Plain": "", "Work": " g k"}
# The files whose definitions say how an answer is written.
TEXTS = {"cox_base.WordText", "cox_poly.PolynomialText", "cox_poly.Numerals", "cox_certtext.Certificate"}
# The reply to a line, by which a run is said to write, and the questions of all commands. A sentence tells what follows from the one for
# its command, so its reader unfolds neither.
NOT_UNFOLDED = {"IsContentReply", "question_of"}
PARTS = ("mathematics", "text", "refusals")


def commands(files):
    """The commands on elements and on the whole group, by their names: each as it is written."""
    table = files[GRAMMAR + "CommandWord"].items["command_text"].text()
    found = re.findall(r'command_text \(?(\w+).* = codes "(\w+)"', table)
    return {name: name + SHAPES[shape] for shape, name in found if shape in SHAPES}


def arguments(text):
    """The arguments that a text begins with: names, and what stands in parentheses, up to the end of the parentheses around them."""
    found, depth = [], 0
    for piece in re.findall(r"[()]|[^\s()]+", text):
        depth += (piece == "(") - (piece == ")")
        if depth < 0:
            break
        if piece == "(" and depth == 1 or piece not in "()" and depth == 0:
            found.append("")
        if found:
            found[-1] += piece + " "
    return found


def sentence(files, name):
    """What is proved of a command: its lines; where the answer begins, and where all else does, as files with a text of each."""
    here, named = named_clauses(LAWS, "commands")
    for text in named.values():
        before, _, behind = text.partition("IsAnswered")
        if f'codes "{name}"' in behind:
            answer = arguments(behind)[-1]
            # What the names stand for that the answer has from before it.
            for let, value in reversed(re.findall(r"\blet (\w+) = (.*?) in\b", before, re.S)):
                answer += value + " " if re.search(rf"\b{let}\b", answer) else ""
            return text.strip().splitlines(), [(here, answer)], [(here, before + "IsAnswered" + behind)]
    sys.exit(f"{LAWS} has no clause for {name}")


def of_command(files, name):
    """The lines of what is proved of a command, and those that a reader of it has to believe, by part and file. Each file has a list of
    items."""
    lines, answer, whole = sentence(files, name)
    by_answer = follow(files, answer)[0]
    rest = follow(files, whole, NOT_UNFOLDED)[0]
    parts = {part: defaultdict(list) for part in PARTS}
    for path, file in files.items():
        is_text = path.startswith(REPLIES) or ".cox_print." in path or place(path) in TEXTS
        for part, items in ("text" if is_text else "mathematics", by_answer[path]), ("refusals", rest[path] - by_answer[path]):
            parts[part][path] = [item for item in file.all if item in items]
    return lines, parts


def count_of(files, name):
    """How many lines are proved of a command, and how many each part has."""
    lines, parts = of_command(files, name)
    return [len(lines), *(sum(len(item.lines) for items in parts[part].values() for item in items) for part in PARTS)]


def print_command(files, name):
    """Prints the lines of one command, part by part and file by file."""
    lines, parts = of_command(files, name)
    own, *counts = count_of(files, name)
    for part, count in zip(PARTS, counts):
        print(f"\n==== {part}: {count} lines")
        print_files(files, parts[part], in_reading_order(files, part, parts[part]))
    print(f"\n==== what is proved of `{name}`: {own} lines\n")
    print("\n".join(lines))
    print(f"\n{own} lines of what is proved, " + ", ".join(f"{count} of {part}" for part, count in zip(PARTS, counts)))


def print_files(files, found, paths):
    """Prints the items that were found in these files, each with the comment above it."""
    for path in paths:
        items = [item for item in files[path].all if item in found[path]]
        print(f"\n-- {place(path).replace('.', '/specs/')}.antt: {sum(len(item.lines) for item in items)} lines")
        for item in items:
            print("\n".join(item.comments + item.lines))


def of_all(files):
    """The items that the sentences of all commands need, by part and file, each in one part alone."""
    parts, known = {part: defaultdict(set) for part in PARTS}, defaultdict(set)
    each = [of_command(files, name)[1] for name in commands(files)]
    for part in PARTS:
        for path in files:
            parts[part][path] = {item for found in each for item in found[part][path]} - known[path]
            known[path] |= parts[part][path]
    return parts


def in_order(files, paths):
    """Files, each behind those that it takes definitions from."""
    ordered = []

    def add(path):
        if path in paths and path not in ordered:
            for other in sorted({it for it, _ in files[path].imports.values() if it != path}):
                add(other)
            ordered.append(path)

    for path in sorted(paths):
        add(path)
    return ordered


def steps():
    """The steps of the mathematics at the head of docs/PROVED.md: what each is about, and the files to read, by the paths of `use` lines."""
    with open(os.path.join(TOP, "docs", "PROVED.md"), encoding="utf-8") as document:
        rows = re.findall(r"^\| ([0-9]+) \| (.*?) \| (`\w+`: .*?) \| ([0-9]+) \|", document.read(), re.M)
    for number, about, told, lines in rows:
        paths = []
        for crate, names in re.findall(r"`(\w+)`: ((?:`\w+`(?:, )?)+)", told):
            paths += [f"Rattle.{crate}.specs.{name}" for name in re.findall(r"`(\w+)`", names)]
        yield number, about, paths, int(lines)


def in_reading_order(files, part, found):
    """The files with items of a part, in the order in which to read them: those of the mathematics by the steps, others each behind those
    that it needs."""
    paths = {path for path, items in found.items() if items}
    if part != "mathematics":
        return in_order(files, paths)
    return [path for _, _, listed, _ in steps() for path in listed if path in paths]


def wrong_steps(files):
    """What is wrong with the steps: a file of the mathematics that stands in none of them, or in two, or before one that it needs; a file
    that is not of the mathematics; and how many lines a step has."""
    found = of_all(files)["mathematics"]
    listed = [path for _, _, paths, _ in steps() for path in paths]
    wanted = {path for path, items in found.items() if items}
    wrong = [f"no step has {place(path)}" for path in sorted(wanted - set(listed))]
    wrong += [f"{place(path)} is in a step, and no command needs it" for path in sorted(set(listed) - wanted)]
    wrong += [f"two steps have {place(path)}" for path in sorted({path for path in listed if listed.count(path) > 1})]
    for at, path in enumerate(listed):
        needed = {other for item in found[path] for name in names_in(item.text()) for other, _ in [files[path].imports.get(name, ("", ""))]}
        wrong += [f"{place(path)} stands before {place(it)}, which it needs" for it in listed[at + 1 :] if it in needed and it not in listed[:at]]
    for number, _, paths, lines in steps():
        count = size({path: found[path] for path in paths})
        wrong += [f"step {number} has {count} lines, and not {lines}"] * (count != lines)
    return [f"docs/PROVED.md: {it}" for it in wrong]


def print_commands(files):
    """Prints the lines of all commands: the mathematics step by step, then texts and refusals, and what each command is answered."""
    parts = of_all(files)
    print(f"\n==== mathematics: {size(parts['mathematics'])} lines")
    for number, about, paths, lines in steps():
        print(f"\n==== step {number}: {about.replace('**', '')}: {lines} lines")
        print_files(files, parts["mathematics"], paths)
    for part in PARTS[1:]:
        print(f"\n==== {part}: {size(parts[part])} lines")
        print_files(files, parts[part], in_reading_order(files, part, parts[part]))
    told = [sentence(files, name)[0] for name in commands(files)]
    print(f"\n==== what each command is answered: {sum(map(len, told))} lines")
    for lines in told:
        print("\n" + "\n".join(lines))


def size(items):
    """How many lines the items of some files have."""
    return sum(len(item.lines) for found in items.values() for item in found)


# ---- what documents say


def numbers(files):
    """The counts that documents tell: of each crate's lines for `run` and beyond them for `check`, of the lines that are not reached, and of
    each command."""
    of = {name: follow(files, clauses(name, None))[0] for name in ("run", "check")}
    only = follow(files, clauses("run", "run"))[0]
    all_parts = of_all(files)
    lines = lambda reached: sum(len(item.lines) for items in reached.values() for item in items)
    beyond = {path: items - of["run"][path] for path, items in of["check"].items()}
    by_crate = lambda reached: {
        crate: sum(len(item.lines) for path, items in reached.items() if path.split(".")[1] == crate for item in items)
        for crate in {path.split(".")[1] for path in reached}
    }
    left = sum(len(item.lines) for path, items in of["run"].items() if items for item in files[path].all if item not in items)
    crates = sorted({path.split(".")[1] for path in files})
    module = follow(files, function_of("cox_module::cell_module"))[0]
    laws = follow(files, [start for name in laws_of(crates) for start in function_of(name)])[0]
    new = lambda reached: {path: items - of["run"][path] - of["check"][path] for path, items in reached.items()}
    return {
        "module": lines(module),
        "module_new": lines(new(module)),
        "laws": lines(new(laws)),
        "run": by_crate(of["run"]),
        "beyond": by_crate(beyond),
        "total": lines(of["run"]),
        "written": lines(only),
        "check": lines(of["check"]),
        "more": lines(beyond),
        "left": left,
        "commands": {name: count_of(files, name) for name in commands(files)},
        "parts": [size(all_parts[part]) for part in PARTS],
        "not_of_run": sum(size({path: found - of["run"][path] for path, found in all_parts[part].items()}) for part in PARTS),
        "words_of_std": len({name for path, name in follow(files, clauses("run", None))[1] if path.startswith("Rattle.std.")}),
    }


def with_sums(section, counts):
    """A table of DEFINITIONS.md, whose first cells name crates and whose second ones have their lines."""

    def row(found):
        crates = re.findall(r"`(\w+)`", found.group(1))
        return f"| {found.group(1)} | {sum(counts.get(it, 0) for it in crates):,} |"

    return re.sub(r"^\| ([^|]*`[^|]*`[^|]*) \| [0-9,]+ \|", row, section, flags=re.M)


def told(files):
    """The documents that tell counts, by their paths: as they are, and as they should be; and the sentences that are missing."""
    known, texts, missing = numbers(files), {}, []
    for path in ("docs/DEFINITIONS.md", "docs/PROVED.md", "README.md"):
        with open(os.path.join(TOP, path), encoding="utf-8") as document:
            texts[path] = document.read()
    new = dict(texts)

    def put(path, before, number, behind):
        words = [re.escape(it).replace(r"\ ", r"\s+") for it in (before, behind)]
        pattern = rf"({words[0]})[0-9][0-9,]*({words[1]})"
        if not re.search(pattern, new[path]):
            missing.append(f"{path} does not say '{before}N{behind}'")
        new[path] = re.sub(pattern, lambda it: f"{it.group(1)}{number:,}{it.group(2)}", new[path], count=1)

    path = "docs/DEFINITIONS.md"
    first, second, rest = new[path].partition("**The second program's claim**")

    def without_a_row(table, counts):
        """The crates with lines that no row of a table names."""
        named = set(re.findall(r"`(\w+)`", table))
        return [f"{path}: no row of a table names {it}" for it, count in counts.items() if count and it not in named]

    table = re.search(r"^\| crate \| lines \|.*?(?=\n\n)", first, re.M | re.S)
    missing += without_a_row(table.group(0), known["run"])
    mended = with_sums(table.group(0), known["run"])
    first = first.replace(table.group(0), re.sub(r"^\| together \| [0-9,]+ \|", f"| together | {known['total']:,} |", mended, flags=re.M))
    table = re.search(r"^\| crate \| lines \|.*?(?=\n\n)", rest, re.M | re.S)
    missing += without_a_row(table.group(0), known["beyond"])
    new[path] = first + second + rest.replace(table.group(0), with_sums(table.group(0), known["beyond"]), 1)
    put(path, "Of all these lines ", known["written"], " are those of what is written alone")
    put(path, "In the same files stand ", known["left"], " lines more")
    put(path, "It unfolds to ", known["check"], " lines")
    put(path, "of which ", known["check"] - known["more"], " are among those above")
    put(path, "The ", known["more"], " that are not")
    put(path, "It unfolds to ", known["module"], " lines, of which")
    put(path, "of which ", known["module_new"], " stand in neither list")
    put(path, "All laws together unfold to ", known["laws"], " lines more")
    put(path, "- The ", known["words_of_std"], " words of the standard library's definitions")
    mathematics, text, refusals = known["parts"]
    own_lines = sum(own for own, *_ in known["commands"].values())
    path = "docs/PROVED.md"
    put(path, "reads ", mathematics, " lines of mathematics")
    put(path, "and the ", own_lines, " lines of the law")
    put(path, "The texts of the answers are ", text, " lines more")
    put(path, "the refusals, with how a line is read, ", refusals, ", of which")
    put(path, "of which ", known["not_of_run"], " are not among")
    put(path, "not among the ", known["total"], " of the headline")
    put("README.md", "read the definitions (", known["total"], " lines for `coxeter`")
    put("README.md", "`coxeter`, ", known["check"], " for `coxcheck`")
    put("README.md", "for `coxcheck`, ", known["total"] + known["more"], " for both)")
    rows = dict(re.findall(r"^\| `(\w+)[^`]*` \| (.*?) \|(?: [0-9]+ \|)+$", new["docs/PROVED.md"], re.M))
    shown = commands(files)
    lines = [ROW.format(name=shown[name], said=rows.get(name, "?"), own=own, m=m, t=t, r=r) for name, (own, m, t, r) in known["commands"].items()]
    table = re.search(rf"^{re.escape(HEAD_OF_COMMANDS)}\n(?:\|.*\n)*", new["docs/PROVED.md"], re.M)
    new["docs/PROVED.md"] = new["docs/PROVED.md"].replace(table.group(0), HEAD_OF_COMMANDS + "\n|---|---|---|---|---|---|\n" + "".join(lines))
    return {path: (texts[path], new[path]) for path in texts}, missing


HEAD_OF_COMMANDS = "| command | what is proved that it answers | in lines | mathematics | text | refusals |"
ROW = "| `{name}` | {said} | {own} | {m} | {t} | {r} |\n"


def path_of(files, file):
    return next(path for path, other in files.items() if other is file)


def wrapped(label, names):
    """A label and names, in lines of at most 100 characters."""
    line = f"    {label}"
    for name in names:
        if len(line) + len(name) > 98:
            print(line)
            line = "       "
        line += f" {name}"
    print(line)


def own(path):
    """Whether a path names a type or a constant of the code of this repository."""
    return ".specs.declared." in path and os.path.isdir(os.path.join(TOP, "crates", path.split(".")[1]))


def place(path):
    """A path without what all paths have."""
    for ending in (".TheVariants", ".TheConstants"):
        path = path.removesuffix(ending)
    return path.removeprefix("Rattle.").replace(".specs.declared.", ".").replace(".specs.", ".")


def main():
    words = argparse.ArgumentParser(description=__doc__.splitlines()[0])
    words.add_argument("--list", action="store_true", help="name the definitions that are reached")
    words.add_argument("--kit", help="the folder of the toolchain: follow the definitions of clap too")
    words.add_argument("--clause", help="follow the clause of this name alone")
    words.add_argument("--beyond", choices=STARTS, help="leave out what this function's clauses unfold to")
    words.add_argument("--command", help="print what one command's answer unfolds to")
    words.add_argument("--commands", action="store_true", help="print what the answers of all commands unfold to, in the order to read it in")
    words.add_argument("--write", action="store_true", help="write the counts into the documents")
    words.add_argument("function", nargs="?", default="run", help="whose clauses: run, run_one, check or CRATE::NAME (default: run)")
    words = words.parse_args()
    listed = words.list
    crates = os.path.join(TOP, "crates")
    folders = [os.path.join(crates, crate) for crate in sorted(os.listdir(crates))]
    if words.kit:
        folders.append(os.path.join(words.kit, "rattle", "clap"))
    files = specs(folders)
    if words.commands:
        return print_commands(files)
    if words.command:
        if words.command not in commands(files):
            sys.exit(f"no command on elements or on the whole group: {words.command}; there are {' '.join(commands(files))}")
        return print_command(files, words.command)
    if words.write:
        documents, missing = told(files)
        print("\n".join(missing), end="\n" if missing else "")
        for path, (_, new) in documents.items():
            with open(os.path.join(TOP, path), "w", encoding="utf-8") as document:
                document.write(new)
        return None
    if words.function not in STARTS and "::" not in words.function:
        sys.exit(f"no function {words.function}: name {', '.join(STARTS)}, or CRATE::NAME")
    starts = clauses(words.function, words.clause) if words.function in STARTS else function_of(words.function)
    reached, outside = follow(files, starts)
    if words.beyond:
        known, _ = follow(files, clauses(words.beyond, None))
        reached = defaultdict(set, {path: items - known[path] for path, items in reached.items()})
    total = commented = left = 0
    for path, file in files.items():
        if not reached[path]:
            continue
        lines = sum(len(item.lines) for item in reached[path])
        comments = sum(len(item.comments) for item in reached[path])
        total, commented = total + lines, commented + comments
        print(f"{place(path).replace('.', '/specs/') + '.antt':<40}{lines:>4}")
        if listed:
            wrapped("reached:", [item.name for item in file.all if item in reached[path]])
        others = [item for item in file.all if item not in reached[path]]
        left += sum(len(item.lines) for item in others)
        if others:
            wrapped("not reached:", [item.name for item in others])
    of = {True: defaultdict(set), False: defaultdict(set)}
    for path, name in outside:
        of[own(path)][place(path)].add(name)
    for title, paths in (("Types and constants of the code:", of[True]), ("Of the kit:", of[False])):
        print(f"\n{title}")
        for path in sorted(paths):
            wrapped(f"{path}:", sorted(paths[path]))
    print(f"\n{total} lines of definitions, and {commented} of comment above them;")
    print(f"in the same files {left} lines are not reached")


if __name__ == "__main__":
    main()
