"""Help at the prompt, which is read out of the manual of the program, docs/MANUAL.md."""
import re
import textwrap

from . import kinds
from .errors import CoxeterError
from .prompt_package import REFUSED_AS
from .prompt_words import clean

# The commands of the program that answer a list: a line with the number of its items, and a line for each.
LISTS = ("interval", "coatoms", "klbasis", "extremals", "lwgraph", "rwgraph", "lcells", "rcells", "lrcells")

# The commands that the table of refusals means by these words.
MEANT = {"W-graphs": ("lwgraph", "rwgraph"), "cells": ("lcells", "rcells", "lrcells")}

# The sections that say more of these commands.
MORE = {"type": "Named types", "matrix": "Matrices"}

# So many examples are shown of a command, of at most so many lines each.
MOST_EXAMPLES, MOST_LINES = 3, 14

HEAD = re.compile(r"(?:(?:`[^`]+`|W-graphs|cells)(?:, | and |: ))+")


class Manual:
    """The manual, taken apart: `sections` are its sections in their order, `rows` the rows of its tables of commands by the command."""

    def __init__(self, text):
        self.sections = list(sections(text))
        self.rows = {}
        for section in self.sections:
            for usages, answer in section.table("command", "answer"):
                for name in dict.fromkeys(usage.split()[0] for usage in usages):
                    self.rows.setdefault(name, []).append((usages, answer, section))

    def listed(self, width):
        """What `help` shows: the commands, each with its answer, and the titles of the sections."""
        for section in self.sections:
            rows = section.table("command", "answer")
            if rows:
                yield from ["", f"{section.title}:"]
            for usages, answer in rows:
                yield from laid_out(", ".join(usages), answer, width)
        yield from ["", "help pol says more of a command, and these words show a part of the manual:"]
        titles = ", ".join(f"help {it.title.lower()}" for it in self.sections)
        yield from textwrap.wrap(titles, width, initial_indent="  ", subsequent_indent="  ")

    def about(self, topic, width):
        """What `help` shows of a command, or of a section by its title or by the beginning of it. Another topic is a KeyError."""
        if topic not in self.rows:
            wanted = topic.lower()
            found = next((it for it in self.sections if it.title.lower().startswith(wanted)), None)
            if found is None:
                raise KeyError(topic)
            return [found.title, "", *found.shown(width)]
        shown, below = [], []
        for usages, answer, section in self.rows[topic]:
            shown += laid_out(", ".join(usages), answer.replace(" (see below)", ""), width)
            if "(see below)" in answer:
                below.append(self.below(topic, section))
        below += [it for it in self.sections if it.title == MORE.get(topic)]
        for section in below:
            shown += ["", f"{section.title}:", "", *section.shown(width)]
        alike = dict.fromkeys([topic, *(it.split()[0] for usages, _, _ in self.rows[topic] for it in usages)])
        examples = [] if below else next(filter(None, (list(self.examples(name)) for name in alike)), [])
        if examples:
            shown += ["", "examples:", *examples]
        limits = list(self.limits(topic))
        if limits:
            shown += ["", "limits:"]
            for number, text in limits:
                shown += laid_out(f"error {number}", text, width)
        return shown

    def below(self, command, section):
        """The section that a row of a table sends to: the first that has the command in an example, or speaks of it."""
        after = self.sections[self.sections.index(section) + 1 :]
        tried = (it for it in after if any(line.split()[:1] == [command] for text, _ in it.scripts() for line in text.splitlines()))
        spoken = (it for it in after if f"`{command}`" in it.text)
        return next(tried, None) or next(spoken)

    def examples(self, command):
        """The lines of some examples of a command: the group, the command, and the answer, which is moved in."""
        count, last = 0, None
        for section in self.sections:
            if section.title in ("Refusals", "Options"):
                continue
            for group, line, answer in section.asked():
                refused = answer[:1] and answer[0].startswith("error")
                if line.split()[:1] == [command] and answer and not refused and len(answer) <= MOST_LINES:
                    if group not in (last, line):
                        yield f"  {group}"
                    last, count = group, count + 1
                    yield from [f"  {line}", *(f"    {it}" for it in answer)]
                    if count == MOST_EXAMPLES:
                        return

    def limits(self, command):
        """The refusals whose rows name the command, or the one that it is refused as: the number, and what the row says of it."""
        command = REFUSED_AS.get(command, command)
        for section in self.sections:
            for (number, *_), text in section.table("N", "the line is refused because"):
                clauses = []
                for sentence in re.split(r"(?<=[.;]) (?=[`W])", text):
                    if HEAD.match(sentence) or not clauses:
                        clauses.append(sentence)
                    else:
                        clauses[-1] += f" {sentence}"
                for clause in clauses:
                    head = HEAD.match(clause)
                    names = {it.split()[0] for it in re.findall("`([^`]+)`", head.group())} if head else set()
                    names.update(name for word, meant in MEANT.items() if head and word in head.group() for name in meant)
                    if command in names:
                        back = clause is not clauses[0] and re.search("the same|than that", clause)
                        text = plain(f"{clauses[0]} {clause}" if back else clause)
                        yield number, text.replace("(see below)", "(help refusals)")


class Section:
    """A section of the manual: its title, and its text up to the next title."""

    def __init__(self, title, text):
        self.title, self.text = title, text

    def table(self, first, second):
        """The rows of a table with these heads: the texts in backquotes of the first column, or its text, and the second column."""
        rows, inside = [], False
        for line in self.text.splitlines():
            cells = [it.strip() for it in line.strip("| ").split(" | ")]
            if line.startswith("|") and cells[:2] == [first, second]:
                inside = True
            elif not line.startswith("|"):
                inside = False
            elif inside and not line.startswith("|--"):
                rows.append((re.findall("`([^`]+)`", cells[0]) or [cells[0]], cells[1]))
        return [(usages, plain(answer) if first == "command" else answer) for usages, answer in rows]

    def blocks(self):
        """The blocks of examples: the mark and the text of each."""
        return [it.groups() for it in re.finditer(r"^```(\w*)\n(.*?)^```$", self.text, re.M | re.S)]

    def scripts(self):
        """The scripts, each with what comes out of it."""
        blocks = self.blocks()
        for (mark, text), (_, out) in zip(blocks, blocks[1:]):
            if mark == "coxeter":
                yield text, out

    def asked(self):
        """The lines that are asked in the examples: the group, the line, and the lines of the answer."""
        for text, out in self.scripts():
            yield from parted(text, out)
        for mark, text in self.blocks():
            if mark == "prompt":
                yield from transcript(text)

    def shown(self, width):
        """The text for a terminal."""
        kept, script = [], None
        for part in re.split(r"(^```\w*\n.*?^```\n?)", self.text, flags=re.M | re.S):
            mark, *lines = part.splitlines() or [""]
            if mark == "```coxeter":
                script = "\n".join(lines[:-1])
            elif mark.startswith("```"):
                kept += [*shown_block(script, lines[:-1]), ""]
                script = None
            elif part.strip():
                for paragraph in re.split(r"\n\s*\n", part.strip("\n")):
                    kept += [*shown_paragraph(paragraph, width), ""]
        return kept[:-1]


def sections(text):
    """The sections of a document."""
    marks = list(re.finditer(r"^(?:##|###) (.*)$", re.sub(r"^```.*?^```$", lambda it: " " * len(it.group()), text, flags=re.M | re.S), re.M))
    for mark, after in zip(marks, [*marks[1:], None]):
        yield Section(plain(mark.group(1)), text[mark.end() : after.start() if after else len(text)].strip("\n"))


def parted(script, out):
    """The lines of a script, each with its group and its answer, which are taken from what comes out."""
    left, group = iter(out.splitlines()), None
    for line in script.splitlines():
        command = (line.split() or [""])[0]
        if command == "jobs":
            return
        if command in ("type", "matrix"):
            try:
                kinds.read(line)
            except (CoxeterError, ValueError):
                yield group, line, [next(left)]
            else:
                group = line
                yield group, line, []
            continue
        answer = [next(left)] if command else []
        if answer and not answer[0].startswith("error"):
            if command == "cert":
                answer += iter(lambda: next(left), "end")
                answer.append("end")
            elif command in LISTS or command == "module":
                items = 1 + int(answer[0]) * len(kinds.read(group).matrix) if command == "module" else int(answer[0])
                answer += [next(left) for _ in range(items)]
        yield group, line, answer


def transcript(text):
    """The lines that are typed at the prompt in a transcript, each with its group and what is shown behind it."""
    asked = None
    for line in text.splitlines():
        typed = re.match("([a-zA-Z][ a-zA-Z0-9.]*)> (.*)", line)
        if typed:
            if asked:
                yield asked
            words = typed.group(1)
            asked = (words if words.startswith("matrix") else f"type {words}", clean(typed.group(2)), [])
        else:
            asked[2].append(line)
    if asked:
        yield asked


def shown_block(script, lines):
    """A block of a document: where it is what comes out of a script, each line of that with its answer."""
    if script is None:
        return [f"    {line}" for line in lines]
    kept = []
    for _, line, answer in parted(script, "\n".join(lines)):
        kept += [f"    {line}", *(f"      {it}" for it in answer)]
    if len(kept) < len(script.splitlines()):  # a list of jobs is answered at its end
        kept = [*(f"    {line}" for line in script.splitlines()), *(f"      {it}" for it in lines)]
    return kept


def plain(text):
    """A text without the marks of its layout."""
    return re.sub(r"`([^`]*)`", r"\1", re.sub(r"\[([^]]*)\]\([^)]*\)", r"\1", text.replace("**", "")))


def laid_out(head, text, width):
    """A head, and a text that is moved in behind it, or below it where the head is long."""
    lines = textwrap.wrap(text, max(width - 26, 30)) or [""]
    if len(head) > 22:
        return [f"  {head}", *(f"{'':26}{line}" for line in lines)]
    return [f"  {head:24}{lines[0]}", *(f"{'':26}{line}" for line in lines[1:])]


def shown_paragraph(paragraph, width):
    """A paragraph, the items of a list, a table or a drawing for a terminal."""
    lines = paragraph.splitlines()
    if lines and lines[0].startswith("    "):
        return lines
    if lines and lines[0].startswith("|"):
        kept = []
        for line in lines:
            if not line.startswith("|--"):
                first, _, rest = line.strip("| ").partition(" | ")
                kept += laid_out(plain(first.strip()), plain(rest.strip()), width)
        return kept
    kept = []
    for item in re.split(r"\n(?=- )", paragraph):
        hanging = "  " if item.startswith("- ") else ""
        kept += textwrap.wrap(plain(" ".join(item.split())), width, subsequent_indent=hanging)
    return kept
