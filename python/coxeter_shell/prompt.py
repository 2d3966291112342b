"""A prompt over the program: python -m coxeter_shell

Lines are commands of the program, and its answers are shown as it gives them. docs/MANUAL.md has what the shell adds. Errors, times and
other remarks go to standard error. Where standard input or output is no terminal, there is no prompt, and nothing is asked of a reader.
"""
import contextlib
import functools
import os
import re
import signal
import sys
import time

from . import diagrams, progress, prompt_editing, prompt_groups, prompt_help, prompt_package, prompt_words, reasons
from .documents import read_document
from .errors import CoxeterError, Refusal
from .group import CoxeterGroup
from .program import MOST_OF_LINE, Program, check_characters, find_program
from .prompt_show import Screen

# The commands of the program that the shell hands on, by how many words each takes; None where its
# arguments are no words.
TAKEN = {
    0: ["lwgraph", "rwgraph", "lcells", "rcells", "lrcells"],
    1: [
        *("compute", "length", "inverse", "descent", "coatoms", "betti", "ihbetti"),
        *("klbasis", "extremals", "cert", "module"),
    ],
    2: ["inorder", "interval", "rpol", "pol", "invpol", "mu"],
    None: ["work"],
}

# The same the other way round.
PROGRAM = {name: words for words, names in TAKEN.items() for name in names}

QUIT = ("q", "qq", "quit")

# What the shell does itself. `type` and `matrix` set a group as in the program, `jobs` opens a list of blocks.
OWN = ("help", "rank", "type", "matrix", "jobs", *QUIT)

# The lines of a list of jobs that part its blocks and end it.
NEXT, END = "next", "end"

COMMANDS = sorted([*PROGRAM, *OWN, *prompt_package.COMMANDS])

BANNER = (
    "Coxeter groups by the program coxeter. Its answers are proved; what the shell makes by itself says so, and is not.",
    "help lists the commands, help pol says more of one; Tab completes, Ctrl-C ends a question, q the shell.",
)
NOT_PROVED = "-- made by the package from answers of the program, not proved"


class Mistake(CoxeterError):
    """A line that the shell can't take, with the part of it that is meant: its place and its length."""

    def __init__(self, why, place=None):
        super().__init__(why, place)
        self.why, self.place = why, place

    def __str__(self):
        return self.why


class Shell:
    """A session at the prompt. `program` and `options` are those of `CoxeterGroup`."""

    def __init__(self, program=None, **options):
        self.path, self.options = program, options
        self.screen = Screen(all(it is not None and it.isatty() for it in (sys.stdin, sys.stdout)))
        self.group = self.name = None  # the name is that of `type` and of the prompt
        self.bare = Program(program, **options)  # it answers while no group is set
        self.blocks = None  # of a list of jobs that is open
        self.refused = False
        self._may_interrupt = self._asking = False

    def run(self):
        """Answers lines until the end, and gives the exit status: 1 where a line of a script was refused."""
        find_program(self.path)
        if hasattr(sys.stdin, "reconfigure"):
            sys.stdin.reconfigure(errors="surrogateescape")
        with contextlib.ExitStack() as after:
            after.callback(self.close)
            if self.screen.interactive:
                after.callback(signal.signal, signal.SIGINT, signal.signal(signal.SIGINT, self._interrupt))
                after.enter_context(prompt_editing.line_editing(self._completions))
                self.screen.say(*BANNER)
            while self._turn():
                pass
        return int(self.refused and not self.screen.interactive)

    def close(self):
        """Ends the programs."""
        self.bare.close()
        if self.group is not None:
            self.group.close()

    def _turn(self):
        """Reads and answers a line. Says whether to go on."""
        try:
            # From here to the end of the block an interrupt ends the question, and it is raised once. Elsewhere it does nothing.
            self._may_interrupt = True
            text = self._read()
            self._asking = True
            going = all(map(self._taken, lines_of(text))) if text is not None else self._end_of_input()
            self._may_interrupt = self._asking = False
        except KeyboardInterrupt:
            if not self.screen.interactive:
                raise
            self.screen.forget()
            self.screen.say("", "-- stopped" if self._asking else "")
            self.blocks, self._asking, going = None, False, True
        return going

    def _interrupt(self, *_):
        if self._may_interrupt:
            self._may_interrupt = False
            raise KeyboardInterrupt

    def _read(self):
        """The next line, None at the end. On a terminal it may have several lines, which were pasted."""
        if self.screen.interactive:
            sys.stdout.flush()
            self.screen.said = 0
            if self.screen.ahead:
                line = self.screen.ahead.pop(0)
                print(self.prompt() + (line or ""))
                prompt_editing.remember(line)
                return line
            try:
                return prompt_editing.read(self.prompt(), self.screen.begun_line())
            except EOFError:
                print()
                return None
        if sys.stdin is None:
            return None
        # No more is kept of a line than tells that it is too long.
        line = more = sys.stdin.readline(2 * MOST_OF_LINE)
        while more and not more.endswith("\n"):
            more = sys.stdin.readline(2 * MOST_OF_LINE)
        return line or None

    def prompt(self):
        if self.blocks is not None:
            return "jobs> "
        if self.name is None:
            return "coxeter> "
        words = self.name.split(" ")
        return f"{self.name if len(self.name) <= 24 else f'{words[0]} {words[1]} ..'}> "

    def _end_of_input(self):
        if self.blocks is not None:
            self._taken(END)
        return False

    def _taken(self, line):
        """Answers one line. Says whether to go on."""
        typed = prompt_words.clean(line)
        try:
            return self._line(typed)
        except Mistake as error:
            self._refuse(typed, str(error), error.place)
        except Refusal as refusal:
            why = self._detail(refusal) or self._usage(refusal, typed)
            self._refuse(typed, f"error {refusal.number}: {refusal.meaning}{why}", self._cause(refusal, typed))
        except BrokenPipeError:
            raise
        except (CoxeterError, ValueError, OSError) as error:
            self._refuse(typed, str(error), None)
        return True

    def _refuse(self, typed, text, place):
        self.refused = True
        shown = prompt_words.pointed(typed, *place, self.screen.width() - 4) if place is not None else []
        self.screen.say(*(f"  {line}" for line in shown), text)

    # ---- lines

    def _line(self, typed):
        begun = time.monotonic()
        question, path, append = redirected(typed)
        check_characters(question)
        parts = prompt_words.tokens(question)
        if not parts:
            if path is not None:
                raise Mistake("a command stands before >", (0, 1))
            return True
        if self.blocks is not None:
            self._line_of_list(parts, question, begun, path, append)
            return True
        name, arguments = self._command(parts[0]), parts[1:]
        if name in QUIT:
            if arguments:
                raise Refusal(11, question)
            return False
        if name in PROGRAM:
            answer = self._asked(name, arguments)
        elif name in prompt_package.COMMANDS:
            answer = self._by_package(name, arguments, question)
        else:
            answer = getattr(self, f"_{name}")(arguments, question)
        if answer is not None:
            self.screen.show(answer, begun, path, append)
        return True

    def _command(self, part, among=COMMANDS):
        """The command that a word is, or that it begins as no other does."""
        if part.text in among:
            return part.text
        found = [name for name in among if name.startswith(part.text)]
        if len(found) == 1:
            return found[0]
        place = part.start, len(part.text)
        if found:
            raise Mistake(f"{part.text} may be {', '.join(found)}", place)
        if part.text in prompt_package.ABSENT:
            raise Mistake(f"{part.text} of Coxeter 3 is not here: {prompt_package.ABSENT[part.text]}", place)
        raise Refusal(10, part.text)

    def _asked(self, name, arguments):
        """The answer of the program."""
        program = self.bare if self.group is None else self.group.program
        program.watch = progress.watch if self.screen.interactive and progress.can_show() else None
        line, remarks = self._sent(name, arguments)
        answer = program.stream(line)
        self.screen.say(*remarks)
        return answer

    def _sent(self, name, arguments):
        """The line for the program, and remarks: words with signs in them are worked out. Where the line is refused for another cause, they
        stay."""
        if self.group is None or len(arguments) != PROGRAM[name]:
            return " ".join([name, *(it.text for it in arguments)]), []
        words, remarks = self._worked_out(arguments)
        return " ".join([name, *words]), remarks

    def _worked_out(self, arguments):
        """Words as the program reads them, and a remark on each that the package has worked out."""
        words = list(map(self._word, arguments))
        made = {it.text: word for it, word in zip(arguments, words) if prompt_words.has_signs(it.text)}
        return words, [prompt_words.remark(typed, word, len(self.group._spelling.element(word))) for typed, word in made.items()]

    def _word(self, part):
        """A word as the program reads it."""
        if not prompt_words.has_signs(part.text):
            return part.text
        try:
            return self.group.text(prompt_words.value(self.group, part.text))
        except prompt_words.WordError as error:
            raise Mistake(str(error), (part.start + error.place, error.length)) from None

    def _by_package(self, name, arguments, question):
        """The answer of the package, and the remark that it isn't proved."""
        count, lines = prompt_package.COMMANDS[name]
        if len(arguments) != count:
            raise Refusal(11, question)
        if self.group is None:
            raise Refusal(15, question)
        words, remarks = self._worked_out(arguments)
        answer = iter(lines(self.group, *words))
        first = next(answer)
        self.screen.say(*remarks, NOT_PROVED)
        return [first, *answer]

    # ---- the shell's own commands

    def _help(self, arguments, _):
        width = min(self.screen.width(), 100) - 1
        if not arguments:
            return self.manual.listed(width)
        topic = " ".join(it.text for it in arguments)
        known = [*COMMANDS, NEXT, END]
        found = [topic] if topic in known else [name for name in known if name.startswith(topic)]
        try:
            return self.manual.about(found[0] if len(found) == 1 else topic, width)
        except KeyError:
            raise Mistake(f"there is no help on {topic}", prompt_words.span(arguments)) from None

    def _rank(self, arguments, question):
        """Shows the rank, or sets the group of the same letter with another one."""
        if self.group is None:
            raise Refusal(15, question)
        if len(arguments) > 1:
            raise Refusal(11, question)
        if not arguments:
            return [str(self.group.rank)]
        if not re.fullmatch("[0-9]{1,9}", arguments[0].text):
            raise Refusal(12, question)
        words = self.name.split(" ")
        if len(words) != 2:
            how = "was set by its matrix" if words[0] == "matrix" else "is a product"
            raise Mistake(f"the group {how}: set another one by matrix, or by type")
        number = int(arguments[0].text) - (self.group.rank - int(words[1]))
        return self._set(f"{words[0]} {max(number, 0)}")

    def _type(self, arguments, question):
        """Sets a named group, or shows which is set."""
        if arguments:
            return self._set(" ".join(it.text for it in arguments))
        if self.group is None:
            raise Refusal(15, question)
        return [self.name if self.name.startswith("matrix") else f"type {self.name}"]

    def _matrix(self, arguments, question):
        """Sets a group by its matrix, or shows the matrix and the diagram."""
        if arguments:
            return self._set(" ".join(["matrix", *(it.text for it in arguments)]))
        if self.group is None:
            raise Refusal(15, question)
        rows = self.group.coxeter_matrix()
        return [*diagrams.table(rows), "", *diagrams.diagram(rows)]

    def _set(self, kind):
        """Sets a group, once its program has taken it, and says what the package has made of its name."""
        group = CoxeterGroup(kind, program=self.path, **self.options)
        try:
            group.program.start()
        except BaseException:
            group.close()
            raise
        before, self.group, self.name = self.group, group, prompt_groups.name(kind, group)
        if before is not None:
            before.close()
        self.screen.say(*prompt_groups.remarks(self.name, group))

    def _jobs(self, arguments, question):
        if arguments:
            raise Refusal(11, question)
        if self.group is None:
            raise Refusal(15, question)
        self.blocks = [[]]

    def _line_of_list(self, parts, question, begun, path, append):
        """Takes a line of a list of jobs. The list is answered at its end."""
        name, arguments = self._command(parts[0], [*PROGRAM, NEXT, END]), parts[1:]
        if path is not None and name != END:
            raise Mistake("the answers of a list go to a file by end > FILE", (len(question), 1))
        if name in PROGRAM:
            line, remarks = self._sent(name, arguments)
            self.blocks[-1].append(line)
            self.screen.say(*remarks)
        elif arguments:
            raise Refusal(11, question)
        elif name == NEXT:
            self.blocks.append([])
        else:
            blocks, self.blocks = self.blocks, None
            self.screen.show(answers_of(self.group.jobs(blocks)), begun, path, append)

    def _completions(self, before, text):
        return prompt_editing.completions(before, text, COMMANDS if self.blocks is None else [*PROGRAM, NEXT, END])

    # ---- what is said of refusals

    @functools.cached_property
    def manual(self):
        return prompt_help.Manual(read_document("MANUAL.md"))

    def _name(self, typed):
        """The command of a line that was refused, None where it is none."""
        try:
            return self._command(prompt_words.tokens(typed)[0])
        except (CoxeterError, IndexError):
            return None

    def _detail(self, refusal):
        """Which cause a refusal has, where that is more than the place in the line shows."""
        if refusal.number == 31 and not refusal.detail:
            refusal.detail = reasons.detail(self.group, refusal)
        return f": {refusal.detail}" if refusal.number in (13, 31) and refusal.detail else ""

    def _usage(self, refusal, typed):
        """How a command is written whose arguments are too many or too few."""
        name = self._name(typed)
        try:
            rows = self.manual.rows.get(name, []) if refusal.number == 11 else []
        except CoxeterError:
            return ""
        usages = [usage for usages, _, _ in rows for usage in usages if usage.split()[0] == name]
        return f": {' or '.join(usages)}" if usages else ""

    def _cause(self, refusal, typed):
        question = redirected(typed, strict=False)[0]
        name = self._name(typed)
        words = PROGRAM.get(name, prompt_package.COMMANDS.get(name, (0,))[0])
        return prompt_words.cause(refusal.number, question, name, self.group, words)


def lines_of(text):
    """The lines of a text that was read or pasted, without what ends them."""
    return (text[:-1] if text.endswith("\n") else text).split("\n")


def redirected(typed, strict=True):
    """The question of a line, the file that its answer goes to or None, and whether it is added to that file."""
    found = re.fullmatch("([^>]*)(>>?)(.*)", typed, re.S)
    if found is None:
        return typed, None, False
    question, sign, path = found.groups()
    if strict and not path.strip():
        raise Mistake(f"the name of a file stands behind {sign}", (len(question), len(sign)))
    return question.rstrip(), path.strip(), sign == ">>"


def answers_of(blocks):
    """The answers to a list of jobs, line by line. Refusals are told in words."""
    for block in blocks:
        for answer in block:
            if isinstance(answer, Refusal):
                yield f"error {answer.number}: {answer.meaning} ({answer.line})"
            else:
                yield from answer


def main(program=None, **options):
    """Runs the shell, and gives its exit status."""
    try:
        return Shell(program, **options).run()
    except BrokenPipeError:
        # Nobody reads any more. Python would complain as it ends.
        os.dup2(os.open(os.devnull, os.O_WRONLY), sys.stdout.fileno())
        return 1
    except KeyboardInterrupt:
        return 128 + signal.SIGINT
