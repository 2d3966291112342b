"""What the prompt shows: answers on standard output, page by page on a terminal, or in a file; and on standard error all that the shell
says besides."""
import itertools
import os
import re
import select
import shutil
import signal
import sys
import termios
import time
import tty

from .texts import counted

# An answer that takes so many seconds is told with its time.
LONG = 1.0

# So many bytes of what is typed are read at once.
MOST_TYPED = 4096

NEXT = "space: the next page, a: all, q: no more"


class Screen:
    """Where answers go. `ahead` has the lines that were typed while an answer was awaited or shown, and None where the end was typed."""

    def __init__(self, interactive):
        self.interactive = interactive
        self.ahead, self._begun = [], ""
        self.said = 0  # so many lines since the last prompt

    def begun_line(self):
        """What was typed of the next line in that time."""
        begun, self._begun = self._begun, ""
        return begun

    def forget(self):
        """Drops what was typed."""
        self.ahead, self._begun = [], ""

    def say(self, *lines):
        """What is no answer."""
        sys.stdout.flush()
        self.said += len(lines)
        for line in lines:
            print(line, file=sys.stderr, flush=True)

    def width(self):
        return max(shutil.get_terminal_size().columns, 40)

    def show(self, lines, begun, path=None, append=False):
        """Writes the lines of an answer, to a file where one is given. On a terminal it tells how many they were and how long they took
        since the time `begun`, where that is long."""
        lines = Counted(lines)
        if path is not None:
            self._to_file(lines, path, append)
        elif self.interactive:
            self._by_pages(lines)
        else:
            for line in lines:
                print(line)
                lines.shown += 1
            sys.stdout.flush()
        seconds = time.monotonic() - begun - lines.waited
        if self.interactive and (path is not None or lines.paged or seconds >= LONG):
            where = f" in {path}" if path is not None else ""
            self.say(f"-- {lines.size()}{where}, {seconds:.1f} s")

    def _to_file(self, lines, path, append):
        # What is refused leaves the file as it is: it is opened when there is something to write.
        first = next(lines, None)
        with open(os.path.expanduser(path), "a" if append else "w", encoding="utf-8") as out:
            try:
                for line in lines if first is None else itertools.chain([first], lines):
                    out.write(f"{line}\n")
                    lines.shown += 1
            except BaseException:
                self.say(f"-- {path} has only a part of the answer")
                raise

    def _by_pages(self, lines):
        """Writes lines, and waits for a key before each page but the first. A line that is wider than the terminal takes several rows."""
        width, height = shutil.get_terminal_size()
        rows = min(self.said, height // 2)
        for line in lines:
            for at in range(0, max(len(line), 1), width):
                if rows == max(height - 1, 1) and not lines.unpaged:
                    if not self._goes_on(lines, width):
                        return
                    rows = 0
                sys.stdout.write(line[at : at + width])
                rows += 1
            sys.stdout.write("\n")
            lines.shown += 1
        sys.stdout.flush()

    def _goes_on(self, lines, width):
        """Whether the reader wants more."""
        first, lines.paged = not lines.paged, True
        sys.stdout.flush()
        begun = time.monotonic()
        try:
            pressed = self._pressed(f"-- {lines.progress()}; {NEXT} --"[: width - 1], first)
        finally:
            lines.waited += time.monotonic() - begun
        lines.unpaged = pressed in (b"a", None)
        lines.stopped = pressed in (b"q", b"Q", b"\x1b", b"\x04", b"")
        return not lines.stopped

    def _pressed(self, question, first):
        """The key that is pressed at a question. None where lines were typed that are to be run next: then the answer is written without stops."""
        while not self.ahead[-1:] == [None] and typed():
            self._take(os.read(sys.stdin.fileno(), MOST_TYPED))
        with Keys(question) as keys:
            # What was typed before the first question is the beginning of a line, and no answer. Before others it is one.
            while first and not self.ahead and typed():
                self._take(keys.next())
            if self.ahead:
                return None
            keys.ask()
            pressed = keys.next()
        if b"\n" in pressed and pressed.strip():
            self._take(pressed)
        return None if self.ahead else pressed

    def _take(self, data):
        """Keeps what was typed for the next prompts: whole lines, and what there is of another one. Nothing is the end of the input."""
        *lines, self._begun = (self._begun + data.decode(errors="surrogateescape")).replace("\r", "\n").split("\n")
        self.ahead += [line for line in lines if line.strip()] + [None] * (not data)


class Counted:
    """The lines of an answer. `shown` is how many of them were shown, `waited` how many seconds the reader was waited for."""

    def __init__(self, lines):
        self._lines = iter(lines)
        self._first = None
        self.shown = self.waited = 0
        self.paged = self.unpaged = self.stopped = False

    def __iter__(self):
        return self

    def __next__(self):
        line = next(self._lines)
        if self._first is None:
            self._first = line
        return line

    def _items(self):
        """How many items the list has that this may be, None for other answers."""
        return int(self._first) if self._first is not None and re.fullmatch("[0-9]{1,18}", self._first) else None

    def progress(self):
        total = self._items()
        return f"{max(self.shown - 1, 0):,} of {total:,}" if total is not None else counted(self.shown, "line")

    def size(self):
        """How much was shown, in words."""
        if self.stopped:
            return self.progress()
        listed = self._items() == self.shown - 1
        return counted(self.shown - 1, "item") if listed else counted(self.shown, "line")


def typed():
    """Whether something was typed that is not read yet: a whole line where the terminal gives lines, else a key."""
    return bool(select.select([sys.stdin], [], [], 0)[0])


class Keys:
    """The terminal, which gives each key when it is pressed, for a `with` block in which a question is asked.

    Where the process is stopped meanwhile, as by Ctrl-Z, the terminal is as it was before; when it goes on, the question is asked anew.
    """

    def __init__(self, question):
        self.question, self.asked, self.open = question, False, False
        self.terminal = sys.stdin.fileno()
        self.before = termios.tcgetattr(self.terminal)
        self.handlers = {}

    def __enter__(self):
        try:
            for it, call in ((signal.SIGTSTP, self._stop), (signal.SIGCONT, self._go_on)):
                self.handlers[it] = signal.signal(it, call)
            self.open = True
            tty.setcbreak(self.terminal, termios.TCSADRAIN)
        except BaseException:
            self.__exit__()
            raise
        return self

    def __exit__(self, *_):
        self.open = False
        self._wipe()
        termios.tcsetattr(self.terminal, termios.TCSADRAIN, self.before)
        for it, call in self.handlers.items():
            signal.signal(it, call)

    def ask(self):
        sys.stderr.write(self.question)
        sys.stderr.flush()
        self.asked = True

    def next(self):
        """What the next key sends, or a pasted text."""
        return os.read(self.terminal, MOST_TYPED)

    def _wipe(self):
        if self.asked:
            sys.stderr.write(f"\r{' ' * len(self.question)}\r")
            sys.stderr.flush()

    def _stop(self, *_):
        self._wipe()
        termios.tcsetattr(self.terminal, termios.TCSADRAIN, self.before)
        signal.signal(signal.SIGTSTP, signal.SIG_DFL)
        os.kill(os.getpid(), signal.SIGTSTP)
        signal.signal(signal.SIGTSTP, self._stop)
        self._go_on()

    def _go_on(self, *_):
        if self.open:
            tty.setcbreak(self.terminal, termios.TCSADRAIN)
            if self.asked:
                self._wipe()
                self.ask()
