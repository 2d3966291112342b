"""How long an answer has been awaited and how far a long list has been read: on standard error, where that is a terminal or
the output of a notebook's cell."""
import sys
import time

# After how many seconds something is first shown of a list, and how many are between two changes of it.
DELAY = 0.5
PAUSE = 0.1

# The same while the first line of an answer is awaited.
WAIT = 1.0
TICK = 1.0


def watch(question, comes):
    """Waits until something comes. Meanwhile a line tells for how long. `comes` waits for so many seconds, and says whether it has."""
    begun, line = time.monotonic(), None
    wait = WAIT
    try:
        while not comes(wait):
            line = line or Line()
            what = f"{short(question)}: computing" if question else "the program starts"
            line.write(f"{what}, {time.monotonic() - begun:.0f} s")
            wait = TICK
    finally:
        if line is not None:
            line.close()


def shown(items, total, what):
    """The items. While they are taken, a bar of `tqdm`, if that is installed, or a line tells how many they have been."""
    bar, due = None, time.monotonic() + DELAY
    count = told = 0
    try:
        for count, item in enumerate(items, 1):
            yield item
            if time.monotonic() >= due:
                bar = bar or new_bar(total, short(what))
                bar.update(count - told)
                told, due = count, time.monotonic() + PAUSE
    finally:
        if bar is not None:
            bar.update(count - told)
            bar.close()


def new_bar(total, what):
    """A bar of tqdm, or a line."""
    try:
        from tqdm import tqdm
    except ImportError:
        return Count(total, what)
    return tqdm(total=total, desc=what, file=sys.stderr, leave=False)


def can_show():
    """Whether standard error is a terminal, or is shown by a notebook."""
    return sys.stderr is not None and sys.stderr.isatty() or in_notebook()


def in_notebook():
    """Whether this is the process behind a notebook."""
    shell = "IPython" in sys.modules and sys.modules["IPython"].get_ipython()
    return getattr(shell, "kernel", None) is not None


def short(what):
    """The start of a long question."""
    return what if len(what) <= 40 else what[:37] + "..."


class Line:
    """A line that is written anew again and again, and is wiped at the end."""

    def __init__(self):
        self.width = 0

    def write(self, text):
        sys.stderr.write(f"\r{text.ljust(self.width)}")
        sys.stderr.flush()
        self.width = len(text)

    def close(self):
        # Notebooks don't know the sequence that clears a line of a terminal.
        sys.stderr.write(f"\r{' ' * self.width}\r")
        sys.stderr.flush()


class Count(Line):
    """A line that says how many items of how many were taken."""

    def __init__(self, total, what):
        super().__init__()
        self.total, self.what, self.count = total, what, 0

    def update(self, more):
        self.count += more
        self.write(f"{self.what}: {self.count} of {self.total}")
