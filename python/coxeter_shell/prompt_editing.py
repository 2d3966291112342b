"""History and completion at the prompt, where Python has readline."""
import contextlib
import glob
import os

from . import kinds

try:
    import readline
except ImportError:
    readline = None  # type: ignore[assignment]

# How many lines of history are kept, and where, unless the environment variable COXETER_HISTORY says otherwise.
MOST_HISTORY = 1000
HISTORY = "~/.coxeter_history"


def completions(before, text, commands):
    """What a word may be completed to, after the words before it: a command, a type, a topic of help, or the name of a file."""
    if before and before[-1] in (">", ">>"):
        return sorted(glob.glob(f"{glob.escape(os.path.expanduser(text))}*"))
    found = []
    if not before or before == ["help"]:
        found = commands
    elif before[0] == "type":
        found = type_part(before[1:])
    return [f"{it} " for it in found if it.startswith(text)]


def type_part(before):
    """What may follow these parts of a type: a letter, a number, and the `x` of a product in turn."""
    if len(before) % 3 == 0:
        return sorted(kinds.NAMED)
    if len(before) % 3 == 2:
        return ["x"]
    least, greatest = kinds.NAMED.get(before[-1], (1, 0))
    return map(str, range(least, greatest + 1))


def read(prompt, begun):
    """The line that is typed behind a prompt. `begun` is what was typed of it before."""
    if readline is None:
        return begun + input(prompt + begun)
    readline.set_startup_hook(lambda: readline.insert_text(begun))
    try:
        return input(prompt)
    finally:
        readline.set_startup_hook(None)


def remember(line):
    """Adds a line to the history that was read elsewhere."""
    if readline is not None and line:
        readline.add_history(line)


@contextlib.contextmanager
def line_editing(complete):
    """History and completion, in a `with` block. `complete` gives the completions of a text after the words before it."""
    if readline is None:
        yield
        return
    path = os.environ.get("COXETER_HISTORY", os.path.expanduser(HISTORY))

    def one_of(text, state):
        found = complete(readline.get_line_buffer()[: readline.get_begidx()].split(), text)
        return found[state] if state < len(found) else None

    readline.set_completer(one_of)
    readline.set_completer_delims(" ")
    readline.parse_and_bind("bind ^I rl_complete" if "libedit" in readline.__doc__ else "tab: complete")
    with contextlib.suppress(OSError):
        readline.read_history_file(path)
    known = readline.get_current_history_length()
    try:
        yield
    finally:
        with contextlib.suppress(OSError):
            with open(path, "a", encoding="utf-8"):
                pass
            readline.set_history_length(MOST_HISTORY)
            readline.append_history_file(readline.get_current_history_length() - known, path)
