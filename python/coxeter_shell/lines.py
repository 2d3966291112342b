"""The lines that a process writes, and those that are sent to it, within a limit of time."""
import os
import select
import time

# So many bytes are read at once.
SIZE = 1 << 18

# The bytes that the lines of an answer have: printing ASCII characters and spaces, and the ends of lines.
PRINTING = bytes([*range(0x20, 0x7F), 0x0A])

# The longest wait that `poll` is asked for, in seconds.
MOST_WAIT = 1000


class Late(Exception):
    """The limit of time is over."""


class Lines:
    """The lines of a process. Where a call has an `end`, that is when nothing is awaited any more, by time.monotonic(): then it is a
    Late. None is never."""

    def __init__(self, process):
        self._in, self._out = process.stdin.fileno(), process.stdout.fileno()
        os.set_blocking(self._in, False)
        self._polls = {}
        # The lines that have come, of which those from `_at` on are still to be taken, and the beginning of the next one.
        self._come, self._at, self._part = [], 0, b""
        # Whether a wrong character or an empty line has come.
        self.doubtful = False

    def send(self, data, end=None):
        """Writes bytes."""
        left = memoryview(data)
        while left:
            try:
                left = left[os.write(self._in, left) :]
            except BlockingIOError:
                while not self.wait(self._in, select.POLLOUT, MOST_WAIT, end):
                    pass

    def take(self, mark, end=None):
        """The lines that have come, up to the first one that is the mark, and whether that is there. Where nothing has come, it is awaited.

        An EOFError is raised at the end of the output. A line of other characters than those of an answer is given alone.
        """
        while self._at == len(self._come):
            self._read(end)
        come, at = self._come, self._at
        try:
            stop, marked = come.index(mark, at), True
        except ValueError:
            stop, marked = len(come), False
        if self.doubtful:
            wrong = next((k for k in range(at, stop) if not is_line(come[k])), None)
            if wrong is not None:
                stop, marked = (wrong if wrong > at else wrong + 1), False
        self._at = stop + marked
        return come[at:stop], marked

    def _read(self, end):
        """Reads what has come, and awaits it where nothing has."""
        if end is not None:
            while not self.wait(self._out, select.POLLIN, MOST_WAIT, end):
                pass
        data = os.read(self._out, SIZE)
        if not data:
            raise EOFError
        data = self._part + data
        *whole, part = data.decode("latin-1").split("\n")
        self.doubtful = self.doubtful or "" in whole or bool(data.translate(None, PRINTING))
        self._come, self._at, self._part = whole, 0, part.encode("latin-1")

    def comes(self, seconds, end=None):
        """Waits for so many seconds, and says whether something has come by then, or the output has ended."""
        return self._at < len(self._come) or self.wait(self._out, select.POLLIN, seconds, end)

    def wait(self, file, event, seconds, end):
        """Waits for so many seconds, or until the end, and says whether the event is there by then. After the end it is a Late.
        A file that was closed at its other end has the event too."""
        if file not in self._polls:
            self._polls[file] = select.poll()
            self._polls[file].register(file, event)
        if end is None:
            left = seconds
        else:
            left = min(seconds, end - time.monotonic())
            if left <= 0:
                # Even where more is there already: else an answer that comes fast enough would have no limit.
                raise Late
        return bool(self._polls[file].poll(1000 * left))


def is_line(text):
    """Whether a line is one of an answer."""
    return text.isascii() and text.isprintable() and text != ""
