"""A program on a terminal of its own, which a test types at."""
import errno
import fcntl
import os
import pty
import re
import select
import signal
import struct
import sys
import termios
import time

from patience import Patience

# So many seconds a test waits for something to be shown, while nothing wants a processor.
PATIENCE = 30

# What readline sends besides texts: sequences for colours, for pasting, and for moving about.
SEQUENCE = re.compile(r"\x1b\[[0-9;?]*[@-~]|\x07")

# What tells for how long an answer is awaited, and is wiped then, on a machine that is busy; and the remark behind an answer that took long.
AWAITED = re.compile(r"(?:\r[^\r\n]*, \d+ s)+\r +\r")
TOOK = re.compile(r"^-- [\d,]+ (?:line|item)s?, \d+\.\d s\n", re.M)


class Terminal:
    """A process of Python on a terminal, for a `with` block. `shown` is all that it has shown by now."""

    def __init__(self, *words, rows=50, columns=200, **environment):
        self.pid, self.terminal = pty.fork()
        if self.pid == 0:
            try:
                fcntl.ioctl(1, termios.TIOCSWINSZ, struct.pack("HHHH", rows, columns, 0, 0))
                changed = {"TERM": "dumb", "INPUTRC": os.devnull, "COXETER_HISTORY": os.devnull, **environment}
                os.execve(sys.executable, [sys.executable, *words], {**os.environ, **changed})
            finally:
                os._exit(127)
        self._sent, self._at = b"", 0
        self.status = None

    def __enter__(self):
        return self

    def __exit__(self, *_):
        if self.status is None:
            os.kill(self.pid, signal.SIGKILL)
            os.waitpid(self.pid, 0)
        os.close(self.terminal)

    @property
    def shown(self):
        return AWAITED.sub("", SEQUENCE.sub("", self._sent.decode(errors="replace")).replace("\r\n", "\n"))

    def type(self, text):
        """Types a text, without a Return behind it."""
        os.write(self.terminal, text.encode())

    def expect(self, pattern):
        """Waits until something is shown that fits, behind what was awaited last, and gives what stands between."""
        limit, more = Patience(PATIENCE, self.pid), True
        while True:
            found = re.compile(pattern, re.M).search(self.shown, self._at)
            if found is not None:
                between = self.shown[self._at : found.start()]
                self._at = found.end()
                return between
            try:
                more = more and limit.wait(self._read)
            except AssertionError:
                more = False
            if not more:
                raise AssertionError(f"{pattern!r} is not shown behind {self.shown[self._at:]!r}")

    def ended(self):
        """Waits for the end, and gives the exit status."""
        limit = Patience(PATIENCE, self.pid)
        try:
            while limit.wait(self._read):
                pass
            while self.status is None:
                done, status = os.waitpid(self.pid, os.WNOHANG)
                if done:
                    self.status = -os.WTERMSIG(status) if os.WIFSIGNALED(status) else os.WEXITSTATUS(status)
                else:
                    limit.wait(time.sleep)
        except AssertionError:
            raise AssertionError(f"the process doesn't end; it showed {self.shown!r}") from None
        return self.status

    def _read(self, seconds):
        """Takes what is shown next, if something is within so many seconds. False at the end."""
        if not select.select([self.terminal], [], [], seconds)[0]:
            return True
        try:
            data = os.read(self.terminal, 65536)
        except OSError as error:
            if error.errno != errno.EIO:
                raise
            return False
        self._sent += data
        return bool(data)
