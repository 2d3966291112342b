"""Limits of time that a busy machine does not reach: the clock counts only while nothing that is waited for wants a processor."""
import contextlib
import os
import threading
import time

# After so many times the seconds of a limit the clock counts in any case.
MOST = 60


class Patience:
    """A limit of so many seconds, for a process and those that it has started: this one, if none is named."""

    def __init__(self, seconds, pid=None):
        self.pid, self.left, self.last = pid or os.getpid(), seconds, time.monotonic()
        self.end = self.last + MOST * seconds

    def wait(self, call):
        """Calls this, which waits for at most so many seconds as it is given, and gives what comes. An AssertionError where the limit is over."""
        found = call(0.1)
        now = time.monotonic()
        if not is_wanted(self.pid):
            self.left -= min(now - self.last, 1)
        self.last = now
        if self.left < 0 or now > self.end:
            raise AssertionError("the limit of time is over")
        return found


class Moving(Patience):
    """A limit of so many seconds in which what is seen stays the same."""

    def __init__(self, seconds, seen):
        super().__init__(seconds)
        self.seconds, self.seen, self.before = seconds, seen, seen()

    def wait(self, call):
        """The same. The limit begins anew where something else is seen."""
        seen = self.seen()
        if seen != self.before:
            self.before = seen
            super().__init__(self.seconds, self.pid)
        return super().wait(call)


def is_wanted(pid):
    """Whether a thread of the process, but this one, or of those that it has started, has a processor or waits for one."""
    for it in family(pid):
        with contextlib.suppress(OSError):
            for task in os.listdir(f"/proc/{it}/task"):
                if task != str(threading.get_native_id()) and state(it, task) in "RD":
                    return True
    return False


def state(pid, task):
    """The letter of what a thread does, as in `man proc`."""
    try:
        with open(f"/proc/{pid}/task/{task}/stat", encoding="ascii", errors="replace") as stat:
            return stat.read().rsplit(")", 1)[1].split()[0]
    except (OSError, IndexError):
        return "X"


def family(pid):
    """The process, those that it has started, and so on."""
    yield pid
    for it in children(pid):
        yield from family(it)


def children(pid):
    """The processes that a process has started."""
    found = []
    with contextlib.suppress(OSError):
        for task in os.listdir(f"/proc/{pid}/task"):
            with open(f"/proc/{pid}/task/{task}/children", encoding="ascii") as listed:
                found += map(int, listed.read().split())
    return found
