"""Processes that end with their parent, even where that is killed: Linux sends them a signal then.

The command `setpriv` of util-linux asks for the signal, and becomes the program. Without it, a program whose parent is killed
goes on until it reads its next line. A function that is called in the forked process could ask for it as well. But then Python
would run all that was registered for forks, and an interrupt amid that may leave a lock locked.

The signal comes when the thread ends that started the process. So one thread starts them all, which lives as long as Python. No
interrupt reaches it: so each process that was started is known, and is ended where nobody waits for it any more.
"""
import functools
import os
import queue
import shutil
import subprocess
import threading

# How many seconds a process that is told to end has for it.
PATIENCE = 2

# The requests to the thread that starts processes, and the number of the process that the thread belongs to.
_requests, _owner = None, None
_lock = threading.Lock()


class Start:
    """A process that is started by the thread that starts them all. The arguments are those of subprocess.Popen.

    Whoever is interrupted, at `process` or after it, calls `abandon`: then the process is ended, even if it is there later alone.
    """

    def __init__(self, words, **more):
        self.words, self.more = words, more
        self._process = self._error = None
        self._abandoned = False
        self._lock, self._done = threading.Lock(), threading.Event()

    def process(self):
        """Starts it, and gives the process when it is there."""
        requests().put(self)
        self._done.wait()
        if self._error is not None:
            raise self._error
        return self._process

    def abandon(self):
        """Sees to it that there is no process."""
        with self._lock:
            self._abandoned = True
            process = self._process
        if process is not None:
            end_now(process)

    def run(self):
        """What the thread does."""
        try:
            process = subprocess.Popen([*tie(), *self.words], **self.more)
            with self._lock:
                self._process = process
                abandoned = self._abandoned
            if abandoned:
                end_now(process)
        except Exception as error:
            self._error = error
        self._done.set()


def start(words, **more):
    """Starts a process that is killed when this one ends, however it ends. The arguments are those of subprocess.Popen."""
    starting = Start(words, **more)
    try:
        return starting.process()
    except BaseException:
        starting.abandon()
        raise


def end(process):
    """Ends a process by the end of its input, or else by force. Gives its exit status, or None if it was forced."""
    close_pipes(process)
    try:
        return process.wait(PATIENCE)
    except subprocess.TimeoutExpired:
        end_now(process)
        return None
    except BaseException:
        end_now(process)
        raise


def end_now(process):
    """Ends a process by force."""
    process.kill()
    close_pipes(process)
    process.wait()


def close_pipes(process):
    for pipe in (process.stdin, process.stdout):
        try:
            if pipe is not None:
                pipe.close()
        except OSError:
            pass


@functools.lru_cache(None)
def tie():
    """The words before a command that make it end with its parent; none where that can't be had."""
    words = ["setpriv", "--pdeathsig", "KILL", "--"]
    if shutil.which("setpriv") is None or subprocess.run([*words, "true"], stderr=subprocess.DEVNULL).returncode:
        return ()
    return tuple(words)


def requests():
    """The queue of the thread that starts processes. After a fork there is another one."""
    global _requests, _owner
    with _lock:
        if _owner != os.getpid():
            asked = queue.SimpleQueue()
            threading.Thread(target=serve, args=(asked,), name="coxeter_shell starts processes", daemon=True).start()
            _requests, _owner = asked, os.getpid()
        return _requests


def serve(asked):
    while True:
        asked.get().run()


def renew_lock():
    global _lock
    _lock = threading.Lock()


os.register_at_fork(after_in_child=renew_lock)
