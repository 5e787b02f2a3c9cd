"""The processes that a run starts: the proved program and ABC. They are in groups of their own, so that an interrupt from
the terminal comes to us alone, and those that run can be ended at once.
"""
import os
import signal
import subprocess
import threading
import time


class Ended(Exception):
    """The process was ended because the run ends, or its time is over."""


class Late(Ended):
    """The process was ended because its own time was over."""


class Children:
    """The processes that run now."""

    def __init__(self):
        self.lock = threading.Lock()
        self.running = set()
        self.is_closed = False

    def run(self, words, folder, seconds=None):
        """Runs a program in a folder: its number, its standard output, its standard error, and seconds that passed."""
        begin = time.monotonic()
        with self.lock:
            if self.is_closed:
                raise Ended
            child = subprocess.Popen(words, stdin=subprocess.DEVNULL, stdout=subprocess.PIPE, stderr=subprocess.PIPE,
                                     cwd=folder, start_new_session=True, env={**os.environ, "SALSA_QUIET": "1"})
            self.running.add(child)
        try:
            said, told = child.communicate(timeout=seconds)
        except subprocess.TimeoutExpired:
            raise Late from None
        finally:
            with self.lock:
                end(child)
                self.running.discard(child)
            child.wait()
        if self.is_closed and child.returncode < 0:
            raise Ended
        return child.returncode, said.decode("latin-1"), told.decode("latin-1"), time.monotonic() - begin

    def close(self):
        """Ends all that run, and starts none until it is opened again."""
        with self.lock:
            self.is_closed = True
            for child in self.running:
                end(child)

    def open(self):
        self.is_closed = False


def end(child):
    """Ends a process that we started, with those of its group."""
    if child.poll() is None:
        try:
            os.killpg(child.pid, signal.SIGKILL)
        except (ProcessLookupError, PermissionError):
            pass
