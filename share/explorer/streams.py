"""The standard streams. What is told goes to standard error, and is lost where nobody takes it; what is answered goes to
standard output, and one that does not take it is a write fault.
"""
import errno
import os
import sys


def keep_numbers():
    """Puts the null device in the place of closed streams, so that no file that is opened later gets their numbers."""
    opened = os.open(os.devnull, os.O_RDWR)
    while opened < 3:
        os.set_inheritable(opened, True)
        opened = os.open(os.devnull, os.O_RDWR)
    os.close(opened)


def put(stream, text):
    """Writes a text at once. Where that fails, what the stream still holds goes to the null device, lest it is written again
    when the process ends."""
    if stream is None:
        raise OSError(errno.EBADF, os.strerror(errno.EBADF))
    try:
        stream.write(text)
        stream.flush()
    except OSError:
        null = os.open(os.devnull, os.O_WRONLY)
        os.dup2(null, stream.fileno())
        os.close(null)
        raise


def tell(text):
    """Puts a text on standard error, where somebody takes it."""
    try:
        put(sys.stderr, text)
    except OSError:
        pass


def answer(text):
    """Puts a text on standard output."""
    put(sys.stdout, text)
