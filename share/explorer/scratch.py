"""Folders in which other programs are run, and bytes of files."""
import contextlib
import os
import tempfile


def bytes_of(path, most=-1):
    """The bytes of a file, at most so many."""
    with open(path, "rb") as file:
        return file.read(most)


def put(files, folder):
    """Puts files, bytes by their names, into a folder."""
    for name, data in files.items():
        with open(os.path.join(folder, name), "wb") as file:
            file.write(data)


@contextlib.contextmanager
def folder_with(files):
    """A folder with these files, which is taken away behind its use."""
    with tempfile.TemporaryDirectory(prefix="salsa-explore-") as folder:
        put(files, folder)
        yield folder
