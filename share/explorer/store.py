"""What a run has computed, kept in a folder so that a run that was cut off goes on: small JSON files, each named by the
SHA-256 of the whole question that it answers, and netlists, each named by the SHA-256 of its bytes.

A file is written under a name of its own and then renamed. An answer is taken only where it repeats its question and the
netlist that it names has the bytes of its name, so nothing stale or cut short is taken.
"""
import hashlib
import itertools
import json
import os
import socket

# Changes whenever an answer means something else.
FORMAT = 4


def digest(data):
    return hashlib.sha256(data).hexdigest()


def key_of(question):
    return digest(json.dumps(question, sort_keys=True, separators=(",", ":")).encode())


class Store:
    """The folder with its answers and netlists."""

    def __init__(self, folder):
        self.folder = folder
        self.numbers = itertools.count()

    def path(self, name):
        return os.path.join(self.folder, name)

    def write(self, name, data):
        """A whole file of this name, or none."""
        begun = self.path(".%s.%s.%d.%d" % (name, socket.gethostname(), os.getpid(), next(self.numbers)))
        try:
            with open(begun, "wb") as file:
                file.write(data)
            os.replace(begun, self.path(name))
        except BaseException:
            if os.path.exists(begun):
                os.unlink(begun)
            raise

    def keep_net(self, data, ending="blif"):
        """Keeps the bytes of a netlist, or of another file of a bundle, and gives back its name."""
        name = digest(data)
        if self.net(name, ending) is None:
            self.write("%s.%s" % (name, ending), data)
        return name

    def net(self, name, ending="blif"):
        """The bytes of a netlist by its name, or None where they are not there whole."""
        try:
            with open(self.path("%s.%s" % (name, ending)), "rb") as file:
                data = file.read()
        except OSError:
            return None
        return data if digest(data) == name else None

    def keep(self, question, answer):
        """Keeps the answer to a question."""
        kept = json.dumps({"question": question, "answer": answer}, sort_keys=True, indent=1)
        self.write(key_of(question) + ".json", kept.encode())

    def answer(self, question):
        """The answer that was kept, or None."""
        try:
            with open(self.path(key_of(question) + ".json"), "rb") as file:
                kept = json.loads(file.read())
            if kept["question"] != question:
                return None
            answer = kept["answer"]
            is_whole = all(self.net(it) is not None for it in answer["nets"].values() if it)
            return answer if is_whole else None
        except (OSError, ValueError, KeyError, TypeError, AttributeError):
            return None
