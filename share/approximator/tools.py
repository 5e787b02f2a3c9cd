"""How a run ends with a number, its files, and Yosys."""
import os
import re
import subprocess
import sys

from explorer import streams

USAGE, READ, WRITE = 1, 5, 6
NO_MODULE, BAD_MARK, YOSYS, UNSUITABLE, NOT_EQUAL = 20, 21, 22, 23, 24
NO_PROGRAM = 127
# What Yosys says where a shell does not find ABC.
NO_ABC = re.compile(r"ABC: execution of command .* failed: return code 127")


class Refused(Exception):
    """Ends the run with a number, behind its lines and behind what another program said before."""

    def __init__(self, number, *lines, heard=""):
        super().__init__(*lines)
        self.number, self.lines, self.heard = number, lines, heard.rstrip("\n")


def say(text):
    streams.tell("salsa: %s\n" % text)


class Line:
    """What is being done, on a terminal: one line with how far it is, which what came of it ends, or which is taken away again."""

    def __init__(self):
        self.is_shown = sys.stderr is not None and sys.stderr.isatty() and "SALSA_QUIET" not in os.environ
        self.begun = self.followed = ""

    def begin(self, text):
        if self.is_shown:
            self.begun, self.followed = "salsa: %s .. " % text, ""
            streams.tell(self.begun)

    def follow(self, text):
        """Shows how far it is, in the place of what was shown of that."""
        if self.begun and text != self.followed:
            self.followed = text
            streams.tell("\r\x1b[K" + self.begun + text)

    def end(self, text):
        if self.begun:
            streams.tell(("\r\x1b[K" + self.begun if self.followed else "") + text + "\n")
        self.begun = ""

    def clear(self):
        if self.begun:
            streams.tell("\r\x1b[K")
        self.begun = ""


def text_of(*path):
    with open(os.path.join(*path), encoding="utf-8", errors="surrogateescape") as text:
        return text.read()


def put_text(text, *path):
    with open(os.path.join(*path), "w", encoding="utf-8", errors="surrogateescape") as file:
        file.write(text)


def yosys(doing, script, folder, *files):
    """Runs a script in a folder, and gives back what Yosys said; a refusal where it fails."""
    arguments = ["yosys", "-q", *files, "-p", script]
    try:
        ran = subprocess.run(arguments, stdin=subprocess.DEVNULL, stdout=subprocess.PIPE, stderr=subprocess.STDOUT,
                             cwd=folder, text=True, errors="replace", check=False)
    except FileNotFoundError:
        raise Refused(YOSYS, "Yosys is not on the PATH: approximate needs `yosys`, which Debian packs") from None
    if ran.returncode:
        more = ["hint: Yosys calls ABC, and does not find it: Debian packs it as `berkeley-abc`"] if NO_ABC.search(ran.stdout) else []
        raise Refused(YOSYS, "Yosys could not " + doing, *more, heard=ran.stdout)
    return ran.stdout


def quoted(path):
    return '"%s"' % path
