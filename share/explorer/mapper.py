"""ABC, where it is there: other ways of writing a function, and the area of a netlist as it would be built. No script
here looks at a bound or changes a function, and where one did, the program would refuse what comes of it.
"""
import os
import re
import shutil

from explorer import scratch

NAMES = ("berkeley-abc", "abc", "yosys-abc")
SECONDS = 120
RESYN = ("balance; rewrite; refactor; balance; rewrite; rewrite -z; balance; refactor -z; rewrite -z; balance")
RESUB = ("balance -l; resub -K 6 -l; rewrite -l; resub -K 6 -N 2 -l; refactor -l; resub -K 8 -l; balance -l; "
         "resub -K 8 -N 2 -l; rewrite -l; resub -K 10 -l; rewrite -z -l; resub -K 10 -N 2 -l; balance -l; resub -K 12 -l; "
         "refactor -z -l; resub -K 12 -N 2 -l; rewrite -z -l; balance -l")
# The names of the ways of writing, as the table of tries tells them, in the order in which they are tried.
REWRITINGS = {
    "dch": "strash; dc2; dc2; dch",
    "resyn2": "strash; " + RESYN,
    "strash": "strash",
    "lut4": "strash; dch; if -K 4; mfs",
    "ifraig": "strash; ifraig; " + RESYN + "; dc2",
    "resub": "strash; " + RESUB,
    "gates": "strash; dch; dc2; if -g -K 4; strash",
    "lut6": "strash; dch; if -K 6; mfs",
    "fx": "strash; dch; if -K 4; sop; fx",
    "balance": "strash; balance",
}
# One gate, by which it is seen whether ABC takes a library.
PROBE = b".model probe\n.inputs a b\n.outputs y\n.names a b y\n11 1\n.end\n"
CLEAN = "strash; dc2; %s; dc2; %s" % (RESYN, RESYN)
# The commands that read a library, by the ending of its name: genlib, and Liberty.
READERS = {".genlib": "read_genlib", ".lib": "read_lib"}
# How a netlist is built for each area, and the words of ABC's counts that are its area.
BUILDINGS = {
    "ands": (CLEAN, "and"),
    "luts4": (CLEAN + "; dch; if -K 4; mfs", "nd"),
    "luts6": (CLEAN + "; dch; if -K 6; mfs", "nd"),
    "cells": (CLEAN + "; dch; map -a", "area"),
}


class Failed(Exception):
    """ABC is missing, or did not do what it was asked."""


def found():
    """The path of ABC, or None."""
    return next((path for path in map(shutil.which, NAMES) if path), None)


def undated(data):
    """A netlist without its comments: ABC writes the time into one, and the same netlist is to have the same bytes."""
    return b"".join(line for line in data.splitlines(keepends=True) if not line.startswith(b"#"))


def reader_of(library):
    """ABC's command for a library of this name."""
    return READERS[os.path.splitext(library)[1]]


class Mapper:
    """ABC at its path, run by the children of a run."""

    def __init__(self, path, children):
        self.path, self.children = path, children

    def script(self, script, data, library=None):
        """Runs a script over a netlist, `in.blif`: what ABC said, and the bytes of `out.blif`."""
        with scratch.folder_with(dict([("in.blif", data), *([library] if library else [])])) as folder:
            words = [self.path, "-q", "read_blif in.blif; %s; write_blif out.blif" % script]
            number, said, told, _ = self.children.run(words, folder, SECONDS)
            try:
                return said, undated(scratch.bytes_of(os.path.join(folder, "out.blif")))
            except OSError:
                lines = (told + said).strip().split("\n")
                raise Failed("ABC failed (%d) on `%s`: %s" % (number, script, lines[-1])) from None

    def rewritten(self, name, data):
        """Another netlist of the same function."""
        return self.script(REWRITINGS[name], data)[1]

    def built(self, area, data, library=None):
        """The area, the depth, and the netlist as it is built."""
        script, word = BUILDINGS[area]
        if area == "cells":
            script = "%s %s; %s; print_stats; unmap" % (reader_of(library[0]), library[0], script)
        else:
            script += "; print_stats"
        said, net = self.script(script, data, library)
        told = re.search(r"\b%s *= *([0-9.]+).*\blev *= *(\d+)" % word, said)
        if not told:
            raise Failed("ABC does not tell the area: %s" % said.strip()[-200:])
        size = float(told.group(1))
        return int(size) if size == int(size) else size, int(told.group(2)), net

    def fault(self, library):
        """What ABC says where it can't map a gate to a library, given by its name and its bytes; else None."""
        try:
            self.built("cells", PROBE, library)
            return None
        except Failed as failed:
            return str(failed).rpartition("`: ")[2]
