"""Libraries of cells: Liberty as Yosys reads it, and genlib as a Liberty file of the same cells."""
import json
import os
import re

from approximator.tools import READ, Refused, put_text, say, text_of, yosys

ENDINGS = (".lib", ".genlib")
# Registers and cells without a function are no fault of a library: no netlist here has them.
READ_LIBERTY = "read_liberty -ignore_miss_func -ignore_miss_dir -ignore_miss_data_latch {}"
# The functions of the cells, in the place of black boxes of their names.
READ_CELLS = "read_rtlil -overwrite library.il"
GATE = re.compile(r"""GATE\s+("[^"\n]+"|[^\s"]+)\s+([0-9.]+(?:[eE][-+]?[0-9]+)?)\s+("[^"\n]+"|[^\s="]+)\s*"""
                  r"""=\s*([\s()!'*+&|^\w.\[\]<>]+);""")
CONSTANTS = {"CONST0": "0", "CONST1": "1"}
PIN = re.compile(r"[A-Za-z_][\w.\[\]<>]*")
# What begins a group of delays in a Liberty text, what ends groups, and what hides both.
DELAYS = re.compile(r'''/\*.*?\*/|"(?:[^"\\]|\\.)*"|\btiming\s*\([^)]*\)\s*\{|[{}]''', re.S)
# One gate, by which it is seen whether ABC ends at a library.
PROBE = ".model probe\n.inputs a b\n.outputs y\n.gate $_AND_ A=a B=b Y=y\n.end\n"


def liberty_of(text):
    """The Liberty text of a genlib's cells; a refusal with the line of the first that is none."""
    text, cells = re.sub(r"#.*", "", text), {}
    for begun in re.finditer(r"^[ \t]*(?=GATE\b)", text, re.M):
        gate = GATE.match(text, begun.end())
        if not gate:
            raise Refused(READ, "line %d: wanted is GATE NAME AREA OUTPUT=FUNCTION;" % (text.count("\n", 0, begun.end()) + 1))
        name, output = gate[1].strip('"'), gate[3].strip('"')
        # A cell of several outputs stands there several times, and no mapper here takes it.
        cells[name] = "" if name in cells else cell_text(name, gate[2], output, gate[4])
    if not cells:
        raise Refused(READ, "it has no line of GATE")
    return "library(genlib) {\n%s}\n" % "".join(cells.values())


def cell_text(name, area, output, function):
    """One cell of a genlib as Liberty."""
    pins = [it for it in dict.fromkeys(PIN.findall(function)) if it not in CONSTANTS]
    for word, digit in CONSTANTS.items():
        function = re.sub(r"\b%s\b" % word, digit, function)
    text = '  cell("%s") {\n    area : %s;\n' % (name, area)
    text += "".join('    pin("%s") { direction : input; }\n' % it for it in pins)
    return text + '    pin("%s") { direction : output; function : "%s"; }\n  }\n' % (output, " ".join(function.split()))


def without_delays(text):
    """A Liberty text without its groups of delays."""
    kept, begin, depth = [], 0, 0
    for token in DELAYS.finditer(text):
        if depth:
            depth += {"{": 1, "}": -1}.get(token[0], 0)
            begin = token.end()
        elif token[0].startswith("timing"):
            kept.append(text[begin:token.start()])
            begin, depth = token.end(), 1
    return "".join(kept) + text[begin:]


def is_mapped_to(text, place, scratch):
    """Puts a Liberty text into its place, and tells whether Yosys and ABC map one gate to it."""
    put_text(text, place, "library.lib")
    put_text(PROBE, scratch, "probe.blif")
    try:
        yosys("map a gate", "read_blif probe.blif; abc -liberty %s/library.lib -script +strash;map,-a" % place, scratch)
        return True
    except Refused:
        return False


def put_usable(name, text, place, scratch):
    """Puts a Liberty text into its place: where ABC ends at its delays, and at nothing else, the text without them."""
    if is_mapped_to(text, place, scratch):
        return
    if is_mapped_to(without_delays(text), place, scratch):
        say("`%s` is taken without its delays, by functions and areas: ABC ends at them, as where some cells have none" % name)
    else:
        put_text(text, place, "library.lib")


def prepare(path, name, place, scratch):
    """Puts a library into its place, as it can be mapped to, and gives back the names of its cells. What is told has the name by
    which it was given. ABC takes no blank in the name of the place."""
    try:
        given = text_of(path)
        text = liberty_of(given) if path.endswith(".genlib") else given
        put_text(given, place, "given" + os.path.splitext(path)[1])
        put_text(text, place, "library.lib")
        yosys("read it as Liberty", READ_LIBERTY.format(place + "/library.lib") + "; write_rtlil library.il; write_json library.json",
              scratch)
    except Refused as refused:
        raise Refused(READ, "the library `%s` can't be read: %s" % (name, refused.lines[0]), heard=refused.heard) from None
    cells = json.loads(text_of(scratch, "library.json"))["modules"]
    if not cells:
        raise Refused(READ, "the library `%s` can't be read: no cell in it has a function" % name)
    put_usable(name, text, place, scratch)
    return frozenset(cells)
