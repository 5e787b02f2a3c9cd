"""What is built of a netlist of tables: gates of two inputs, LUTs, or cells of a library, by Yosys and ABC. Nothing here is
trusted: what comes of it is certified as it is.
"""
import collections
import json
import os
import re

from approximator.library import ENDINGS, READ_CELLS, prepare
from approximator.netlists import free_name, heading, net_of, port_spellings, spelled
from approximator.tools import USAGE, YOSYS, Refused, text_of, yosys

# Without synthesis for another library, and the same before and after: gates of at most two inputs.
GATES = "synth -flatten{top}; abc -g AND,OR,XOR; opt_clean -purge"
LUTS = "synth -flatten; abc -lut %d; opt_clean -purge"
# Unlike the script of Yosys this one needs neither a buffer nor constants among the cells.
CELLS = ("synth -flatten; abc -liberty {0}/library.lib -script +strash;&get,-n;&fraig,-x;&put;scorr;dc2;strash;dch;map,-a; "
         "opt_clean -purge; tee -q -o area.txt stat -liberty {0}/library.lib")
CELL_AREA = re.compile(r"Chip area for (?:top )?module '[^']*': *([0-9.eE+-]+)")
UNKNOWN = "-"
NEEDS = "a library needs an inverter and a gate of two inputs such as NAND; ABC's own `read_%s %s` shows what else it finds wrong"

# What to map to: the word of the command line, the pins of a LUT or None, the path of a library or None, the names of its
# cells, and the folder in which tools find it.
Target = collections.namedtuple("Target", "word pins library cells place")
# A netlist as it is built: how many cells it has, and where they are those of a library their area, as text, and the module
# that has them.
Mapped = collections.namedtuple("Mapped", "count area module")


def target_of(word):
    """The target that a word names."""
    if word in ("gates", "lut4", "lut6"):
        return Target(word, None if word == "gates" else int(word[3:]), None, frozenset(), None)
    if word.endswith(ENDINGS):
        return Target(word, None, os.path.abspath(word), frozenset(), None)
    raise Refused(USAGE, "--map takes gates, lut4, lut6 or a library, FILE.lib or FILE.genlib, and not `%s`" % word)


def with_cells(target, place, scratch):
    """The target, with the cells of its library, which is put into its place."""
    if not target or not target.library:
        return target
    return target._replace(cells=prepare(target.library, target.word, place, scratch), place=place)


def area_of(target):
    """The words of `salsa explore` for what is to be small."""
    if target is None or target.word == "gates":
        return ["ands"]
    if target.library:
        # A genlib as it is given; a Liberty file as it can be mapped to.
        return ["cells", target.place + ("/given.genlib" if target.library.endswith(".genlib") else "/library.lib")]
    return ["luts%d" % target.pins]


def free_pattern(letter, ports):
    """A pattern of names, for numbers in it, that are no ports."""
    while any(re.fullmatch(letter + "[0-9]+", it.name) for it in ports):
        letter += "_"
    return "rename -enumerate -pattern %s%%" % letter


def mapped(name, path, out, target, ports, scratch):
    """Maps the netlist of a module, and writes what is built as tables."""
    steps = ["read_blif " + path, LUTS % target.pins if target.pins else GATES.format(top=""), free_pattern("n", ports)]
    if target.library:
        steps[1:] = [CELLS.format(target.place), free_pattern("n", ports), "write_json mapped.json", READ_CELLS,
                     "hierarchy -top " + name, "flatten", "opt_clean -purge", free_pattern("x", ports)]
    try:
        yosys("map module `%s` to %s" % (name, target.word), "; ".join([*steps, "write_blif " + out]), scratch)
    except Refused as refused:
        more = [NEEDS % ("genlib" if target.word.endswith(".genlib") else "lib", target.word)] if target.library else []
        raise Refused(refused.number, *refused.lines, *more, heard=refused.heard) from None
    if not target.library:
        return Mapped(built_tables(os.path.join(scratch, out)), UNKNOWN, None)
    module = json.loads(text_of(scratch, "mapped.json"))["modules"][name]
    unknown = sorted({it["type"] for it in module["cells"].values()} - target.cells)
    if unknown:
        raise Refused(YOSYS, "module `%s`: it is mapped to `%s`, of which `%s` has no function" % (name, unknown[0], target.word))
    area = cell_area(text_of(scratch, "area.txt")) if module["cells"] else "0"
    return Mapped(len(module["cells"]), area, module)


def cell_area(told):
    """The area of the cells that Yosys counted, as text; `-` where the library tells none for one of them."""
    found = CELL_AREA.search(told)
    if not found or "is unknown!" in told:
        return UNKNOWN
    return ("%.6f" % float(found[1])).rstrip("0").rstrip(".")


def built_tables(path):
    """How many tables of a netlist are built: those that are neither constants nor copies."""
    return sum(bool(pins and rows) and rows not in ([("1", "1")], [("0", "0")]) for _, pins, rows in net_of(path).tables)


def instances_of(name, ports, module, comment):
    """The Verilog of a module of cells, behind the ports that it had."""
    spellings, copies, inner, taken = {"0": "1'b0", "1": "1'b1", "x": "1'b0"}, [], [], {it.name for it in ports}
    for bit_name, spelling in port_spellings(ports).items():
        bit = module["ports"][bit_name]["bits"][0]
        if bit in spellings:
            copies.append((spelling, spellings[bit]))
        else:
            spellings[bit] = spelling
    for net_name, net in module["netnames"].items():
        if net["bits"][0] not in spellings:
            inner.append(spelled(free_name(net_name, taken)))
            spellings[net["bits"][0]] = inner[-1]
    text = heading(name, ports, comment, inner)
    for cell_name, cell in module["cells"].items():
        pins = [".%s(%s)" % (spelled(pin), spellings[bits[0]]) for pin, bits in cell["connections"].items() if bits]
        text += "  %s %s (%s);\n" % (spelled(cell["type"]), spelled(free_name(cell_name, taken)), ", ".join(pins))
    return text + "".join("  assign %s = %s;\n" % it for it in copies) + "endmodule\n"
