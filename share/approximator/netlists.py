"""Ports, netlists of tables, and the Verilog that is put back."""
import collections
import re

from approximator.tools import text_of

SIMPLE_NAME = re.compile(r"[A-Za-z_][A-Za-z0-9_]*")
# The words of Verilog and SystemVerilog that are no names.
RESERVED = frozenset("""
accept_on alias always always_comb always_ff always_latch and assert assign assume automatic before begin bind bins binsof bit
break buf bufif0 bufif1 byte case casex casez cell chandle checker class clocking cmos config const constraint context continue
cover covergroup coverpoint cross deassign default defparam design disable dist do edge else end endcase endchecker endclass
endclocking endconfig endfunction endgenerate endgroup endinterface endmodule endpackage endprimitive endprogram endproperty
endsequence endspecify endtable endtask enum event eventually expect export extends extern final first_match for force foreach
forever fork forkjoin function generate genvar global highz0 highz1 if iff ifnone ignore_bins illegal_bins implements implies
import incdir include initial inout input inside instance int integer interconnect interface intersect join join_any join_none
large let liblist library local localparam logic longint macromodule matches medium modport module nand negedge nettype new
nexttime nmos nor noshowcancelled not notif0 notif1 null or output package packed parameter pmos posedge primitive priority
program property protected pull0 pull1 pulldown pullup pulsestyle_ondetect pulsestyle_onevent pure rand randc randcase
randsequence rcmos real realtime ref reg reject_on release repeat restrict return rnmos rpmos rtran rtranif0 rtranif1 s_always
s_eventually s_nexttime s_until s_until_with scalared sequence shortint shortreal showcancelled signed small soft solve specify
specparam static string strong strong0 strong1 struct super supply0 supply1 sync_accept_on sync_reject_on table tagged task
this throughout time timeprecision timescale timeunit tran tranif0 tranif1 tri tri0 tri1 triand trior trireg type typedef union
unique unique0 unsigned until until_with untyped use uwire var vectored virtual void wait wait_order wand weak weak0 weak1 while
wildcard wire with within wor xnor xor
""".split())


Port = collections.namedtuple("Port", "name direction width offset is_upto is_signed is_bus")
Net = collections.namedtuple("Net", "inputs outputs tables")


def ports_of(module):
    """The ports of a module, in their order."""
    return [Port(name, port["direction"], len(port["bits"]), port.get("offset", 0), bool(port.get("upto", 0)),
                 bool(port.get("signed", 0)), len(port["bits"]) > 1 or "offset" in port)
            for name, port in module["ports"].items()]


def outputs_of(module):
    return [it for it in ports_of(module) if it.direction == "output"]


def bit_index(port, at):
    """The index, in the port's brackets, of the bit at a place counted from the lowest."""
    return port.offset + (port.width - 1 - at if port.is_upto else at)


def bit_names(ports, direction):
    """The names that Yosys gives the bits of the ports in BLIF, the lowest of each first."""
    return [it.name if it.width == 1 else "%s[%d]" % (it.name, bit_index(it, at))
            for it in ports if it.direction == direction for at in range(it.width)]


def net_of(path):
    """The netlist of a BLIF file: its inputs and outputs, and for each table its name, its pins and its rows."""
    inputs, outputs, tables, rows = [], [], [], []
    for line in text_of(path).split("\n"):
        words = line.partition("#")[0].split()
        if not words:
            continue
        if words[0] in (".inputs", ".outputs"):
            (inputs if words[0] == ".inputs" else outputs).extend(words[1:])
        elif words[0] == ".names":
            rows = []
            tables.append((words[-1], words[1:-1], rows))
        elif not words[0].startswith("."):
            rows.append((words[0] if len(words) > 1 else "", words[-1]))
    return Net(inputs, outputs, tables)


def spelled(name):
    """A name as Verilog spells it."""
    return name if SIMPLE_NAME.fullmatch(name) and name not in RESERVED else "\\%s " % name


def product(row, pins):
    """One row's marks as a product, or None where all are open."""
    factors = [("" if mark == "1" else "~") + pin for mark, pin in zip(row, pins) if mark != "-"]
    return " & ".join(factors) or None


def expression(pins, rows):
    """The value of a table."""
    if not rows:
        return "1'b0"
    plane = rows[0][1]
    if len(rows) == 2 and {row for row, _ in rows} in ({"01", "10"}, {"00", "11"}):
        is_parity = (rows[0][0] in ("01", "10")) == (plane == "1")
        return ("%s ^ %s" if is_parity else "~(%s ^ %s)") % tuple(pins)
    products = [product(row, pins) for row, _ in rows]
    if None in products:
        return "1'b" + plane
    text = products[0] if len(products) == 1 else " | ".join("(%s)" % it if " " in it.strip() else it for it in products)
    if plane == "1":
        return text
    return "~(%s)" % text if " " in text.strip() else "~" + text if not text.startswith("~") else text[1:]


def range_of(port):
    """The ends of a port in brackets, or nothing where it is one bit."""
    low, high = port.offset, port.offset + port.width - 1
    return "[%d:%d]" % ((low, high) if port.is_upto else (high, low)) if port.is_bus else ""


def declaration(port):
    words = (port.direction, "signed" if port.is_signed else "", range_of(port), spelled(port.name))
    return "  %s;\n" % " ".join(filter(None, words))


def port_spellings(ports):
    """How Verilog spells the bits of the ports, by their names in BLIF."""
    bits = [(port, at) for direction in ("input", "output") for port in ports if port.direction == direction
            for at in range(port.width)]
    names = bit_names(ports, "input") + bit_names(ports, "output")
    return {bit: spelled(port.name) + ("[%d]" % bit_index(port, at) if port.is_bus else "")
            for bit, (port, at) in zip(names, bits)}


def heading(name, ports, comment, inner):
    """The beginning of a module, with the signals within."""
    text = "".join("// %s\n" % it for it in comment)
    text += "module %s(%s);\n" % (spelled(name), ", ".join(spelled(it.name) for it in ports))
    text += "".join(map(declaration, ports))
    return text + "".join("  wire %s;\n" % ", ".join(inner[at:at + 12]) for at in range(0, len(inner), 12))


def verilog_of(name, ports, net, comment):
    """The module of a netlist's tables behind the ports that it had: each table an assignment."""
    spellings, inner, taken = port_spellings(ports), [], {it.name for it in ports}
    for table, pins, rows in net.tables:
        if table in spellings:
            continue
        if pins:
            spellings[table] = spelled(free_name(table, taken))
            inner.append(spellings[table])
        else:
            spellings[table] = expression([], rows)
    text = heading(name, ports, comment, inner)
    for table, pins, rows in net.tables:
        if pins or table in net.outputs:
            text += "  assign %s = %s;\n" % (spellings[table], expression([spellings[it] for it in pins], rows))
    return text + "endmodule\n"


def free_name(name, taken):
    """This name, with low lines behind it where it is taken; it is taken then."""
    while name in taken:
        name += "_"
    taken.add(name)
    return name
