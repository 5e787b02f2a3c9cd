"""Netlists of tables: read from BLIF, written to it, and their tables in other orders.

What the program accepts is for the program to say; this reader takes what it, ABC and Yosys write.
"""
import collections
import random

Table = collections.namedtuple("Table", "name pins rows plane")
Net = collections.namedtuple("Net", "model inputs outputs tables")


class NoNetlist(Exception):
    """The text is no netlist of tables."""


def lines_of(text):
    """The logical lines as lists of words: comments go, and a backslash at the end joins the next line."""
    joined = ""
    for line in text.split("\n"):
        line = line.partition("#")[0].rstrip(" \t\r")
        if line.endswith("\\"):
            joined += line[:-1]
            continue
        words = (joined + line).split()
        joined = ""
        if words:
            yield words
    if joined.split():
        yield joined.split()


def net_of(text):
    """The net that a text says."""
    model, inputs, outputs, tables = "top", [], [], []
    for words in lines_of(text):
        first = words[0]
        if first == ".model" and len(words) > 1:
            model = words[1]
        elif first == ".inputs":
            inputs += words[1:]
        elif first == ".outputs":
            outputs += words[1:]
        elif first == ".names" and len(words) > 1:
            tables.append([words[-1], tuple(words[1:-1]), [], "1"])
        elif first == ".end":
            break
        elif first.startswith(".") or not tables:
            raise NoNetlist("`%s` is none of .model, .inputs, .outputs, .names, .end and no row" % first)
        else:
            add_row(tables[-1], words)
    return Net(model, tuple(inputs), tuple(outputs), [Table(*it[:2], tuple(it[2]), it[3]) for it in tables])


def add_row(table, words):
    """One row of a table that is being read."""
    marks = words[0] if len(words) == 2 else ""
    if len(marks) != len(table[1]) or set(marks) - set("01-") or words[-1] not in ("0", "1"):
        raise NoNetlist("a row of `%s` is none" % table[0])
    table[2].append(marks)
    table[3] = words[-1]


def text_of(net):
    """The net as BLIF, each line ended, with single blanks between words."""
    lines = [" ".join([".model", net.model]), " ".join([".inputs", *net.inputs]), " ".join([".outputs", *net.outputs])]
    for name, pins, rows, plane in net.tables:
        lines.append(" ".join([".names", *pins, name]))
        lines += ["%s %s" % (marks, plane) if pins else plane for marks in rows]
    return "\n".join(lines + [".end", ""])


def literals_of(net):
    """How many marks are 0 or 1."""
    return sum(len(marks) - marks.count("-") for table in net.tables for marks in table.rows)


# Orders of tables.

def topological(net):
    """The tables so that each stands behind those that it reads, else as the outputs ask for them."""
    by_name = {table.name: table for table in net.tables}
    placed, found = set(), []
    # A walk along a cycle waits for ever more tables.
    most = 2 * sum(len(table.pins) + 1 for table in net.tables) + 2
    for root in [*net.outputs, *by_name]:
        todo = [(root, False)]
        while todo:
            name, is_entered = todo.pop()
            if name in placed or name not in by_name:
                continue
            if is_entered:
                placed.add(name)
                found.append(by_name[name])
            else:
                todo.append((name, True))
                todo += [(pin, False) for pin in reversed(by_name[name].pins) if pin not in placed]
                if len(todo) > most:
                    raise NoNetlist("a table depends on itself")
    return found


def in_order(net, order):
    """The net with its tables in an order: `as it is`, `topological`, `turned round`, or `shuffled N` by the seed N."""
    if order == "as it is":
        return net
    tables = topological(net)
    if order == "turned round":
        tables.reverse()
    elif order.startswith("shuffled "):
        random.Random(order).shuffle(tables)
    elif order != "topological":
        raise ValueError(order)
    return net._replace(tables=tables)


def depth_of(net):
    """The greatest number of tables with two pins or more on a path."""
    depths = dict.fromkeys(net.inputs, 0)
    for name, pins, rows, _ in topological(net):
        depths[name] = max((depths.get(pin, 0) for pin in pins), default=0) + (len(pins) > 1 and bool(rows))
    return max((depths.get(it, 0) for it in net.outputs), default=0)
