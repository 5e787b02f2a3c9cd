"""Netlists, evaluated at many vectors at once: a signal is a number whose bit j is the signal's value at vector j."""


def text_of(path):
    with open(path, encoding="utf-8") as file:
        return file.read()


class Circuit:
    """A flat BLIF netlist with registers."""

    def __init__(self, path):
        self.inputs, self.outputs, self.registers, self.tables = [], [], {}, {}
        rows = None
        for line in text_of(path).replace("\\\n", "").split("\n"):
            words = line.partition("#")[0].split()
            if not words:
                continue
            if words[0] == ".inputs":
                self.inputs += words[1:]
            elif words[0] == ".outputs":
                self.outputs += words[1:]
            elif words[0] == ".latch":
                self.registers[words[2]] = words[1]
            elif words[0] == ".names":
                rows = []
                self.tables[words[-1]] = words[1:-1], rows
            elif words[0][0] == ".":
                if words[0] not in (".model", ".end"):
                    raise ValueError("%s: %s" % (path, line))
            else:
                rows.append((words[0] if len(words) > 1 else "", words[-1]))
        self.order = self.sorted_tables()

    def sorted_tables(self):
        """The tables, each behind those that it reads."""
        order, seen = [], set(self.inputs) | set(self.registers)
        for first in self.tables:
            left = [first]
            while left:
                name = left[-1]
                open_pins = [] if name in seen else [it for it in self.tables[name][0] if it not in seen]
                left += open_pins
                if not open_pins:
                    left.pop()
                    if name not in seen:
                        seen.add(name)
                        order.append(name)
        return order

    def values(self, given, lanes):
        """All signals, from those of inputs and registers."""
        every, found = (1 << lanes) - 1, dict(given)
        for name in self.order:
            pins, rows = self.tables[name]
            hit = 0
            for row, _ in rows:
                product = every
                for mark, pin in zip(row, pins):
                    if mark != "-":
                        product &= found[pin] if mark == "1" else every ^ found[pin]
                hit |= product
            found[name] = every ^ hit if rows and rows[0][1] == "0" else hit
        return found


def bits_of(names, word):
    """The bits of a port, the lowest first, of a design whose ports have no offset."""
    return [word] if word in names else sorted((it for it in names if it.startswith(word + "[")),
                                               key=lambda it: int(it[len(word) + 1:-1]))


def numbers(values, bits, lanes):
    """The numbers that these bits are, at each vector."""
    texts = [format(values[it], "0%db" % lanes)[::-1] for it in bits]
    return [sum((text[lane] == "1") << at for at, text in enumerate(texts)) for lane in range(lanes)]
