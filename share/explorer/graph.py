"""A hashed graph of ANDs: no two nodes have the same operands, and what two levels show to be simpler is simpler.

A literal is twice the number of a node, and one more where it is turned over. Node 0 is the constant false, then come
the inputs, and then the ANDs, each behind its operands.
"""
import collections

from explorer.netlist import Net, Table, topological

FALSE, TRUE = 0, 1
# Tables of more rows are joined row by row.
MOST_FACTORED = 1000


class Graph:
    """ANDs over inputs: the operands of each by its number in `pairs`, and in `known` its literal by its operands. `turned` takes
    operands from the last on, which makes another graph of the same function."""

    def __init__(self, inputs, turned=False):
        self.inputs, self.turned = inputs, turned
        self.pairs, self.known = {}, {}
        self.next = inputs + 1

    def conjunction(self, left, right):
        """The literal of both."""
        if left > right:
            left, right = right, left
        if left == FALSE or left == right ^ 1:
            return FALSE
        if left == TRUE or left == right:
            return right
        found = self.known.get((left, right))
        if found is None:
            found = self.simpler(left, right)
        if found is None:
            found = self.simpler(right, left)
        if found is None:
            found = self.known[left, right] = 2 * self.next
            self.pairs[self.next] = (left, right)
            self.next += 1
        return found

    def simpler(self, literal, other):
        """The conjunction by the operands of the other literal's node, or None where they show nothing."""
        pair = self.pairs.get(other >> 1)
        if pair is None:
            return None
        if other & 1:
            if literal ^ 1 in pair:
                return literal
            if literal in pair:
                rest = pair[0] if pair[1] == literal else pair[1]
                return self.conjunction(literal, rest ^ 1)
            return None
        if literal in pair:
            return other
        return FALSE if literal ^ 1 in pair else None

    def all_of(self, literals):
        """The literal of all of these."""
        literals = sorted(literals, reverse=self.turned)
        found = TRUE
        for it in literals:
            found = self.conjunction(found, it)
        return found

    def table(self, pins, rows, plane):
        """The literal of a table over literals."""
        products = [frozenset(pin ^ (mark == "0") for mark, pin in zip(marks, pins) if mark != "-") for marks in rows]
        return self.any_of(products) ^ (plane == "0")

    def any_of(self, products):
        """The literal that some of these products holds: the literal that most of them have stands before a bracket, as long
        as two have it."""
        terms = []
        while products:
            literal, count = self.most_common(products)
            if count < 2 or len(products) > MOST_FACTORED:
                terms += map(self.all_of, products)
                break
            inner = self.any_of([it - {literal} for it in products if literal in it])
            terms.append(self.conjunction(literal, inner))
            products = [it for it in products if literal not in it]
        none = TRUE
        for it in terms:
            none = self.conjunction(none, it ^ 1)
        return none ^ 1

    def most_common(self, products):
        """The literal that most products have, and how many have it."""
        counts = collections.Counter(it for product in products for it in product)
        return max(counts.items(), key=lambda it: (it[1], it[0] if self.turned else -it[0]), default=(TRUE, 0))


def graph_of(net, turned=False):
    """The graph of a net, and the literals of its outputs."""
    graph = Graph(len(net.inputs), turned)
    literals = {name: 2 * at for at, name in enumerate(net.inputs, 1)}
    for name, pins, rows, plane in topological(net):
        literals[name] = graph.table([literals[pin] for pin in pins], rows, plane)
    return graph, [literals[name] for name in net.outputs]


def used(graph, outputs):
    """The ANDs that the outputs read, each behind its operands."""
    seen, todo = set(), [it >> 1 for it in outputs]
    while todo:
        node = todo.pop()
        if node not in seen and node in graph.pairs:
            seen.add(node)
            todo += [it >> 1 for it in graph.pairs[node]]
    return sorted(seen)


def depth_of(graph, outputs):
    """The greatest number of ANDs on a path."""
    depths = {}
    for node in used(graph, outputs):
        depths[node] = 1 + max(depths.get(it >> 1, 0) for it in graph.pairs[node])
    return max((depths.get(it >> 1, 0) for it in outputs), default=0)


def net_of_graph(net, graph, outputs):
    """The graph as tables, with the ports of a net: a table for each AND, and one for each output that is none."""
    nodes, taken = used(graph, outputs), {*net.inputs, *net.outputs}
    names = dict(zip(range(1, len(net.inputs) + 1), net.inputs))
    # An output that no other output turns over or repeats has the name of its AND.
    for name, literal in zip(net.outputs, outputs):
        if not literal & 1 and literal >> 1 in graph.pairs and literal >> 1 not in names:
            names[literal >> 1] = name
    count = 0
    for node in nodes:
        while node not in names:
            count += 1
            if "n%d" % count not in taken:
                names[node] = "n%d" % count
    tables = [and_table(names, node, graph.pairs[node]) for node in nodes]
    for name, literal in dict(zip(net.outputs, outputs)).items():
        if literal in (FALSE, TRUE):
            tables.append(Table(name, (), ("",) if literal else (), "1"))
        elif names[literal >> 1] != name:
            tables.append(Table(name, (names[literal >> 1],), ("0" if literal & 1 else "1",), "1"))
    return Net(net.model, net.inputs, net.outputs, tables)


def and_table(names, node, pair):
    marks = "".join("0" if it & 1 else "1" for it in pair)
    return Table(names[node], tuple(names[it >> 1] for it in pair), (marks,), "1")


def smaller(net):
    """The smaller of both graphs, as `hashed` gives them."""
    return min((hashed(net, it) for it in (False, True)), key=lambda it: it[1:])


def hashed(net, turned=False):
    """The same function as tables of a hashed graph, with the number of its ANDs and their depth."""
    graph, outputs = graph_of(net, turned)
    return net_of_graph(net, graph, outputs), len(used(graph, outputs)), depth_of(graph, outputs)
