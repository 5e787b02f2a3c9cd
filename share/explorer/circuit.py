"""A circuit of ANDs in which nodes are put in the place of others, and the values of its nodes at vectors, one bit of a
large number for each vector. Literals and nodes are those of the hashed graph. A node has a greater number than its operands.

What changes with a node is hashed anew; all else keeps its number.
"""
import collections

from explorer import graph


class Circuit(graph.Graph):
    """ANDs that the outputs read, all of them, from the least number on in `nodes`."""

    def __init__(self, inputs, pairs, outputs, number):
        super().__init__(inputs)
        self.pairs, self.outputs, self.next = pairs, outputs, number
        self.nodes = sorted(pairs)
        self.known = {pair: 2 * it for it, pair in pairs.items()}
        # How many operands and outputs read each node.
        self.readers = collections.Counter(it >> 1 for pair in pairs.values() for it in pair)
        self.readers.update(it >> 1 for it in outputs)
        self.place = {}

    def alone(self, node):
        """The nodes that only this one needs, with itself."""
        found, left = [node], {}
        for it in found:
            for below in (self.pairs[it][0] >> 1, self.pairs[it][1] >> 1):
                if below in self.pairs:
                    left[below] = left.get(below, self.readers[below]) - 1
                    if not left[below]:
                        found.append(below)
        return found

    def above(self, node):
        """The nodes that depend on a node, each behind those that it depends on."""
        found, pairs = {node: None}, self.pairs
        for it in self.nodes[self.nodes.index(node) + 1:]:
            left, right = pairs[it]
            if left >> 1 in found or right >> 1 in found:
                found[it] = None
        del found[node]
        return found

    def copy(self):
        """The same circuit, to be changed."""
        made = Circuit.__new__(Circuit)
        made.inputs, made.turned, made.next = self.inputs, self.turned, self.next
        made.pairs, made.known, made.readers = dict(self.pairs), dict(self.known), dict(self.readers)
        return made

    def with_literal(self, node, literal, added, above):
        """The circuit with a literal in the place of a node, above which those nodes are. The literal may be of a node that is
        added, with its operands; `place` of what is made says which literal each node that was added or changed has there."""
        made, place = self.copy(), {}
        for it, (left, right) in added.items():
            place[it] = made.conjunction(place.get(left >> 1, left & -2) ^ left & 1, place.get(right >> 1, right & -2) ^ right & 1)
        place[node] = place.get(literal >> 1, literal & -2) ^ literal & 1
        for it in above:
            left, right = self.pairs[it]
            place[it] = made.conjunction(place.get(left >> 1, left & -2) ^ left & 1, place.get(right >> 1, right & -2) ^ right & 1)
        made.outputs = [place.get(it >> 1, it & -2) ^ it & 1 for it in self.outputs]
        return made.settled(self, place, (*above, node))

    def with_output(self, at, literal):
        """The circuit with another literal as an output."""
        made = self.copy()
        made.outputs = list(self.outputs)
        made.outputs[at] = literal
        return made.settled(self, {}, (self.outputs[at] >> 1,))

    def settled(self, before, place, changed):
        """The circuit, made of one before, when it has its outputs: nodes that nothing reads go, of those that changed and of
        new ones the first."""
        readers, fresh = self.readers, range(before.next, self.next)
        for it in fresh:
            for literal in self.pairs[it]:
                readers[literal >> 1] = readers.get(literal >> 1, 0) + 1
        for old, new in zip(before.outputs, self.outputs):
            readers[old >> 1] -= 1
            readers[new >> 1] = readers.get(new >> 1, 0) + 1
        todo = [*changed, *fresh]
        while todo:
            node = todo.pop()
            if node in self.pairs and not readers.get(node):
                pair = self.pairs.pop(node)
                del self.known[pair]
                for literal in pair:
                    readers[literal >> 1] -= 1
                    todo.append(literal >> 1)
        self.place = place
        self.nodes = [it for it in (*before.nodes, *fresh) if it in self.pairs]
        return self

    def net(self, like):
        """The circuit as tables, with the ports of a net."""
        return graph.net_of_graph(like, self, self.outputs)


def circuit_of(net):
    """The circuit of a net."""
    made, outputs = graph.graph_of(net)
    return Circuit(len(net.inputs), {it: made.pairs[it] for it in graph.used(made, outputs)}, outputs, made.next)


class Values:
    """The values of the nodes of a circuit at so many vectors, and the outputs of the exact net there."""

    def __init__(self, count, columns, exact):
        self.count, self.exact = count, exact
        self.ones = (1 << count) - 1
        self.of = {0: 0, **dict(enumerate(columns, 1))}

    def at(self, literal):
        return self.of[literal >> 1] ^ self.ones if literal & 1 else self.of[literal >> 1]

    def fill(self, circuit):
        """Finds the values of all nodes."""
        for node in circuit.nodes:
            left, right = circuit.pairs[node]
            self.of[node] = self.at(left) & self.at(right)

    def changes(self, circuit, node, value, above):
        """The values of nodes that change with that of a node, with it; those above it are told."""
        found, of, ones, pairs = {node: value}, self.of, self.ones, circuit.pairs
        for it in above:
            left, right = pairs[it]
            if left >> 1 in found or right >> 1 in found:
                one = found.get(left >> 1, of[left >> 1])
                other = found.get(right >> 1, of[right >> 1])
                value = (one ^ ones if left & 1 else one) & (other ^ ones if right & 1 else other)
                if value != of[it]:
                    found[it] = value
        return found

    def outputs(self, circuit, changed):
        """The values of the outputs where those of some nodes are changed."""
        of, ones = self.of, self.ones
        return [changed.get(it >> 1, of[it >> 1]) ^ (ones if it & 1 else 0) for it in circuit.outputs]

    def moved(self, circuit, changed):
        """Takes the values over to a circuit that was made of the one at hand."""
        of, ones, pairs, inputs = self.of, self.ones, circuit.pairs, circuit.inputs
        found = {it: value for it, value in of.items() if it <= inputs or it in pairs}
        for node, literal in circuit.place.items():
            if literal >> 1 in pairs:
                value = changed.get(node, of[node])
                found[literal >> 1] = value ^ ones if literal & 1 else value
        self.of = found

    def add_vector(self, place, other):
        """One more vector, that at a place of other values of the same circuit."""
        for node in self.of:
            self.of[node] |= (other.of[node] >> place & 1) << self.count
        self.exact = [one | (it >> place & 1) << self.count for one, it in zip(self.exact, other.exact)]
        self.count += 1
        self.ones = (1 << self.count) - 1
