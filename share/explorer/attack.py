"""Vectors at which a circuit breaks the bound, looked for by simulation: from the vectors at which it errs most others are bred,
by turning some of their bits over and by taking bits of two. It shows that a circuit is wrong, and never that it is right.
"""
from explorer import circuit, errors

# So many vectors are bred in each of so many generations, from so many parents; at most so many of the wrong ones are told.
BRED, GENERATIONS, PARENTS, TOLD = 4096, 8, 32, 16
# The parents err by more than so many eighths of the bound, the greatest share first.
SHARES = (7, 6, 5, 4, 3, 2, 1, 0)
# A number that repeats another one of so many bits in all places.
REPEATED = sum(1 << at for at in range(0, BRED, PARENTS))


class Attack:
    """Attacks circuits one after another; what a circuit erred at most at is where the attack on the next one begins."""

    def __init__(self, exact, metric, bound, source):
        self.exact, self.metric, self.bound, self.source = circuit.circuit_of(exact), metric, bound, source
        self.inputs = len(exact.inputs)
        self.parents = []

    def vectors(self, found):
        """Some vectors at which a circuit breaks the bound, or none where these generations show none."""
        for _ in range(GENERATIONS):
            columns = self.bred()
            exact, approx = (outputs_of(it, columns) for it in (self.exact, found))
            ones = (1 << BRED) - 1
            wrong = errors.beyond(self.metric, self.bound, exact, approx, ones)
            if wrong:
                return vectors_at(places_of(wrong, TOLD, self.source), columns)
            self.parents = vectors_at(self.worst(exact, approx, ones), columns)
        return []

    def worst(self, exact, approx, ones):
        """The places of those that err most."""
        places, seen = [], 0
        for share in SHARES:
            found = errors.beyond(self.metric, self.bound * share // 8, exact, approx, ones) & ~seen
            seen |= found
            places += places_of(found, PARENTS - len(places), self.source)
            if len(places) >= PARENTS:
                break
        return places

    def bred(self):
        """A column for each input: children of the parents, one of eight of them new."""
        source = self.source.getrandbits
        if not self.parents:
            return columns_of(self.inputs, BRED, self.source)
        new, fresh, crossed = self.few_of(3), columns_of(self.inputs, BRED, self.source), self.few_of(1)
        other = self.source.randrange(1, PARENTS)
        columns = []
        for at in range(self.inputs):
            bits = sum(self.parents[place % len(self.parents)][at] << place for place in range(PARENTS))
            mate = (bits >> other | bits << PARENTS - other) & (1 << PARENTS) - 1
            child = bits * REPEATED
            child ^= (child ^ mate * REPEATED) & crossed & source(BRED)
            child ^= self.few_of(max(1, self.inputs.bit_length() - 1))
            columns.append(child ^ (child ^ fresh[at]) & new)
        return columns

    def few_of(self, halvings):
        """Places by chance, of all of them half so often."""
        found = self.source.getrandbits(BRED)
        for _ in range(halvings - 1):
            found &= self.source.getrandbits(BRED)
        return found


def columns_of(inputs, count, source):
    """A column for each input, of vectors by chance: in one half each bit is 1 as often as 0, in the eighths of the other one more
    seldom or more often."""
    part, columns = count // 8, []
    for _ in range(inputs):
        one, two, three = (source.getrandbits(part) for _ in range(3))
        found = source.getrandbits(4 * part)
        for it in (one & two, one | two, one & two & three, one | two | three):
            found = found << part | it
        columns.append(found)
    return columns


def outputs_of(found, columns):
    """The columns of a circuit's outputs."""
    values = circuit.Values(BRED, columns, None)
    values.fill(found)
    return values.outputs(found, {})


def places_of(bits, most, source):
    """At most so many places of ones, each sought from a place by chance on."""
    found = set()
    for begin in (source.randrange(bits.bit_length()) for _ in range(most if bits else 0)):
        behind = bits >> begin
        found.add(begin + (behind & -behind).bit_length() - 1)
    return sorted(found)


def vectors_at(places, columns):
    """The vectors at these places, each as a list of bits."""
    return [[column >> place & 1 for column in columns] for place in places]
