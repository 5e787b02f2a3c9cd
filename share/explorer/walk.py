"""A walk among circuits that keep the bound: step by step a literal, or a few new ANDs of literals, take the place of a node,
or another literal that of an output. At a vector where the outputs stay within the bound whatever the node is, they may have
any value. Most steps leave as many ANDs as before, and some one more; by these the walk leaves the places at which nothing
single can be taken away.

A step is looked for at a few vectors. Where all vectors show that it breaks the bound, one at which it does joins the few. Of
many inputs not all vectors are looked at in each step: now and then the best is attacked, and a judge is asked, or all vectors are
looked at where they are not so many. Vectors at which the bound is broken join those that are looked at, and the
walk goes on from the latest that keeps it at these too, or from what was judged right before.
"""
import random

from explorer import attack, circuit, errors

# How a walk is named, before its seed.
NAME = "walk "
# Of how many inputs all vectors are looked at in each step, and of how many by the judge.
MOST_INPUTS, JUDGED_INPUTS = 16, 20
# How many the few are at first, and how many are looked at where a judge is asked. The best is attacked, or judged by all vectors,
# behind so many steps, and behind fewer where it was wrong. Of all vectors so many wrong ones are told. Another judge is asked again
# when the walk is so many times as long as where its answer was dear, and at the end at most so often.
FEW, SAMPLED, JUDGED, SOONEST, TOLD, SELDOM, LAST = 512, 8192, 100, 12, 32, 3, 3
# What a judge has to show is attacked behind so many steps.
ATTACKED = 25
# How many literals are joined in pairs, and how many take part where three are joined.
PAIRED, FIRSTS, JOINED, DIFFERING = 60, 8, 30, 40
# A circuit has at most so many ANDs more than the best so far, and a step that adds one is looked for so often.
MORE, WORSE = 5, 0.2
# A walk ends where its steps have gone through so many ANDs; what else a step does counts as so many.
WORK, STEP = 1000000, 300


class Walk:
    """The circuit at hand, and the best so far."""

    def __init__(self, exact, start, metric, bound, seed, judge=None):
        """`judge` gives back whether a circuit keeps the bound, and vectors at which it does not, if it knows some. It is asked
        only where there are too many inputs for all vectors."""
        self.exact, self.metric, self.bound = exact, metric, bound
        self.random = random.Random("walk %d" % seed)
        self.circuit = self.best = circuit.circuit_of(start)
        inputs = len(exact.inputs)
        self.is_judged = inputs > MOST_INPUTS
        self.judge, self.attack, self.gain = self.judged_by_all, None, 0
        if inputs > JUDGED_INPUTS:
            # New ANDs and steps without gain make a netlist less and less like the exact one, and its certificate dearer.
            self.judge, self.attack, self.gain = judge, attack.Attack(exact, metric, bound, self.random), seed % 2
        # What was judged right, and behind it what came later, of which no vector is known that breaks the bound.
        self.trail = [self.circuit]
        self.pace = ATTACKED if self.attack else JUDGED
        self.every, self.wait, self.due = None, self.pace, JUDGED if self.attack else 0
        self.work = self.steps = 0
        self.put_vectors(inputs)

    def put_vectors(self, inputs):
        """Takes the vectors that are looked at, and the few of them."""
        if self.is_judged:
            self.all = self.few = self.sampled(attack.columns_of(inputs, SAMPLED, self.random), SAMPLED)
        else:
            self.all = self.few = self.sampled([errors.column(it, 1 << inputs) for it in range(inputs)], 1 << inputs)
        if self.all.count > FEW:
            self.few = circuit.Values(0, [0] * inputs, [0] * len(self.exact.outputs))
            for place in self.random.sample(range(self.all.count), FEW):
                self.few.add_vector(place, self.all)
        self.all.fill(self.circuit)
        self.few.fill(self.circuit)

    def at_all(self, found):
        """The values of a circuit at all vectors."""
        inputs = len(self.exact.inputs)
        columns = [errors.column(it, 1 << inputs) for it in range(inputs)]
        self.every = self.every or errors.values_of(self.exact, columns, 1 << inputs)
        values = circuit.Values(1 << inputs, columns, self.every)
        values.fill(found)
        return values

    def judged_by_all(self, found):
        """Whether a circuit keeps the bound at all vectors, and some at which it does not."""
        values = self.at_all(found)
        wrong = errors.beyond(self.metric, self.bound, self.every, values.outputs(found, {}), values.ones)
        inputs = range(len(self.exact.inputs))
        return not wrong, [[place >> it & 1 for it in inputs] for place in attack.places_of(wrong, TOLD, self.random)]

    def greatest(self):
        """The greatest error of what was judged right last, of all vectors."""
        values = self.at_all(self.trail[0])
        return errors.greatest(self.metric, self.bound, self.every, values.outputs(self.trail[0], {}), values.ones)

    def sampled(self, columns, count):
        """The values at vectors that stand in columns, one for each input."""
        return circuit.Values(count, columns, errors.values_of(self.exact, columns, count))

    def breaks(self, values, changed, at=None, output=0):
        """The vectors at which the bound is broken where some nodes have other values, and the output at a place if one is
        told."""
        outputs = values.outputs(self.circuit, changed)
        if at is not None:
            outputs[at] = output
        return errors.beyond(self.metric, self.bound, values.exact, outputs, values.ones)

    def run(self):
        """Steps until the work is done; the best circuit."""
        if self.breaks(self.all, {}):
            return self.best
        while self.work < WORK and self.circuit.nodes:
            self.work += len(self.circuit.nodes) + STEP
            self.steps += 1
            place = self.random.randrange(len(self.circuit.nodes) + len(self.circuit.outputs))
            if place < len(self.circuit.nodes):
                self.step(self.circuit.nodes[place])
            else:
                self.output_step(place - len(self.circuit.nodes))
            if len(self.circuit.nodes) <= len(self.best.nodes):
                self.best = self.circuit
            self.wait -= 1
            if self.is_judged and (self.wait <= 0 or not self.circuit.nodes):
                # Where nothing is left, nothing comes later.
                self.ask(is_last=not self.circuit.nodes)
        return self.judged_last() if self.is_judged else self.best

    def ask(self, is_last=False):
        """Asks whether the best is right, at the end and where it is due by the judge, and goes back where it is not."""
        self.wait, is_due = self.pace, is_last or self.steps >= self.due
        if self.best is self.trail[0] or (self.best is self.trail[-1] and not is_due):
            return
        vectors = self.attack.vectors(self.best) if self.attack else []
        if vectors:
            self.go_back(vectors)
        elif not is_due:
            self.trail.append(self.best)
        else:
            is_right, vectors = self.judge(self.best)
            # An answer without vectors is dear, and one with vectors is not.
            self.due = SELDOM * self.steps if self.attack and not vectors else 0
            if is_right:
                self.trail = [self.best]
            else:
                self.go_back(vectors)

    def go_back(self, vectors):
        """Goes on from the latest that keeps the bound at these vectors too, or from far before where none is known."""
        self.wait = SOONEST
        if vectors:
            self.all, self.few = (self.with_vectors(it, vectors) for it in (self.all, self.few))
        else:
            del self.trail[max(1, len(self.trail) // 4):]
        self.circuit = self.best = self.trail[-1]
        self.all.fill(self.circuit)
        while len(self.trail) > 1 and self.breaks(self.all, {}):
            self.trail.pop()
            self.circuit = self.best = self.trail[-1]
            self.all.fill(self.circuit)
        self.few.fill(self.circuit)

    def with_vectors(self, values, vectors):
        """The values of the inputs at further vectors too."""
        added = [sum(bit << place for place, bit in enumerate(bits)) for bits in zip(*vectors)]
        columns = [values.of[at] | bits << values.count for at, bits in enumerate(added, 1)]
        return self.sampled(columns, values.count + len(vectors))

    def judged_last(self):
        """What is judged right in the end."""
        for _ in range(LAST):
            if self.best is self.trail[0]:
                break
            self.ask(is_last=True)
        return self.trail[0]

    def output_step(self, at):
        """Looks for another literal as an output, and takes the first that may be taken."""
        few, literal = self.few, self.circuit.outputs[at]
        care = self.breaks(few, {}, at, few.at(literal) ^ few.ones)
        for it in self.shuffled(it for it in (*range(self.circuit.inputs + 1), *self.circuit.nodes) if it != literal >> 1):
            apart = (few.of[it] ^ few.at(literal)) & care
            if apart in (0, care):
                other = 2 * it ^ bool(apart)
                wrong = self.breaks(self.all, {}, at, self.all.at(other))
                if wrong:
                    return self.learn(wrong)
                made = self.circuit.with_output(at, other)
                if len(made.nodes) <= len(self.circuit.nodes) - self.gain:
                    return self.take(made, {}, {})

    def shuffled(self, signals):
        """Signals in an order that hangs on the seed."""
        number = self.random.random
        return sorted(signals, key=lambda _: number())

    def step(self, node):
        """Looks for something in the place of a node, and takes the first that may be taken."""
        few, pairs, above = self.few, self.circuit.pairs, self.circuit.above(node)
        care = self.breaks(few, few.changes(self.circuit, node, few.of[node] ^ few.ones, above))
        on, off = few.of[node] & care, care & ~few.of[node]
        signals = self.shuffled(it for it in (*range(1, self.circuit.inputs + 1), *self.circuit.nodes)
                                if it not in above and it != node)
        literals = [pair for it in signals for pair in ((2 * it, few.of[it]), (2 * it + 1, few.of[it] ^ few.ones))]
        going = self.circuit.alone(node)
        more = self.random.random() < WORSE and len(self.circuit.nodes) < len(self.best.nodes) + MORE
        more = -1 if self.gain else more
        for literal, added in self.instead(on, off, [(0, 0), (1, few.ones), *literals], going, len(going) + more):
            if tuple(sorted(added.get(literal >> 1, ()))) != tuple(sorted(pairs[node])) or literal & 1:
                if self.is_taken((node, literal, added, above), len(self.circuit.nodes) + more):
                    return

    def instead(self, on, off, literals, going, most):
        """What may stand in the place of a node, and of those that go with it: a literal, and the operands of the new ANDs, at
        most so many."""
        first = self.circuit.next
        over = [(it, value & off) for it, value in literals if not on & ~value]
        under = [(it, on & ~value) for it, value in literals if not value & off]
        staying = [it for it in literals if it[0] >> 1 not in going]
        yield from ((literal, {}) for literal, rest in over if not rest)
        if self.gain:
            return
        yield from joined(first, over[:PAIRED], 0)
        yield from joined(first, under[:PAIRED], 1)
        if most >= 2:
            wholes = [it for it in over if it[0] >> 1 not in going]
            yield from nested(first, on, wholes[:FIRSTS], staying)
        if most >= 3:
            yield from differing(first, on, on | off, [it for it in staying if not it[0] & 1][:DIFFERING])

    def is_taken(self, change, most):
        """Whether the circuit is changed so, where it has no more ANDs than that then, or the few vectors have become more."""
        made = self.circuit.with_literal(*change)
        node, literal, added, above = change
        if len(made.nodes) > most:
            return False
        for values in (self.few, self.all):
            for new, (left, right) in added.items():
                values.of[new] = values.at(left) & values.at(right)
        changed = {}
        if self.all.at(literal) != self.all.of[node]:
            changed = self.all.changes(self.circuit, node, self.all.at(literal), above)
            wrong = self.breaks(self.all, changed)
            if wrong:
                self.learn(wrong)
                return True
        is_apart = changed and self.few is not self.all
        few_changed = self.few.changes(self.circuit, node, self.few.at(literal), above) if is_apart else changed
        self.take(made, changed, few_changed)
        return True

    def learn(self, wrong):
        """One of these vectors joins the few."""
        self.few.add_vector(wrong.bit_length() - 1, self.all)

    def take(self, made, changed, few_changed):
        """Goes on with a circuit, in which some nodes have other values."""
        self.circuit = made
        self.all.moved(made, changed)
        if self.few is not self.all:
            self.few.moved(made, few_changed)


def disjoint(terms):
    """The pairs of literals whose vectors are apart."""
    for at, (one, left) in enumerate(terms):
        for other, right in terms[:at]:
            if not left & right:
                yield one, other


def joined(first, terms, turned):
    """An AND of two literals, or an OR of them."""
    for one, other in disjoint(terms):
        yield 2 * first + turned, {first: (one ^ turned, other ^ turned)}


def nested(first, on, wholes, literals):
    """An AND of a literal and an OR of two."""
    for whole, rest in wholes:
        terms = [(it, on & ~value) for it, value in literals if not value & rest and on & value]
        for one, other in disjoint(terms[:JOINED]):
            yield 2 * first + 2, {first: (one ^ 1, other ^ 1), first + 1: (whole, 2 * first + 1)}


def differing(first, on, care, literals):
    """Two literals that differ just where the node has to be true, or just where it has to be false."""
    terms = [(it, (value ^ on) & care) for it, value in literals]
    for at, (one, left) in enumerate(terms):
        for other, right in terms[:at]:
            apart = left ^ right ^ on
            if not apart or apart == care:
                other ^= bool(apart)
                yield 2 * first + 4, {first: (one, other), first + 1: (one ^ 1, other ^ 1),
                                      first + 2: (2 * first + 1, 2 * first + 3)}
