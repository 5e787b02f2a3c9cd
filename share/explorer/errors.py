"""Mean error and error rate of a netlist against another, by simulation: all vectors at once, one bit of a large number
for each. The greatest error is not found here; the program proves it.
"""
import random
import time

from explorer.netlist import topological

BLOCK = 1 << 16
MOST_TRIED = 1 << 20
# A relative error is divided vector by vector.
MOST_DIVIDED = 1 << 13
SECONDS = 3.0


def ones_in(bits):
    """How many bits of a number are 1."""
    return bin(bits).count("1")


def column(place, count, begin=0):
    """The bits of an input in so many vectors of the counting order from a first one on, which is a multiple of their
    number."""
    period = 1 << place
    if period >= count:
        return (1 << count) - 1 if begin >> place & 1 else 0
    bits, width = ((1 << period) - 1) << period, 2 * period
    while width < count:
        bits |= bits << width
        width *= 2
    return bits


def blocks_of(inputs, seed, most=MOST_TRIED):
    """Blocks of vectors, each its number of vectors and a column for each input: all vectors where these are no more than
    `most`, else so many by a seed."""
    count = min(BLOCK, most, 1 << min(inputs, 40))
    number = max(1, min(most, 1 << min(inputs, 40)) // count)
    source = random.Random("vectors %d" % seed)
    for block in range(number):
        if inputs < 40 and 1 << inputs <= most:
            yield count, [column(it, count, block * count) for it in range(inputs)]
        else:
            yield count, [source.getrandbits(count) for _ in range(inputs)]


def values_of(net, columns, count):
    """The columns of the outputs."""
    ones = (1 << count) - 1
    values = dict(zip(net.inputs, columns))
    for name, pins, rows, plane in topological(net):
        some = 0
        for marks in rows:
            holds = ones
            for mark, pin in zip(marks, pins):
                if mark != "-":
                    holds &= values[pin] if mark == "1" else values[pin] ^ ones
            some |= holds
        values[name] = some if plane == "1" else some ^ ones
    return [values[it] for it in net.outputs]


def apart(exact, approx, ones, is_signed):
    """The columns of the absolute difference of two numbers, lowest bit first."""
    if is_signed:
        exact, approx = [*exact, exact[-1]], [*approx, approx[-1]]
    borrow, difference = 0, []
    for left, right in zip(exact, approx):
        difference.append(left ^ right ^ borrow)
        borrow = ((left ^ ones) & (right | borrow)) | (right & borrow)
    sign, carry, found = (difference[-1] if is_signed else borrow), 0, []
    carry = sign
    for it in difference:
        turned = it ^ sign
        found.append(turned ^ carry)
        carry &= turned
    return found


def differing(exact, approx):
    """The columns of the number of outputs that differ."""
    total = []
    for left, right in zip(exact, approx):
        carry = left ^ right
        for at, it in enumerate(total):
            total[at], carry = it ^ carry, it & carry
        if carry:
            total.append(carry)
    return total


def greater(left, right, ones):
    """The columns of the greater of two numbers."""
    width = max(len(left), len(right))
    left, right = left + [0] * (width - len(left)), right + [0] * (width - len(right))
    is_less = 0
    for one, other in zip(left, right):
        is_less = ((one ^ ones) & other) | ((one ^ other ^ ones) & is_less)
    return [(one & (is_less ^ ones)) | (other & is_less) for one, other in zip(left, right)]


def words_of(metric, outputs):
    """The outputs of each word, in order."""
    kind, _, width = metric.partition("/")
    width = int(width or 0) or max(1, len(outputs))
    return kind, [outputs[at:at + width] for at in range(0, len(outputs), width)]


def error_columns(metric, exact, approx, ones):
    """The columns of the error, that of the word that errs most; not for relative errors."""
    kind, exact_words = words_of(metric, exact)
    found = []
    for one, other in zip(exact_words, words_of(metric, approx)[1]):
        error = differing(one, other) if kind == "ham" else apart(one, other, ones, kind == "sabs")
        found = greater(found, error, ones)
    return found


def times(columns, number):
    """The columns of numbers times a number."""
    total = []
    for shift in range(number.bit_length()):
        if number >> shift & 1:
            total = plus(total, [0] * shift + columns)
    return total


def plus(left, right):
    """The columns of the sum of two numbers."""
    width, carry, total = max(len(left), len(right)), 0, []
    for one, other in zip(left + [0] * (width - len(left)), right + [0] * (width - len(right))):
        total.append(one ^ other ^ carry)
        carry = one & other | carry & (one | other)
    return total + [carry]


def where_more(left, right, ones):
    """The vectors at which the left number is the greater one."""
    width, found = max(len(left), len(right)), 0
    for one, other in zip(left + [0] * (width - len(left)), right + [0] * (width - len(right))):
        found = one & (other ^ ones) | (one ^ other ^ ones) & found
    return found


def beyond(metric, bound, exact, approx, ones):
    """The vectors at which the error is above a bound."""
    if not metric.startswith("rel"):
        found = error_columns(metric, exact, approx, ones)
        return where_more(found, [ones if bound >> at & 1 else 0 for at in range(bound.bit_length())], ones)
    found = 0
    for one, other in zip(words_of(metric, exact)[1], words_of(metric, approx)[1]):
        some = 0
        for it in one:
            some |= it
        least = [one[0] | some ^ ones, *one[1:]]
        found |= where_more(times(apart(one, other, ones, False), 1000000), times(least, bound), ones)
    return found


def greatest(metric, most, exact, approx, ones):
    """The greatest error, where it is at most so much."""
    least = 0
    while least < most:
        middle = (least + most) // 2
        if beyond(metric, middle, exact, approx, ones):
            least = middle + 1
        else:
            most = middle
    return least


def number_at(columns, place):
    return sum((it >> place & 1) << at for at, it in enumerate(columns))


def relative_sum(metric, exact, approx, differs):
    """The sum of the relative errors at the vectors that differ."""
    _, exact_words = words_of(metric, exact)
    pairs, total = list(zip(exact_words, words_of(metric, approx)[1])), 0
    while differs:
        place = differs.bit_length() - 1
        differs ^= 1 << place
        worst = 0
        for one, other in pairs:
            right = number_at(one, place)
            worst = max(worst, -(-abs(right - number_at(other, place)) * 1000000 // max(1, right)))
        total += worst
    return total


class Judge:
    """Tells mean errors against one exact net."""

    def __init__(self, exact, metric, seed):
        self.exact, self.metric = exact, metric
        inputs = len(exact.inputs)
        self.blocks, self.are_all = [], True
        most = MOST_DIVIDED if metric.startswith("rel") else MOST_TRIED
        begin = time.monotonic()
        for count, columns in blocks_of(inputs, seed, most):
            self.blocks.append((count, columns, values_of(exact, columns, count)))
            if time.monotonic() - begin > SECONDS / 2 and len(self.blocks) * count < min(most, 1 << min(inputs, 40)):
                self.blocks = self.fewer(inputs, seed, count * len(self.blocks))
                break
        self.vectors = sum(count for count, _, _ in self.blocks)
        self.are_all = inputs < 40 and self.vectors == 1 << inputs

    def fewer(self, inputs, seed, most):
        """Vectors by the seed, as many as time allows."""
        made = [(count, columns) for count, columns in blocks_of(max(inputs, 21), seed, most)]
        return [(count, columns[:inputs], values_of(self.exact, columns[:inputs], count)) for count, columns in made]

    def errors_of(self, net):
        """The mean error and the share of vectors that err."""
        total = wrong = 0
        for count, columns, exact in self.blocks:
            approx, ones, differs = values_of(net, columns, count), (1 << count) - 1, 0
            for one, other in zip(exact, approx):
                differs |= one ^ other
            wrong += ones_in(differs)
            if self.metric.startswith("rel"):
                total += relative_sum(self.metric, exact, approx, differs)
            else:
                for at, it in enumerate(error_columns(self.metric, exact, approx, ones)):
                    total += ones_in(it) << at
        return total / self.vectors, wrong / self.vectors
