#!/usr/bin/env python3
"""The greatest error of a netlist against another, over all input vectors. Written from the formats alone, it knows
nothing of salsa: it reads both netlists, computes all vectors at once, one bit of a large number for each, and
compares the words that the outputs make, the first output of each being bit 0.

Usage: greatest_error.py METRIC EXACT APPROX [BITS]
                                                 the greatest error, or the one at an input vector; METRIC is abs, rel, ham or sabs, or one of these with /W, the number of
                                                 outputs of a word, from 1 to 64; up to 20 inputs
       greatest_error.py --self-test             the errors of small words, and netlists made here
"""
import re
import sys

METRIC = re.compile(r"(abs|rel|ham|sabs)(?:/([1-9]|[1-5][0-9]|6[0-4]))?")


def lines_of(text):
    """The logical lines as lists of words."""
    joined = ""
    for line in text.split("\n"):
        line = line.split("#")[0].rstrip(" \t\r")
        if line.endswith("\\"):
            joined += line[:-1]
            continue
        words = (joined + line).split()
        joined = ""
        if words:
            yield words
    if joined.split():
        yield joined.split()


def netlist(text):
    """Inputs, outputs, and for each table its pins, its rows and its plane."""
    inputs, outputs, tables, name = [], [], {}, None
    for words in lines_of(text):
        if words[0] == ".inputs":
            inputs += words[1:]
        elif words[0] == ".outputs":
            outputs += words[1:]
        elif words[0] == ".names":
            name = words[-1]
            tables[name] = (words[1:-1], [], [True])
        elif words[0] == ".end":
            break
        elif not words[0].startswith("."):
            marks = words[0] if len(words) > 1 else ""
            tables[name][1].append(marks)
            tables[name][2][0] = words[-1] == "1"
    return inputs, outputs, tables


def column(i, count):
    """The bits of input i in all vectors of so many inputs, vector j at bit j."""
    period = ((1 << (1 << i)) - 1) << (1 << i)
    width = 2 << i
    bits = 0
    for at in range(0, 1 << count, width):
        bits |= period << at
    return bits


def output_words(text):
    """For each vector in counting order the list of the outputs' bits."""
    inputs, outputs, tables = netlist(text)
    ones = (1 << (1 << len(inputs))) - 1
    values = {name: column(i, len(inputs)) for i, name in enumerate(inputs)}

    def value(name):
        todo = [name]
        while todo:
            at = todo[-1]
            if at in values:
                todo.pop()
                continue
            pins, rows, plane = tables[at]
            missing = [pin for pin in pins if pin not in values]
            if missing:
                todo += missing
                continue
            some = 0
            for row in rows:
                holds = ones
                for mark, pin in zip(row, pins):
                    holds &= {"1": values[pin], "0": ones ^ values[pin], "-": ones}[mark]
                some |= holds
            values[at] = some if plane[0] else ones ^ some
            todo.pop()
        return values[name]

    columns = [value(name) for name in outputs]
    return [[bits >> j & 1 for bits in columns] for j in range(1 << len(inputs))]


def number(bits, signed=False):
    found = sum(bit << i for i, bit in enumerate(bits))
    return found - (1 << len(bits)) if signed and bits and bits[-1] else found


def word_error(kind, exact, approx):
    """The error of one word."""
    if kind == "ham":
        return sum(a != b for a, b in zip(exact, approx))
    apart = abs(number(exact, kind == "sabs") - number(approx, kind == "sabs"))
    return -(-apart * 1000000 // max(1, number(exact))) if kind == "rel" else apart


def error(metric, exact, approx):
    """The error of two lists of output bits: that of the word that errs most. Of the last word there may be fewer bits."""
    kind, width = METRIC.fullmatch(metric).groups()
    width = int(width or max(1, len(exact)))
    return max((word_error(kind, exact[at:at + width], approx[at:at + width]) for at in range(0, len(exact), width)), default=0)


def greatest(metric, exact, approx):
    return max(error(metric, e, a) for e, a in zip(output_words(exact), output_words(approx)))


def self_test():
    wanted = [("abs", [1, 1], [0, 1], 1), ("ham", [1, 1], [0, 1], 1), ("rel", [1, 1], [0, 1], 333334),
              ("abs", [0, 0], [1, 1], 3), ("rel", [0, 0], [1, 1], 3000000), ("sabs", [0, 1], [1, 0], 3),
              ("sabs", [1], [0], 1), ("sabs", [1, 1], [1, 0], 2), ("sabs", [], [], 0),
              ("abs/2", [1, 1, 0, 1], [0, 1, 0, 1], 1), ("ham/2", [1, 1, 0, 1], [0, 1, 0, 1], 1),
              ("rel/2", [1, 1, 0, 1], [0, 1, 0, 1], 333334), ("abs/3", [1, 1, 0, 1], [0, 1, 0, 1], 1),
              ("abs", [0, 0, 1, 0], [0, 0, 0, 1], 4), ("abs/2", [0, 0, 1, 0], [0, 0, 0, 1], 1),
              ("rel/2", [0, 0, 1, 0], [0, 0, 0, 1], 1000000), ("sabs/2", [0, 0, 1, 0], [0, 0, 0, 1], 3),
              ("abs/64", [0, 0, 1, 0], [0, 0, 0, 1], 4), ("ham/1", [1, 1], [0, 0], 1), ("sabs/2", [0, 1, 1], [1, 0, 1], 3),
              ("sabs/2", [0, 0, 1], [0, 0, 0], 1), ("rel/1", [], [], 0)]
    wrong = [it for it in wanted if error(it[0], it[1], it[2]) != it[3]]
    adder = ".inputs a b\n.outputs s c\n.names a b s\n10 1\n01 1\n.names a b c\n11 1\n.end\n"
    copied = ".inputs a b\n.outputs s \\\nc\n.names s\n.names b c\n0 0\n"
    wrong += [it for it in [("abs", 1), ("ham", 2), ("sabs", 3), ("abs/1", 1), ("ham/1", 1), ("sabs/2", 3)]
              if greatest(it[0], adder, copied) != it[1]]
    wrong += [it for it in ("abs/", "abs/0", "abs/08", "abs/65", "abs/8/8", "max/8", "/8", "abs/ 8") if METRIC.fullmatch(it)]
    print("%d judged wrong" % len(wrong), *wrong)
    return 1 if wrong else 0


if __name__ == "__main__":
    if sys.argv[1:] == ["--self-test"]:
        sys.exit(self_test())
    if len(sys.argv) not in (4, 5) or not METRIC.fullmatch(sys.argv[1]):
        sys.exit(__doc__.strip())
    texts = [open(it, errors="replace").read() for it in sys.argv[2:4]]
    if len(sys.argv) == 5:
        print(error(sys.argv[1], *[output_words(it)[int(sys.argv[4][::-1] or "0", 2)] for it in texts]))
    else:
        print(greatest(sys.argv[1], *texts))
