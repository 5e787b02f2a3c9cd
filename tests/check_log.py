#!/usr/bin/env python3
"""Checks that an LRAT log refutes a DIMACS formula. Written from the two formats alone, it knows nothing of salsa.

Usage: check_log.py FORMULA LOG     prints `verified` (exit 0), or the first step that is wrong and why (exit 1)
       check_log.py --self-test     tries small logs that are right and wrong

A line of a log adds a clause, `ID LITERALS 0 HINTS 0`, or removes clauses, `ID d IDS 0`. The clauses of the formula
have the ids 1, 2 and so on. A step is right if its id is greater than all before it, and unit propagation from the
negation of its clause along its hints,
in their order, makes each hint but the last unit and the last one false. The last step is to add the empty clause.
"""
import sys


class Wrong(Exception):
    """Why a formula or a log is refused."""


def numbers(words, where):
    """The whole numbers of the words; anything else, as a sign without digits or a leading zero, is refused."""
    for word in words:
        digits = word[1:] if word[:1] == "-" else word
        if not (digits.isascii() and digits.isdigit()) or word != str(int(word)):
            raise Wrong("%s: %r is no number" % (where, word))
    return [int(word) for word in words]


def formula_of(text):
    """The number of variables and the clauses of a DIMACS text."""
    lines = [line.split() for line in text.split("\n")]
    lines = [words for words in lines if words and words[0] != "c"]
    if not lines or lines[0][:2] != ["p", "cnf"] or len(lines[0]) != 4:
        raise Wrong("the formula has no header")
    variables, count = numbers(lines[0][2:], "header")
    clauses, clause = [], []
    for literal in numbers([word for words in lines[1:] for word in words], "formula"):
        if abs(literal) > variables:
            raise Wrong("formula: %d is no literal of %d variables" % (literal, variables))
        if literal:
            clause.append(literal)
        else:
            clauses.append(clause)
            clause = []
    if clause or len(clauses) != count:
        raise Wrong("the formula has not %d clauses" % count)
    return variables, clauses


def propagate(held, clause, hints, where):
    """Refuses hints along which unit propagation from the clause's negation does not end in a conflict at the last."""
    true = {-literal for literal in clause}
    for place, hint in enumerate(hints):
        if hint not in held:
            raise Wrong("%s: hint %d is not held" % (where, hint))
        left = {literal for literal in held[hint] if -literal not in true}
        if place + 1 == len(hints):
            if not left:
                return
        elif len(left) == 1:
            true |= left
        else:
            raise Wrong("%s: hint %d is not unit" % (where, hint))
    raise Wrong("%s: no conflict" % where)


def check(variables, clauses, text):
    """Refuses a log that does not refute the clauses."""
    held = {place + 1: clause for place, clause in enumerate(clauses)}
    greatest, last = len(clauses), None
    if text and not text.endswith("\n"):
        raise Wrong("the last line does not end")
    for line, words in enumerate((line.split() for line in text.split("\n")[:-1]), 1):
        where = "line %d" % line
        if words[1:2] == ["d"]:
            ids = numbers(words[:1] + words[2:], where)[1:]
            if ids[-1:] != [0] or min(ids[:-1], default=1) < 1:
                raise Wrong("%s: not the ids of a removal and 0" % where)
            for name in ids:
                held.pop(name, None)
            continue
        step = numbers(words, where)
        if step.count(0) != 2 or step[-1] != 0:
            raise Wrong("%s: not an id, literals, 0, hints and 0" % where)
        middle = step.index(0)
        name, clause, hints = step[0], step[1:middle], step[middle + 1:-1]
        if name <= greatest:
            raise Wrong("%s: id %d is not greater than %d" % (where, name, greatest))
        if any(abs(literal) > variables for literal in clause):
            raise Wrong("%s: a literal of no variable" % where)
        if any(hint < 0 for hint in hints):
            raise Wrong("%s: a negative hint" % where)
        propagate(held, clause, hints, where)
        held[name], greatest, last = clause, name, clause
    if last != []:
        raise Wrong("the last step does not add the empty clause")


def verdict(formula, log):
    try:
        check(*formula_of(formula), log)
    except Wrong as why:
        return str(why)
    return "verified"


CHAIN = "p cnf 2 3\n1 0\n-1 2 0\n-2 0\n"
PAIRS = "c all four clauses\np cnf 2 4\n1 2 0 1 -2 0\n-1 2 0\n-1 -2 0\n"
CASES = [
    (CHAIN, "4 0 1 2 3 0\n", "verified"),
    (CHAIN, "4 0 1 3 2 0\n", "verified"),
    (CHAIN, "9 2 0 1 2 0\n9 d 2 7 0\n12 0 9 3 0\n", "verified"),
    (PAIRS, "5 1 0 1 2 0\n6 0 5 3 4 0\n", "verified"),
    (CHAIN, "4 0 2 1 3 0\n", "line 1: hint 2 is not unit"),
    (CHAIN, "4 0 1 1 2 3 0\n", "verified"),
    (CHAIN, "4 2 0 1 2 3 0\n", "line 1: hint 2 is not unit"),
    (CHAIN, "4 0 1 2 0\n", "line 1: no conflict"),
    (CHAIN, "4 0 0\n", "line 1: no conflict"),
    (CHAIN, "4 0 1 2 3 1 0\n", "line 1: hint 3 is not unit"),
    (CHAIN, "3 0 1 2 3 0\n", "line 1: id 3 is not greater than 3"),
    (CHAIN, "4 0 1 9 3 0\n", "line 1: hint 9 is not held"),
    (CHAIN, "3 d 1 0\n4 0 1 2 3 0\n", "line 2: hint 1 is not held"),
    (CHAIN, "4 0 -1 2 0\n", "line 1: a negative hint"),
    (CHAIN, "4 0 1 2\n", "line 1: not an id, literals, 0, hints and 0"),
    (CHAIN, "3 d 1\n", "line 1: not the ids of a removal and 0"),
    (CHAIN, "4 0 1 x 0\n", "line 1: 'x' is no number"),
    (CHAIN, "4 3 0 1 2 3 0\n", "line 1: a literal of no variable"),
    (CHAIN, "4 0 1 2 3 0", "the last line does not end"),
    (CHAIN, "", "the last step does not add the empty clause"),
    (CHAIN, "4 2 0 1 2 0\n", "the last step does not add the empty clause"),
    (CHAIN, "4 0 1 2 3 0\n5 2 0 1 2 0\n", "the last step does not add the empty clause"),
    (PAIRS, "5 0 1 2 3 4 0\n", "line 1: hint 1 is not unit"),
    ("p cnf 2 4\n1 0\n-1 2 0\n-2 0\n", "4 0 1 2 3 0\n", "the formula has not 4 clauses"),
    ("p cnf 1 3\n1 0\n-1 2 0\n-2 0\n", "4 0 1 2 3 0\n", "formula: 2 is no literal of 1 variables"),
]


def self_test():
    failed = [(log, verdict(formula, log), wanted) for formula, log, wanted in CASES if verdict(formula, log) != wanted]
    for log, said, wanted in failed:
        print("FAILED %r: %r in the place of %r" % (log, said, wanted))
    print("%d logs judged right, %d wrong" % (len(CASES) - len(failed), len(failed)))
    return 1 if failed else 0


def main():
    if sys.argv[1:] == ["--self-test"]:
        return self_test()
    if len(sys.argv) != 3:
        print("usage: check_log.py FORMULA LOG, or check_log.py --self-test")
        return 2
    texts = []
    for path in sys.argv[1:]:
        with open(path, encoding="ascii") as file:
            texts.append(file.read())
    said = verdict(*texts)
    print(said)
    return 0 if said == "verified" else 1


if __name__ == "__main__":
    sys.exit(main())
