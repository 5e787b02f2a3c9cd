"""The words of `salsa explore`, and what is wrong with those that are none."""
import os
import re
import types

ENDINGS = ("blif", "cnf", "lrat", "wit", "txt")
FORM = "explore METRIC BOUND[,BOUND..] CONFLICTS IN STEM [options]"
METRIC = re.compile(r"(abs|sabs|rel|ham)(/([1-9]|[1-5][0-9]|6[0-4]))?")
NUMBER = re.compile(r"0|[1-9][0-9]*")
AREAS = ("ands", "luts4", "luts6", "literals", "cells")
LIBRARIES = (".lib", ".genlib")
RUNS = ("local", "parallel", "slurm")
# Options that take a number, with the least one.
COUNTS = {"--tries": 1, "--seconds": 1, "--jobs": 1, "--seed": 0, "--most-depth": 0}
DEFAULT_SECONDS = 60


class Usage(Exception):
    """The words are no job; what is wrong with them."""


def number_of(word, name, least=0, most=2 ** 63):
    """The decimal number that a word is."""
    if not NUMBER.fullmatch(word) or not least <= int(word) < most:
        raise Usage("%s is a decimal number without sign or leading zeros%s, not `%s`" % (
            name, ", from %d on" % least if least else "", word))
    return int(word)


def bounds_of(word):
    """The bounds, from the least on."""
    parts = word.split(",")
    for it in parts:
        if not NUMBER.fullmatch(it) or int(it) >= 2 ** 84:
            raise Usage("BOUND is one decimal number below 2^84 or several with commas between, as 1,3,7, not `%s`" % word)
    if len(set(parts)) < len(parts):
        raise Usage("a bound stands twice in `%s`" % word)
    return sorted(map(int, parts))


def options_of(words):
    """The options, and the words that are none."""
    found = types.SimpleNamespace(area="ands", library_path=None, tries=None, seconds=None, jobs=None, seed=1, most_depth=None,
                                  run="local", run_words=[], abc_path=None, is_without_abc=False)
    plain, left = [], list(words)
    while left:
        word = left.pop(0)
        if word == "--":
            found.run_words = left
            break
        if not word.startswith("--"):
            plain.append(word)
        elif word == "--without-abc":
            found.is_without_abc = True
        elif not left:
            raise Usage("`%s` takes a word behind it, or is no option" % word)
        else:
            option(found, word, left)
    if found.run_words and found.run == "local":
        raise Usage("words behind `--` are for --run parallel or --run slurm")
    return found, plain


def option(found, word, left):
    """One option with the words behind it."""
    value = left.pop(0)
    if word in COUNTS:
        setattr(found, word[2:].replace("-", "_"), number_of(value, word, COUNTS[word]))
    elif word == "--area":
        if value not in AREAS:
            raise Usage("--area is one of %s, not `%s`" % (", ".join(AREAS[:-1]) + " or cells FILE", value))
        found.area = value
        if value == "cells":
            if not left or os.path.splitext(left[0])[1] not in LIBRARIES:
                raise Usage("--area cells takes a library, FILE.lib (Liberty) or FILE.genlib")
            found.library_path = left.pop(0)
    elif word == "--run":
        if value not in RUNS:
            raise Usage("--run is %s, not `%s`" % (", ".join(RUNS[:-1]) + " or " + RUNS[-1], value))
        found.run = value
    elif word == "--abc":
        found.abc_path = value
    else:
        raise Usage("`%s` is no option; salsa explore --help tells them" % word)


def words_of(arguments):
    """All words of a run."""
    found, plain = options_of(arguments)
    if len(plain) != 5:
        raise Usage("explore takes 5 words besides options, METRIC BOUND CONFLICTS IN STEM, and not %d" % len(plain))
    found.metric, bounds, conflicts, found.input, found.stem = plain
    if not METRIC.fullmatch(found.metric):
        raise Usage("METRIC is abs, sabs, rel or ham, or one of these with /W, W from 1 to 64, not `%s`" % found.metric)
    found.bounds = bounds_of(bounds)
    found.conflicts = str(number_of(conflicts, "CONFLICTS", 1))
    if int(found.conflicts) > 100000:
        raise Usage("CONFLICTS is a decimal number from 1 to 100000, not `%s`" % conflicts)
    if not found.input or not found.stem or found.stem.endswith("/"):
        raise Usage("IN or STEM is empty, or STEM has no name")
    if found.is_without_abc and found.abc_path:
        raise Usage("--abc and --without-abc together are none")
    for it in stems(found):
        for ending in ENDINGS:
            if os.path.realpath(found.input) == os.path.realpath("%s.%s" % (it, ending)):
                raise Usage("IN is `%s`, a file of the bundle of STEM `%s`" % (found.input, it))
    if found.seconds is None and found.tries is None:
        found.seconds = DEFAULT_SECONDS
    return found


def stems(words):
    """The stem of each bound: STEM where there is one bound, else STEM, a low line and the bound."""
    if len(words.bounds) == 1:
        return [words.stem]
    return ["%s_%d" % (words.stem, it) for it in words.bounds]
