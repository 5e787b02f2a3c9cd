"""The search at one bound: rounds of tries, the best of which are walked from or written in other ways, and refined again."""
import collections
import random
import time

from explorer import mapper, runners, trial, walk

# A round goes on from so many of the best results, from one of so many that come next, and from one of so many of the best that
# IN's writings left; and from so many of each smaller bound.
KEPT, NEAR, HANDED_ON = 2, 8, 3
# From each of these so many walks, and so many other writings; besides so many new orders of IN's writings.
WALKS, WAYS, FRESH = 3, 1, 4
# Rounds without gain behind which the search ends.
PATIENCE = 8
# The shares of what is left of a bound's seconds in which the first round and a later round may begin tries, or so many seconds
# where these are more. Those that run then may take as long again, and besides so many times what the first try took.
FIRST, LATER, LEAST, LONGER = 0.3, 0.2, 4, 4
# Of more inputs than a walk looks at all vectors of, `refine` may take longer than all walks. It is left out of rounds until one has
# ended that took no more than this share of a bound's seconds.
SLOW = 0.1
# Seconds between two looks at a try that is waited for.
PAUSE = 0.2

Try = collections.namedtuple("Try", "number round bound beginning order is_refined answer")


def key_of(recipe):
    return tuple(sorted(recipe.items()))


def depth_fits(one, most_depth):
    return most_depth is None or one.answer["depth"] <= most_depth


def rank(one):
    """What is less is better."""
    answer = one.answer
    return answer["area"], answer["depth"], answer["literals"], one.number


class Search:
    """All tries of a run, over its bounds from the least on."""

    def __init__(self, performed, options, tell):
        self.runner, self.options, self.tell = performed, options, tell
        self.tries, self.done, self.told = [], set(), set()
        self.planned = 0
        self.rewritings = [*trial.OWN, *(mapper.REWRITINGS if options.abc else ())]
        self.is_stopped = False
        self.end = self.asked = self.awaited = self.beside = None
        self.is_large = options.inputs > walk.MOST_INPUTS

    # What is tried.

    def recipe(self, bound, parent, rewriting, order, is_refined=True):
        return {"bound": str(bound), "parent": parent, "rewriting": rewriting, "order": order, "is_refined": is_refined}

    def fresh(self, bound):
        """Tries of IN's writings, as they are written."""
        return [self.recipe(bound, self.options.exact, it, "as it is") for it in self.rewritings]

    def fresh_at(self, bound, turn):
        """Tries of some of IN's writings in another order."""
        ways = [self.rewritings[(turn * FRESH + it) % len(self.rewritings)] for it in range(FRESH)]
        return [self.recipe(bound, self.options.exact, it, self.order(turn)) for it in ways]

    def walked(self, bound, parent, turn):
        """Tries of walks from what an earlier try is built as. Where a walk is judged, it is not refined."""
        first, net = self.options.seed + WALKS * turn, parent.answer["nets"]["built"]
        found = []
        for it in range(first, first + WALKS):
            how = ("as it is", False) if self.is_large else (self.order(it), True)
            found.append(self.recipe(bound, net, "%s%d" % (walk.NAME, it), *how))
        return found

    def from_built(self, bound):
        """Tries of walks from what IN is built as."""
        built = [it for it in self.tries if it.round == 0 and not it.answer["number"]]
        return [(it, one) for one in built[:1] for it in self.walked(bound, one, 0)]

    def order(self, turn):
        """An order that changes from turn to turn."""
        return ("topological", "shuffled %d" % (self.options.seed + turn), "turned round")[turn % 3]

    def onward(self, bound, parents, turn, number):
        """Tries that go on from earlier results: walks from what they are built as, and so many other writings."""
        found = [(it, parent) for parent in parents for it in self.walked(bound, parent, turn)]
        for at, parent in enumerate(parents):
            nets = parent.answer["nets"]
            # What was not refined, or within a smaller bound, is refined as it is.
            ways = self.rewritings if int(parent.bound) < bound or not parent.is_refined else self.rewritings[1:]
            begin = (turn * len(parents) + at) * number
            for place in range(begin, begin + number):
                name = nets["built" if (place + turn) % 2 else "result"]
                found.append((self.recipe(bound, name, ways[place % len(ways)], self.order(at + place + turn)), parent))
        return found

    # Rounds.

    def at(self, bound):
        """Searches at a bound, from IN and from the results of smaller bounds: what fits in, the best first."""
        self.end = time.monotonic() + self.options.seconds if self.options.seconds else None
        self.asked = self.options.tries
        self.bound = bound
        self.awaited = None
        below = self.handed_on(bound)
        self.round(0, [(self.recipe(bound, self.options.exact, "as it is", "as it is", False), None)])
        first = [(it, None) for it in self.fresh(bound)]
        # The first try is that of `synth`, which is waited for; where it may take long, beside the rounds.
        if self.begins_beside(first[0][0]):
            first = []
        elif not self.is_large:
            self.awaited = key_of(first[0][0])
        further = self.onward(bound, below, 0, WAYS) + self.from_built(bound) + first[1:]
        self.round(1, first[:1] + further, FIRST)
        self.awaited = None
        self.rounds(bound)
        self.wait_beside()
        return self.best(bound)

    def begins_beside(self, recipe):
        """Whether a try goes on beside the rounds from now on, as long as there are seconds."""
        if not self.is_large or self.end is None or self.asked is not None or not isinstance(self.runner, runners.Local):
            return False
        self.done.add(key_of(recipe))
        self.planned += 1
        self.beside = (self.planned, recipe)
        self.runner.begin_beside(recipe)
        return True

    def look(self):
        """Looks after what goes on beside the rounds: whether the run is stopped."""
        answer = self.beside and self.runner.taken_beside()
        if answer:
            (number, recipe), self.beside = self.beside, None
            self.add(number, 1, recipe, None, answer)
        return self.tell(self)

    def wait_beside(self):
        """Waits for the try beside the rounds, as long as there are seconds."""
        while self.beside and not self.look() and not self.is_over(self.end):
            time.sleep(PAUSE)
        self.beside = None
        self.runner.close()

    def handed_on(self, bound):
        """The best few of the two greatest smaller bounds."""
        rungs = sorted({int(it.bound) for it in self.tries if int(it.bound) < bound})
        return [it for rung in rungs[-2:] for it in self.best(rung, exactly=True)[:HANDED_ON]]

    def part_ends(self, share):
        """Until when tries of a round begin that has a share of what is left of the seconds, and until when they run."""
        if self.end is None or share is None:
            return self.end, self.end
        now = time.monotonic()
        part = max(share * (self.end - now), LEAST)
        longer = LONGER * max((it.answer["seconds"] for it in self.tries[:2] if not it.answer["number"]), default=0)
        return min(self.end, now + part), min(self.end, now + 2 * part + longer)

    def rounds(self, bound):
        """Rounds until several, one after another, have brought nothing."""
        turn, idle = 1, 0
        while idle < PATIENCE and not self.is_over(self.end) and self.asked != 0:
            turn += 1
            before = rank(self.best(bound)[0])[:1] if self.best(bound) else None
            parents = self.parents(self.best(bound) or self.best(bound, is_any_depth=True), turn)
            recipes = self.onward(bound, parents, turn, 0 if self.is_slow(bound) else WAYS)
            if not self.is_slow(bound):
                recipes += [(it, None) for it in self.fresh_at(bound, turn)]
            count = len(self.tries)
            self.round(turn, recipes, LATER)
            is_better = self.best(bound) and rank(self.best(bound)[0])[:1] != before
            idle = 0 if is_better else idle + 1
            if len(self.tries) == count and not parents:
                return

    def parents(self, best, turn):
        """The best few, one that is nearly as good, and one of those that IN's own writings left."""
        source, found = random.Random("parents %d %d" % (self.options.seed, turn)), best[:KEPT]
        own = [it for it in best if it.beginning.startswith("IN") and it.is_refined]
        for some in (best[KEPT:NEAR], own[:NEAR]):
            others = [it for it in some if it not in found]
            found += source.sample(others, min(1, len(others)))
        return found

    def is_slow(self, bound):
        """Whether walks alone go on, since `refine` takes too much of the seconds."""
        if not self.is_large or self.end is None:
            return False
        ended = [it.answer["seconds"] for it in self.tries
                 if it.is_refined and it.bound == str(bound) and not it.answer["number"]]
        return min(ended, default=self.options.seconds) > SLOW * self.options.seconds

    def is_over(self, until):
        """Whether nothing more is to be waited for."""
        now = time.monotonic()
        if self.is_stopped or (self.end is not None and now > self.end):
            return True
        return until is not None and self.awaited is None and now > until

    def is_at_end(self, until, end):
        """Whether the tries that run are waited for no longer, by their recipes. Of a large netlist walks alone are waited for, until
        the seconds are over, since nothing is left of one that is ended."""
        if not self.is_large:
            return lambda running: self.is_over(end)
        return lambda running: self.is_over(self.end) or (
            self.is_over(until) and not any(trial.is_walk(it["rewriting"]) for it in running))

    def round(self, number, recipes, share=None):
        """Performs what was not performed before, in a share of what is left of the seconds, and keeps what comes of it."""
        until, end = self.part_ends(share)
        is_at_end = self.is_at_end(until, end)
        beginnings, todo = {}, []
        for recipe, parent in recipes:
            if key_of(recipe) not in self.done:
                self.done.add(key_of(recipe))
                beginnings[key_of(recipe)] = parent
                todo.append(recipe)
        if self.asked is not None:
            todo = todo[:max(self.asked, number == 0)]
        if not todo or self.is_over(until):
            return
        # A try has the number of its place in the plan, whoever ends first, so that the same words find the same winner.
        numbers = {key_of(recipe): self.planned + at for at, recipe in enumerate(todo, 1)}
        self.planned += len(todo)
        for recipe, answer in self.runner.run(todo, lambda: self.look() or self.is_over(until), is_at_end):
            key = key_of(recipe)
            self.awaited = None if key == self.awaited else self.awaited
            self.add(numbers[key], number, recipe, beginnings[key], answer)

    def add(self, place, number, recipe, parent, answer):
        """One more try; what can't be used is told once."""
        beginning = "IN" if parent is None else "try %d" % parent.number
        if recipe["rewriting"] != "as it is":
            beginning += ", " + recipe["rewriting"]
        one = Try(place, number, recipe["bound"], beginning, recipe["order"], recipe["is_refined"], answer)
        self.tries.append(one)
        if self.asked is not None:
            self.asked -= number > 0
        if answer["number"] and (answer["number"], recipe["rewriting"]) not in self.told:
            self.told.add((answer["number"], recipe["rewriting"]))
            self.options.say("the beginning `%s` gives nothing: %s" % (beginning, answer["line"].removeprefix("salsa: ")))

    # What was found.

    def best(self, bound, exactly=False, is_any_depth=False):
        """The tries within a bound from the best on, one for each netlist that would be built."""
        most_depth = None if is_any_depth else self.options.most_depth
        fitting = [it for it in self.tries if not it.answer["number"] and depth_fits(it, most_depth)
                   and (it.bound == str(bound) if exactly else int(it.bound) <= bound)]
        found = {}
        for one in sorted(fitting, key=rank):
            found.setdefault(one.answer["nets"]["built"], one)
        return list(found.values())
