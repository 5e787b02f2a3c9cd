"""One try: a netlist is written in another way, its tables are put in an order, the program refines it, and what is left is
built and measured. Each step is a question to the store before it is computed.
"""
import os
import sys

from explorer import errors, graph, judging, mapper, netlist, scratch, store, walk
from explorer.words import ENDINGS

# Ways of writing that need no other tool.
OWN = ("as it is", "ANDs", "hashed", "hashed, turned")
# What is run for a walk.
WALKING = os.path.join(os.path.dirname(os.path.realpath(__file__)), "walking.py")
# The program's answers that the same question always gets.
LASTING = (0, 2, 4, 11, 12, 13, 14)
FAILED = 26


class Answered(Exception):
    """The program ended with another number than 0."""

    def __init__(self, number, line):
        super().__init__(line)
        self.number, self.line = number, line


def reports(said):
    """The facts of a report by their names."""
    return {words[0]: words[1:] for words in map(str.split, said.split("\n")) if words}


def is_walk(rewriting):
    return rewriting.startswith(walk.NAME)


def net_of(data):
    """The net that bytes say."""
    return netlist.net_of(data.decode("latin-1"))


def bytes_of(net):
    """The bytes of a net."""
    return netlist.text_of(net).encode("latin-1")


class Trial:
    """Performs tries by a setting, which says all but the recipe: program, metric, conflicts, exact netlist, area, tools,
    seed. A recipe says bound, parent, rewriting, order, and whether it is refined."""

    def __init__(self, setting, kept, children):
        self.setting, self.store, self.children = setting, kept, children
        self.mapper = mapper.Mapper(setting["abc"], children) if setting["abc"] else None
        self.exact = kept.net(setting["exact"])
        self.library = None
        if setting["library"]:
            self.library = (setting["library"], kept.net(setting["library_bytes"]))
        self.judge = None

    def net(self, name):
        """The net of a name."""
        return net_of(self.store.net(name))

    def beside(self, children):
        """The same trial with other processes."""
        return Trial(self.setting, self.store, children)

    def inputs(self):
        """How many inputs IN has."""
        return len(self.net(self.setting["exact"]).inputs)

    # Questions.

    def question(self, kind, **asked):
        """A question with all that its answer hangs on; the format's number changes with the code of this folder."""
        return dict(asked, format=store.FORMAT, kind=kind)

    def try_question(self, recipe):
        """What names a try: everything but where the tools stand."""
        setting = {key: it for key, it in self.setting.items() if key not in ("abc", "program")}
        return self.question("try", setting=setting, recipe=recipe)

    def answer(self, question, computed):
        """The answer that is kept, or the one that is computed, and then kept where it lasts."""
        found = self.store.answer(question)
        if found is None:
            found = computed()
            if found.get("number", 0) in LASTING:
                self.store.keep(question, found)
        return found

    # The steps.

    def program(self, job, files, *words):
        """Runs a job in a folder of its own, in which stand the files: its report, what of `out.blif` or `out` it wrote,
        seconds, and of a large netlist the bundle of `refine`, which may take as long to certify again."""
        with scratch.folder_with(files) as folder:
            number, said, told, seconds = self.children.run([self.setting["program"], job, *words], folder)
            if number:
                lines = [it for it in told.split("\n") if it.startswith("salsa: ")] or [told.strip() or "no line"]
                raise Answered(number if number > 0 else 128 - number, lines[-1].strip())
            made = "out.blif" if job in ("refine", "certify") else "out"
            bundle = self.kept_bundle(os.path.join(folder, "out")) if job == "refine" and self.inputs() > walk.MOST_INPUTS else {}
            return said, scratch.bytes_of(os.path.join(folder, made)), seconds, bundle

    def written(self, rewriting, parent, bound):
        """A netlist of the same function, written in another way, or one that a walk within the bound finds; of a walk that was
        judged, with its greatest error and its seconds."""
        if rewriting == "as it is":
            return {"nets": {"made": parent}}
        if is_walk(rewriting):
            by = [self.setting[it] for it in ("metric", "exact", "conflicts", "program_bytes")] + [bound]
        elif rewriting in OWN:
            by = self.setting["program_bytes"] if rewriting == "ANDs" else ""
        else:
            by = [self.setting["abc_bytes"], mapper.REWRITINGS[rewriting]]
        asked = self.question("rewrite", rewriting=rewriting, by=by, net=parent)

        def computed():
            data = self.store.net(parent)
            made, told = self.walked(rewriting, data, bound) if is_walk(rewriting) else (self.rewrite(rewriting, data), {})
            return {"nets": {"made": self.store.keep_net(made)}, **told}

        return self.answer(asked, computed)

    def walked(self, rewriting, data, bound):
        """What a walk, which has a process of its own, finds within the bound, and what it tells of it."""
        with scratch.folder_with({"in.blif": self.exact, "start.blif": data}) as folder:
            words = [self.setting["metric"], bound, rewriting.removeprefix(walk.NAME), self.setting["program"],
                     self.setting["conflicts"], "in.blif", "start.blif", "out.blif"]
            number, said, told, seconds = self.children.run([sys.executable, "-S", WALKING, *words], folder)
            if number:
                raise Answered(FAILED, "salsa: the walk failed: %s" % (told.strip() or "no line").split("\n")[-1])
            made = scratch.bytes_of(os.path.join(folder, "out.blif"))
            bundle = self.kept_bundle(os.path.join(folder, "out" + judging.BUNDLE))
            return made, {"maximum": said.strip(), "seconds": round(seconds, 3), "bundle": bundle}

    def kept_bundle(self, stem):
        """The names of the files of a bundle by their endings, which are kept then; none where it is not there."""
        paths = {it: "%s.%s" % (stem, it) for it in ENDINGS}
        if not all(map(os.path.exists, paths.values())):
            return {}
        return {it: self.store.keep_net(scratch.bytes_of(path), it) for it, path in paths.items()}

    def rewrite(self, rewriting, data):
        """The same function, written in a way."""
        if rewriting == "ANDs":
            ands = self.program("aag", {"in.blif": data}, "in.blif", "out")[1]
            return self.program("blif", {"in.aag": ands}, "in.aag", "out")[1]
        if rewriting in OWN:
            net = net_of(data)
            return bytes_of(graph.hashed(net, rewriting == "hashed, turned")[0])
        return self.mapper.rewritten(rewriting, data)

    def ordered(self, order, name):
        """The name of the netlist with its tables in another order."""
        if order == "as it is":
            return name
        net = self.net(name)
        return self.store.keep_net(bytes_of(netlist.in_order(net, order)))

    def refined(self, bound, start):
        """What the program leaves of a beginning."""
        setting = self.setting
        words = (setting["metric"], bound, setting["conflicts"])
        asked = self.question("refine", program=setting["program_bytes"], words=words, exact=setting["exact"], start=start)

        def computed():
            files = {"in.blif": self.exact, "start.blif": self.store.net(start)}
            try:
                said, net, seconds, bundle = self.program("refine", files, *words, "in.blif", "start.blif", "out")
            except Answered as ended:
                return {"number": ended.number, "line": ended.line, "nets": {}}
            report = reports(said)
            return {"number": 0, "line": "", "nets": {"result": self.store.keep_net(net)}, "maximum": report["maximum"][0],
                    "minimal": report["minimal"][0], "seconds": round(seconds, 3), "bundle": bundle}

        asked["words"] = list(words)
        return self.answer(asked, computed)

    def built(self, name):
        """The area and the depth of a netlist, and the netlist as it is built."""
        setting = self.setting
        by = [setting["abc_bytes"], *mapper.BUILDINGS[setting["area"]]] if self.mapper and setting["area"] != "literals" else ""
        asked = self.question("build", area=setting["area"], by=by, library=setting["library_bytes"], net=name)

        def computed():
            area, depth, made = self.build(self.store.net(name))
            return {"area": area, "depth": depth, "nets": {"built": self.store.keep_net(made)}}

        return self.answer(asked, computed)

    def build(self, data):
        """The area, the depth, and the netlist as it is built."""
        area = self.setting["area"]
        if area == "literals" or not self.mapper:
            net = net_of(data)
            if area == "literals":
                return netlist.literals_of(net), netlist.depth_of(net), data
            made, ands, depth = graph.smaller(net)
            return ands, depth, bytes_of(made)
        return self.mapper.built(area, data, self.library)

    def errors(self, name):
        """The mean error and the error rate by simulation, and of how many vectors."""
        setting = self.setting
        asked = self.question("errors", metric=setting["metric"], exact=setting["exact"], seed=setting["seed"], net=name)

        def computed():
            self.judge = self.judge or errors.Judge(self.net(self.setting["exact"]), setting["metric"], setting["seed"])
            mean, rate = self.judge.errors_of(self.net(name))
            return {"mean": mean, "rate": rate, "vectors": self.judge.vectors, "are_all": self.judge.are_all, "nets": {}}

        return self.answer(asked, computed)

    # The try.

    def perform(self, recipe):
        """The answer of a try, with whether it was kept from an earlier run."""
        asked = self.try_question(recipe)
        kept = self.store.answer(asked)
        if kept is not None:
            return dict(kept, is_kept=True)
        return dict(self.answer(asked, lambda: self.computed(recipe)), is_kept=False)

    def computed(self, recipe):
        """The answer of a try that was not kept."""
        try:
            written = self.written(recipe["rewriting"], recipe["parent"], recipe["bound"])
            start = self.ordered(recipe["order"], written["nets"]["made"])
            found = self.refined(recipe["bound"], start) if recipe["is_refined"] else self.unrefined(start, written)
            if found["number"]:
                return dict(found, nets={"start": start})
            result = found["nets"]["result"]
            built = self.built(result)
        except Answered as ended:
            return {"number": ended.number, "line": ended.line, "nets": {}}
        except (mapper.Failed, netlist.NoNetlist, KeyError) as failed:
            return {"number": FAILED, "line": "salsa: %s" % failed, "nets": {}}
        literals = netlist.literals_of(self.net(result))
        nets = {"start": start, "result": result, "built": built["nets"]["built"]}
        told = {key: it for key, it in self.errors(result).items() if key != "nets"}
        return dict(found, nets=nets, area=built["area"], depth=built["depth"], literals=literals, **told)

    def unrefined(self, start, written):
        """A netlist as it was written: of the exact function, or what a walk tells of it."""
        return {"number": 0, "line": "", "nets": {"result": start}, "maximum": written.get("maximum", "0"), "minimal": "no",
                "seconds": written.get("seconds", 0.0), "bundle": written.get("bundle", {})}

