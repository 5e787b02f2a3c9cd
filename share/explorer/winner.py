"""What was found becomes a bundle: the netlist as it is built is certified against IN, confirmed, and only then put in the
place of what stood there. A certificate may take longer than anybody waits, so each try has a time, and the best few are
certified side by side. Of large netlists the best so far is certified while the search goes on, so that something is certified
when its time is over.
"""
import collections
import concurrent.futures
import itertools
import os
import shutil
import signal
import tempfile
import time

from explorer import scratch
from explorer.children import Ended, Late
from explorer.runners import Beside
from explorer.trial import reports

# The netlist comes last: where it is new, the certificate beside it is new and whole. Were the renaming cut off before, the
# earlier netlist stands beside files that are not its own; `confirm` trusts none of them, so whichever files stand
# together, it verifies them only where they are right.
ORDER = ("cnf", "lrat", "wit", "txt", "blif")
# How many tries are certified, from the best on, and how many of the first ones that were made when none of those is.
MOST, FIRST = 20, 2
# A try has so many seconds, and so many times those of its search, where nothing is left of the seconds of the bound. A bound
# without seconds has so many for its certificates, the best tries have so many more together, and the first ones again.
LEAST, TIMES, MORE = 5, 3, 60
# Where something was certified while the search went on, what is better has this share of the seconds of the bound besides, and
# one of so many of the best is certified so.
SHARE, BEST = 0.15, 3


class Bundle:
    """Certifies the tries of one bound, from the best on, so many side by side, until a time if one is given."""

    def __init__(self, trial, stem, bound, say, jobs, until):
        self.trial, self.stem, self.bound, self.say, self.jobs = trial, stem, bound, say, jobs
        self.until = time.monotonic() + MORE if until is None else until
        self.is_last = False

    def of_best(self, tries, ahead=None, seconds=0):
        """The first try of which a bundle verifies, with its report and the job that verifies it, or None. The bundle is in
        its place then. What was certified ahead is taken where nothing better is in this share of so many seconds."""
        folder = folder_beside(self.stem)
        try:
            standing = ahead.ended() if ahead else None
            if standing:
                better = list(itertools.takewhile(lambda it: built(it) != built(standing.one), tries))
                self.until, self.is_last = max(self.until, time.monotonic() + max(LEAST, SHARE * seconds)), True
                found = self.of_many(better[:MOST], folder, self.until)
                if found is None:
                    self.put_in_place(standing.folder)
                return found or (standing.one, standing.report, standing.verified_by)
            found = self.of_many(tries[:MOST], folder, time.monotonic() + MORE)
            if found is None and len(tries) > FIRST:
                self.until = time.monotonic() + MORE
                found = self.of_many(sorted(tries, key=lambda it: it.number)[:FIRST], folder, self.until)
            return found
        finally:
            shutil.rmtree(folder, ignore_errors=True)

    def of_many(self, tries, folder, end):
        """The same of some tries, of which none is begun behind an end."""
        asked = [it for one in tries for it in self.candidates(one)]
        for at in range(0, len(asked), self.jobs):
            found = self.of_few(asked[at:at + self.jobs], folder) if time.monotonic() < max(end, self.until) else None
            if found:
                return found
        return None

    def candidates(self, one):
        """What may be certified of a try, each with the job, the name of its netlist, and how it is told: the netlist as it is
        built; and where the area is that of a clean-up, which changes no function, what the search left, whose certificate
        takes no longer than the search did, or is there already."""
        area, nets = self.trial.setting["area"], one.answer["nets"]
        left = ("refine", nets["start"]) if one.is_refined and one.bound == str(self.bound) else ("certify", nets["result"])
        if one.answer.get("bundle") and one.bound == str(self.bound):
            left = ("", one.answer["bundle"])
        found = [(one, "certify", built(one), "as it is built")]
        if area == "literals":
            # Literals are those that the program leaves, so its own bundle, which may say `minimal yes`, is taken.
            return [(one, *left, "as it is left")]
        return found + [(one, *left, "as it is left")] if area == "ands" else found

    def of_few(self, few, folder):
        """The first of a few candidates, which are certified side by side."""
        children = self.trial.children
        pool = concurrent.futures.ThreadPoolExecutor(len(few))
        try:
            asked = [(it, path, pool.submit(self.certified, it, path)) for it, path in
                     ((it, tempfile.mkdtemp(dir=folder)) for it in few)]
            for (one, _, _, how), path, answer in asked:
                told, why = answer.result()
                if told:
                    self.put_in_place(path)
                    return one, told, why
                self.say("bound %d: try %d, of area %s, is not taken %s: %s" % (
                    self.bound, one.number, one.answer["area"], how, why))
        except Ended:
            raise KeyboardInterrupt from None
        finally:
            children.close()
            pool.shutdown(wait=True, cancel_futures=True)
            children.open()
        return None

    def certified(self, candidate, folder):
        """The report of a bundle that is verified, and by which job; else None and why it is not."""
        until = self.until
        if not self.is_last:
            until = max(until, time.monotonic() + LEAST + TIMES * candidate[0].answer["seconds"])
        try:
            return self.verified(candidate, folder, until)
        except Late:
            return None, "it is not certified in the seconds that are left"

    def verified(self, candidate, folder, until):
        """The same, or an exception where the time is over."""
        words = [self.trial.setting["metric"], str(self.bound)]
        said, line = self.made(candidate, folder, until, words)
        if said is None:
            return None, line
        confirmed, line = self.run(folder, until, "confirm", *words, "in.blif", "out")
        if confirmed is None:
            return None, "`confirm` does not verify it: " + line
        return reports(said), self.strictest(folder, until, words)

    def made(self, candidate, folder, until, words):
        """The report of a bundle that is made in a folder, or None and why it is not. A try without a job has its bundle."""
        (_, job, second, _), net = candidate, self.trial.store.net
        scratch.put({"in.blif": self.trial.exact}, folder)
        if job:
            scratch.put({"second.blif": net(second)}, folder)
            return self.run(folder, until, job, *words, self.trial.setting["conflicts"], "in.blif", "second.blif", "out")
        files = {"out." + it: net(name, it) for it, name in second.items()}
        if None in files.values():
            return None, "its bundle is damaged"
        scratch.put(files, folder)
        return files["out.txt"].decode("latin-1"), ""

    def strictest(self, folder, until, words):
        """The strictest job that verifies the bundle, which `confirm` does."""
        try:
            return "confirm" if self.run(folder, until, "check", *words, "in.blif", "out")[0] is None else "check"
        except Late:
            return "confirm"

    def run(self, folder, until, *words):
        """What a job said by a time, or None and its line."""
        seconds = max(0.1, until - time.monotonic())
        number, said, told, _ = self.trial.children.run([self.trial.setting["program"], *words], folder, seconds)
        lines = [it.strip() for it in told.split("\n") if it.startswith("salsa: ")] or ["salsa: ended with %d" % number]
        return (said, "") if number == 0 else (None, lines[-1].removeprefix("salsa: "))

    def put_in_place(self, folder):
        """The files of the new bundle in the places of the earlier ones."""
        caught = (signal.SIGINT, signal.SIGTERM, signal.SIGHUP)
        before = signal.pthread_sigmask(signal.SIG_BLOCK, caught)
        try:
            for ending in ORDER:
                os.replace(os.path.join(folder, "out." + ending), "%s.%s" % (self.stem, ending))
        finally:
            signal.pthread_sigmask(signal.SIG_SETMASK, before)


Standing = collections.namedtuple("Standing", "one report verified_by folder")


class Ahead:
    """Certifies the best so far while the search goes on, one try at a time."""

    def __init__(self, trial, stem, bound):
        self.beside = Beside(trial)
        self.bundle = Bundle(self.beside.trial, stem, bound, None, 1, 0)
        self.folder = folder_beside(stem)
        self.seen, self.standing = set(), None

    def look(self, tries):
        """Begins with one of the best, in their order, where none is being certified, and keeps in mind what was."""
        if self.beside.runs():
            return
        self.standing = self.beside.taken() or self.standing
        for one in tries[:BEST]:
            if self.standing and built(one) == built(self.standing.one):
                return
            if built(one) not in self.seen:
                self.seen.add(built(one))
                self.beside.begin(self.certified, one)
                return

    def certified(self, one):
        """What stands of a try, or None."""
        try:
            # What has its bundle comes first.
            for candidate in sorted(self.bundle.candidates(one), key=lambda it: it[1]):
                folder = tempfile.mkdtemp(dir=self.folder)
                report, verified_by = self.bundle.certified(candidate, folder)
                if report:
                    return Standing(one, report, verified_by, folder)
        except Ended:
            pass
        return None

    def ended(self):
        """Ends what is being certified; the best that stands, or None."""
        self.beside.close()
        self.standing = self.beside.taken() or self.standing
        return self.standing

    def close(self):
        """Ends all, and takes the folder away."""
        self.beside.close()
        shutil.rmtree(self.folder, ignore_errors=True)


def built(one):
    """The name of the netlist as which a try is built."""
    return one.answer["nets"]["built"]


def folder_beside(stem):
    """A new folder on the device of a stem, from which files can be renamed."""
    parent, base = os.path.split(os.path.abspath(stem))
    return tempfile.mkdtemp(prefix=".%s." % base, dir=parent)
