"""Who performs the tries: threads of this process, GNU parallel, or an array job of Slurm. Nothing here distributes; a job
is a line that calls `explore --try FILE`, and its answer is what the store then has.
"""
import concurrent.futures
import json
import os
import shlex
import signal
import subprocess
import threading
import time

from explorer import store, streams
from explorer.children import Children, Ended, end

PAUSE = 0.2
# Seconds that an answer from another machine may take to be seen, behind the end of its job.
GRACE = 3.0
# The most elements of an array job; each performs several lines where there are more.
MOST_ELEMENTS = 1000


class NoRunner(Exception):
    """A tool that was asked for is missing, or failed."""


class Beside:
    """One thing that is done beside the rounds, which none of them ends, with processes of its own."""

    def __init__(self, trial):
        self.children = Children()
        self.trial = trial.beside(self.children)
        self.pool = concurrent.futures.ThreadPoolExecutor(1)
        self.asked = None

    def begin(self, performed, *words):
        """Begins with it."""
        self.asked = self.pool.submit(performed, *words)

    def runs(self):
        """Whether it is being done."""
        return self.asked is not None and not self.asked.done()

    def taken(self):
        """What came of it, where it has ended and was not taken before; else None."""
        if self.asked is None or self.runs():
            return None
        asked, self.asked = self.asked, None
        return asked.result()

    def close(self):
        """Ends it."""
        self.children.close()
        self.pool.shutdown(wait=True, cancel_futures=True)


class Local:
    """So many threads, each of which waits for the processes of its try. One try may go on beside the rounds."""

    def __init__(self, trial, jobs):
        self.trial, self.jobs = trial, jobs
        self.beside = None

    def begin_beside(self, recipe):
        """Begins with a try that no round ends."""
        self.beside = Beside(self.trial)
        self.beside.begin(performed, self.beside.trial, recipe)

    def taken_beside(self):
        """The answer of this try, where it has ended and was not taken before; else None."""
        return self.beside.taken() if self.beside else None

    def close(self):
        """Ends the try beside the rounds."""
        if self.beside:
            self.beside.close()
            self.beside = None

    def run(self, recipes, is_over, is_at_end):
        """Pairs of a recipe and its answer, as they come. None is begun when it is over, and none is waited for where those that
        run are at their end."""
        self.trial.children.open()
        jobs = max(1, self.jobs - 1) if self.beside and self.beside.runs() else self.jobs
        pool = concurrent.futures.ThreadPoolExecutor(jobs)
        waiting = {pool.submit(performed, self.trial, recipe): recipe for recipe in recipes}
        try:
            while waiting and not is_at_end(waiting.values()):
                if is_over():
                    waiting = {it: recipe for it, recipe in waiting.items() if not it.cancel()}
                done, _ = concurrent.futures.wait(waiting, PAUSE, concurrent.futures.FIRST_COMPLETED)
                for it in done:
                    recipe, answer = waiting.pop(it), it.result()
                    if answer is not None:
                        yield recipe, answer
        finally:
            self.trial.children.close()
            pool.shutdown(wait=True, cancel_futures=True)
            self.trial.children.open()


def performed(trial, recipe):
    """The answer of a try, or None where it was ended."""
    try:
        return trial.perform(recipe)
    except Ended:
        return None


class Remote:
    """Writes the tries as lines of a job file, starts what runs them, and gathers their answers from the store."""

    def __init__(self, trial, jobs, words, script):
        self.trial, self.jobs, self.words, self.script = trial, jobs, words, script
        self.round = 0

    def close(self):
        """Each round has ended what it began."""

    def run(self, recipes, is_over, is_at_end):
        """Pairs of a recipe and its answer, as they come, until it is over and those that are left are at their end: which of them
        run already is not known here."""
        left = {}
        for recipe in recipes:
            asked = self.trial.try_question(recipe)
            kept = self.trial.store.answer(asked)
            if kept is not None:
                yield recipe, dict(kept, is_kept=True)
            else:
                left[store.key_of(asked)] = (recipe, asked)
        if not left:
            return
        file = self.job_file(left)
        child = self.started(file, len(left))
        forwarding = threading.Thread(target=forward, args=(child.stderr,), daemon=True)
        forwarding.start()
        ended = None
        try:
            while left and not (is_over() and is_at_end([recipe for recipe, _ in left.values()])):
                if ended is None and child.poll() is not None:
                    ended = time.monotonic()
                for key in list(left):
                    recipe, asked = left[key]
                    answer = self.trial.store.answer(asked)
                    if answer is not None:
                        del left[key]
                        yield recipe, dict(answer, is_kept=False)
                if ended is not None and time.monotonic() - ended >= self.grace():
                    break
                time.sleep(PAUSE)
            if left and ended is not None:
                self.refuse_failure(child)
            for recipe, _ in left.values() if ended is not None else ():
                yield recipe, {"number": 26, "line": "salsa: a job left no answer", "nets": {}, "is_kept": False}
        finally:
            self.stop(child, is_done=not left)

    def job_file(self, left):
        """The file of lines, each of which performs one try, with a file for each try beside it."""
        self.round += 1
        for key, (recipe, _) in left.items():
            task = json.dumps({"setting": self.trial.setting, "recipe": recipe}, indent=1)
            self.trial.store.write(key + ".try", task.encode())
        lines = [shlex.join([self.script, "--try", self.trial.store.path(key + ".try")]) for key in left]
        self.trial.store.write("jobs.%d" % self.round, ("\n".join(lines) + "\n").encode())
        return self.trial.store.path("jobs.%d" % self.round)

    def grace(self):
        """Only where other machines may be at work, answers may come later than the end of their jobs."""
        return GRACE if self.words else 0.0

    def stop(self, child, is_done):
        """Ends what runs the jobs, where it still runs; where all is done it ends by itself."""
        if is_done:
            try:
                child.wait(60)
            except subprocess.TimeoutExpired:
                pass
        for _ in range(2):
            if child.poll() is None:
                child.send_signal(signal.SIGTERM)
                try:
                    child.wait(5)
                except subprocess.TimeoutExpired:
                    pass
        end(child)
        child.wait()

    def refuse_failure(self, child):
        """Refuses what ended by itself and failed; else only the store says what was done."""


def forward(source):
    """Hands on what a runner says, line by line."""
    for line in source:
        streams.tell(line)


def begun(words, **how):
    """A process in a group of its own."""
    try:
        return subprocess.Popen(words, stderr=subprocess.PIPE, text=True, errors="replace", start_new_session=True, **how)
    except OSError:
        raise NoRunner("`%s` can't be run" % words[0]) from None


class Parallel(Remote):
    """GNU parallel, with the words that were given behind `--`."""

    def started(self, file, _):
        words = ["parallel", "--will-cite", *(["--jobs", str(self.jobs)] if self.jobs else []), *self.words]
        with open(file, encoding="utf-8") as lines:
            return begun(words, stdin=lines, stdout=subprocess.DEVNULL)

    def refuse_failure(self, child):
        if child.returncode == 255:
            raise NoRunner("GNU parallel failed; its own message stands before")


class Slurm(Remote):
    """An array job, which `sbatch --wait` waits for."""

    def started(self, file, count):
        """The process of `sbatch` over a file of so many lines."""
        elements = min(count, MOST_ELEMENTS)
        script = file + ".sbatch"
        text = ('#!/bin/sh\n#SBATCH --array=1-%d\n#SBATCH --output=/dev/null\n'
                '# Each element performs its line of the job file, and each %dth behind it.\n'
                'awk -v first="$SLURM_ARRAY_TASK_ID" \'NR %% %d == first %% %d\' %s | sh\n'
                % (elements, elements, elements, elements, shlex.quote(file)))
        self.trial.store.write(os.path.basename(script), text.encode())
        self.number = None
        child = begun(["sbatch", "--wait", "--parsable", *self.words, script], stdin=subprocess.DEVNULL, stdout=subprocess.PIPE)
        threading.Thread(target=self.read_number, args=(child.stdout,), daemon=True).start()
        return child

    def grace(self):
        return GRACE

    def read_number(self, source):
        for line in source:
            self.number = self.number or line.strip().partition(";")[0]

    def stop(self, child, is_done):
        if child.poll() is None and self.number and not is_done:
            try:
                subprocess.run(["scancel", self.number], stdin=subprocess.DEVNULL, check=False)
            except OSError as error:
                streams.tell("salsa: `scancel %s` can't be run: %s\n" % (self.number, error.strerror))
        super().stop(child, is_done)

    def refuse_failure(self, child):
        if child.returncode > 0 and not self.number:
            raise NoRunner("sbatch failed; its own message stands before")
