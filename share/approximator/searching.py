"""The proved program and `explore` over the netlist of a module, and what they leave."""
import os
import re
import shutil
import signal
import subprocess
import sys
import termios

from approximator.tools import NO_PROGRAM, Refused, put_text, text_of

ENDINGS = ("blif", "cnf", "lrat", "wit", "txt")
EXPLORE = os.path.join(os.path.dirname(os.path.dirname(os.path.realpath(__file__))), "explore")
# For how long `explore` may take to end behind a signal before it is killed.
SECONDS_TO_END = 30
# How far a search is, as it shows on a terminal, and what it writes there to take that away.
SHOWN = re.compile(r"\r\x1b\[Ksalsa: ([^\r\n\x1b]+)(?=\r\x1b\[K)")
CLEAR = "\r\x1b[K"


def opened():
    """The two ends of what a search has as standard error: a terminal, on which it shows how far it is, where one can be made."""
    try:
        ours, theirs = os.openpty()
    except OSError:
        return os.pipe()
    made = termios.tcgetattr(theirs)
    made[1] &= ~termios.OPOST
    termios.tcsetattr(theirs, termios.TCSANOW, made)
    return ours, theirs


def followed(source, line):
    """What a search writes to standard error, and how far it was; that is shown in the line while it runs."""
    heard, last = "", ""
    while True:
        try:
            piece = os.read(source, 65536)
        except OSError:
            piece = b""
        if not piece:
            return SHOWN.sub("", heard).replace(CLEAR, ""), last
        heard += piece.decode(errors="replace")
        for it in SHOWN.findall(heard)[-1:]:
            last = it
            line.follow(it)


def run_program(tools, name, job, scratch):
    """Runs the program on the netlist of a module; a refusal with its line and its number where it does not end well."""
    ours, theirs = opened()
    environment = {it: value for it, value in os.environ.items() if it != "SALSA_QUIET"}
    try:
        with subprocess.Popen([tools.program, *job], stdin=subprocess.DEVNULL, stdout=subprocess.PIPE, stderr=theirs, env=environment,
                              cwd=os.path.join(scratch, "new"), text=True, errors="replace") as child:
            try:
                os.close(theirs)
                heard, last = followed(ours, tools.line)
                said = child.stdout.read()
            except BaseException:
                child.kill()
                raise
    except OSError:
        raise Refused(NO_PROGRAM, "the program `%s` can't be run" % tools.program) from None
    finally:
        os.close(ours)
    refuse_failed(name, job[0], child.returncode, heard, last)
    return said


def refuse_failed(name, job, number, heard, last):
    if number:
        status = number if number > 0 else 128 - number
        lines = ["module `%s`: `salsa %s` ended with %d" % (name, job, status)]
        if status == 4:
            lines[0] += "; a larger `salsa_conflicts`, a larger bound or a smaller module may do"
            lines += ["what was known: " + last] if last else []
        raise Refused(status, *lines, heard=heard)


def report_of(said):
    return {line.split(" ")[0]: line.split(" ")[1:] for line in said.split("\n") if line}


def explore(tools, name, words, options, stem, scratch):
    """Runs `salsa explore` with these words, and moves the bundle of its winner to the stem: its report."""
    folder = os.path.join(scratch, "explored", name)
    os.makedirs(folder)
    job = [sys.executable, EXPLORE, tools.program, *words, os.path.join(folder, "best"), *options]
    # In a session of its own, so that an interrupt from the terminal comes to us alone.
    ours, theirs = opened()
    child = subprocess.Popen(job, stdin=subprocess.DEVNULL, stdout=subprocess.DEVNULL, stderr=theirs,
                             cwd=os.path.join(scratch, "new"), start_new_session=True)
    os.close(theirs)
    try:
        heard, last = followed(ours, tools.line)
        child.wait()
    except BaseException:
        end(child)
        raise
    finally:
        os.close(ours)
    refuse_failed(name, "explore", child.returncode, heard, last)
    for it in ENDINGS:
        os.replace("%s/best.%s" % (folder, it), os.path.join(scratch, "new", "%s.%s" % (stem, it)))
    # A netlist that went through other tools may have their name; no certificate speaks of it.
    text = text_of(scratch, "new", stem + ".blif")
    put_text(re.sub(r"^\.model .*$", lambda _: ".model " + name, text, count=1, flags=re.M), scratch, "new", stem + ".blif")
    os.replace(folder + "/best.tries.tsv", os.path.join(scratch, "new", name + ".tries.tsv"))
    shutil.rmtree(folder)
    return report_of(text_of(scratch, "new", stem + ".txt"))


def end(child):
    """Ends `explore`: the first signal ends its search, the second one the run, with all that it started."""
    for _ in range(2 * SECONDS_TO_END):
        child.send_signal(signal.SIGTERM)
        try:
            child.wait(0.5)
            return
        except subprocess.TimeoutExpired:
            pass
    child.kill()
    child.wait()


def verified_by(tools, name, mark, reference, stem, scratch):
    """Verifies a bundle: by `check` where it has no more tables and literals than its reference, else by `confirm`."""
    report = report_of(text_of(scratch, "new", stem + ".txt"))
    is_larger = any(int(report[it][1]) > int(report[it][0]) for it in ("tables", "literals"))
    job = "confirm" if is_larger else "check"
    run_program(tools, name, [job, mark.metric, mark.bound, reference, stem], scratch)
    return job
