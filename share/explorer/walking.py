"""A walk in a process of its own: walking.py METRIC BOUND SEED PROGRAM CONFLICTS EXACT START MADE

MADE gets the netlist that a walk from START within BOUND of EXACT finds. Where it can't look at all vectors, PROGRAM judges.
Where it does not look at all of them in each step, it tells the greatest error of what it made.
"""
import os
import sys

sys.dont_write_bytecode = True
sys.path[0] = os.path.dirname(os.path.dirname(os.path.realpath(__file__)))

from explorer import netlist, walk


def net_at(path):
    """The net of a file."""
    with open(path, encoding="latin-1") as file:
        return netlist.net_of(file.read())


def judge_of(words, ports, made):
    """The program as the judge, where all vectors are too many."""
    if len(ports.inputs) <= walk.JUDGED_INPUTS:
        return None
    from explorer import judging
    return judging.Judge(words, ports, made)


def main(metric, bound, seed, program, conflicts, exact, start, made):
    """Walks, writes what was found, and tells its greatest error."""
    nets = [net_at(it) for it in (exact, start)]
    judge = judge_of([program, "certify", metric, bound, conflicts, exact], nets[0], made)
    walked = walk.Walk(*nets, metric, int(bound), int(seed), judge)
    found = walked.run()
    with open(made, "w", encoding="latin-1") as file:
        file.write(netlist.text_of(found.net(nets[0])))
    if walked.is_judged:
        print(walked.greatest() if judge is None else judge.maximum or "")


if __name__ == "__main__":
    main(*sys.argv[1:])
