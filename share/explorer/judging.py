"""The proved program as the judge of a walk, where there are too many inputs to look at all vectors. What it certifies is a
bundle, which stays beside what the walk makes.
"""
import re
import resource
import subprocess

from explorer import netlist

# It has so many seconds of a processor: what needs more is taken for wrong.
SECONDS = 10
# What stands behind the name of what is made in the stem of its bundle.
BUNDLE = "_judged"


def limit():
    """Limits the seconds of a process that begins."""
    resource.setrlimit(resource.RLIMIT_CPU, (SECONDS, SECONDS))


class Judge:
    """Tells whether the program certifies a circuit, and in `maximum` what it says is the greatest error of the last one."""

    def __init__(self, words, ports, made):
        """The words are those of the program without the circuit and the stem; `made` is where a circuit with these ports is put."""
        self.words, self.ports, self.made = words, ports, made
        self.stem = made.removesuffix(".blif") + BUNDLE
        self.maximum = None

    def __call__(self, found):
        """Whether it does, and else the vector that it tells, with those that differ from it at one input."""
        with open(self.made, "w", encoding="latin-1") as file:
            file.write(netlist.text_of(found.net(self.ports)))
        ran = subprocess.run([*self.words, self.made, self.stem], stdin=subprocess.DEVNULL, capture_output=True,
                             check=False, preexec_fn=limit)
        if ran.returncode == 0:
            self.maximum = re.search(rb"^maximum (\d+)$", ran.stdout, re.M).group(1).decode()
            return True, []
        told = re.search(rb"error above the bound at ([01]+)", ran.stderr)
        if not told:
            return False, []
        vector = [bit - ord("0") for bit in told.group(1)]
        return False, [vector, *([bit ^ (at == place) for at, bit in enumerate(vector)] for place in range(len(vector)))]
