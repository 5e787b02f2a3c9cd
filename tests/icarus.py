"""Icarus Verilog: simulates a design with one clock, for the scripts of this folder."""
import os
import subprocess

BENCH = """module bench;
    reg clock = 0;
    reg [{last}:0] vectors [0:{count} - 1];
    reg [{last}:0] now;
    integer at;
    {top} dut(.clock(clock), {ports});
    initial begin
        $readmemh("vectors.hex", vectors);
        for (at = 0; at < {count}; at = at + 1) begin
            now = vectors[at];
            #1 $display("{forms}", {probes});
            clock = 1;
            #1 clock = 0;
            #1;
        end
        $finish;
    end
endmodule
"""


def ran(folder, *words):
    """What a tool says; an error with that where it fails."""
    child = subprocess.run(words, cwd=folder, stdin=subprocess.DEVNULL, stdout=subprocess.PIPE, stderr=subprocess.STDOUT, text=True,
                           check=False)
    if child.returncode:
        raise ValueError("%s ended with %d: %s" % (words[0], child.returncode, child.stdout[-500:]))
    return child.stdout


def value_of(word):
    """The number that a word of hexadecimal digits is, or None where a bit of it is unknown."""
    return int(word, 16) if set(word.lower()) <= set("0123456789abcdef") else None


def simulated(folder, verilog, top, inputs, vectors, probes):
    """The values of the probes, names below the top module, before each clock: a list for each vector, which has a number for
    each input. An input is its name and its width."""
    last, ports = -1, []
    for name, width in inputs:
        ports.append(".%s(now[%d:%d])" % (name, last + width, last + 1))
        last += width
    bench = BENCH.format(last=last, count=len(vectors), top=top, ports=", ".join(ports), forms=" ".join(["%h"] * len(probes)),
                         probes=", ".join("dut." + it for it in probes))
    with open(os.path.join(folder, "bench.v"), "w", encoding="utf-8") as file:
        file.write(bench)
    with open(os.path.join(folder, "vectors.hex"), "w", encoding="utf-8") as file:
        for vector in vectors:
            word = 0
            for (_, width), value in zip(reversed(inputs), reversed(vector)):
                word = word << width | value
            file.write("%x\n" % word)
    ran(folder, "iverilog", "-g2012", "-o", "bench.vvp", "bench.v", verilog)
    told = ran(folder, "vvp", "-n", "bench.vvp")
    return [list(map(value_of, line.split())) for line in told.split("\n") if line and "$finish" not in line]
