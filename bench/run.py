#!/usr/bin/env python3
"""Times the built program over long stimuli and a wide design, and prints ratios: run it after ./dessert --version has built the program.

Runs alternate, and a figure is the median of nine, in processor time. `wc -l` over the same bytes is the measure of reading alone.
"""
import os
import statistics
import subprocess
import tempfile

from common import COUNTER, PROGRAM, processor_time

MOST_ROWS = 1_048_576
MOST_SIGNALS = 64_000
RUNS = 9


def stimulus(folder, rows, row):
    path = os.path.join(folder, "%d-%s" % (rows, row.replace(" ", "")))
    with open(path, "w") as file:
        file.write("stimulus 1\ninputs rst en\n")
        file.write((row + "\n") * rows)
    return path


def design(folder, outputs):
    """A design of so many registers, each with a statement of its own, and a stimulus of one row for it."""
    path = os.path.join(folder, "%d.v" % outputs)
    with open(path, "w") as file:
        file.write("module wide(input clk" + "".join(", output reg [3:0] r%d" % n for n in range(outputs)) + ");\n")
        file.write("always @(posedge clk) begin\n" + "".join("r%d <= r%d + 4'd1;\n" % (n, n) for n in range(outputs)) + "end\nendmodule\n")
    row = os.path.join(folder, "row")
    with open(row, "w") as file:
        file.write("stimulus 1\ninputs\n\n")
    return [PROGRAM, "sim", path], row


def time(command, path):
    with open(path, "rb") as source:
        before = processor_time()
        subprocess.run(command, stdin=source, stdout=subprocess.DEVNULL, stderr=subprocess.DEVNULL)
        return processor_time() - before


def medians(runs):
    times = [[time(command, path) for command, path in runs] for _ in range(RUNS)]
    return [statistics.median(column) for column in zip(*times)]


def main():
    run = [PROGRAM, "sim", COUNTER]
    with tempfile.TemporaryDirectory() as folder:
        whole = stimulus(folder, MOST_ROWS, "0 0")
        half = stimulus(folder, MOST_ROWS // 2, "0 0")
        failing = stimulus(folder, MOST_ROWS, "0 1")
        lagging = run[:2] + ["lag=16384"] + run[2:]
        quiet, halved, early, lagged, lines = medians([(run, whole), (run, half), (run, failing), (lagging, whole), (["wc", "-l"], whole)])
        wide, narrow = medians([design(folder, MOST_SIGNALS), design(folder, MOST_SIGNALS // 2)])
    print("%d cycles: %.3f s, %.1f million cycles a second" % (MOST_ROWS, quiet, MOST_ROWS / quiet / 1e6))
    print("all rows / half of them: %.2f" % (quiet / halved))
    print("a failure in cycle 9 / none: %.2f" % (early / quiet))
    print("a lag of 16384 / of 64: %.2f" % (lagged / quiet))
    print("run / wc -l: %.1f" % (quiet / lines))
    print("a design of %d registers: %.3f s, to one of half as many: %.2f" % (MOST_SIGNALS, wide, wide / narrow))


if __name__ == "__main__":
    main()
