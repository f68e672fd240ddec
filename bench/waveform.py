#!/usr/bin/env python3
"""Times tools/stimulus_from_vcd.py on long dumps, and prints MB of dump a second and peak memory.

The dumps are made here, in the form of Icarus Verilog; a `Shape` says of what. A figure is the median of three runs, in processor time.
Memory is that of GNU time, and is left out without it.
"""
import os
import random
import re
import statistics
import subprocess
import sys
import tempfile
from dataclasses import dataclass

from common import TOP, processor_time

TOOL = os.path.join(TOP, "tools", "stimulus_from_vcd.py")
GNU_TIME = "/usr/bin/time"
FEW_ROWS = 10_000
RUNS = 3


@dataclass(frozen=True)
class Shape:
    """A dump of so many rows: inputs of one bit and of 32, other signals of 16 bits, and how many of each change in a cycle."""

    title: str
    rows: int
    bits: int
    bits_change: int
    words: int
    words_change: int
    others: int = 0
    others_change: int = 0

    def inputs(self):
        return ["bit%d" % n for n in range(self.bits)] + ["word%d" % n for n in range(self.words)]

    def signals(self):
        """The name and width of each signal, in order of their codes; the clock is the first."""
        widths = [1] * (1 + self.bits) + [32] * self.words + [16] * self.others
        return list(zip(["clk"] + self.inputs() + ["other%d" % n for n in range(self.others)], widths))


SHAPES = [
    Shape("inputs alone", 1_000_000, bits=8, bits_change=2, words=2, words_change=1),
    Shape("inputs among others", 1_000_000, bits=8, bits_change=2, words=2, words_change=1, others=40, others_change=10),
    Shape("one-bit inputs alone", 200_000, bits=64, bits_change=32, words=0, words_change=0),
]


def code(number):
    return chr(33 + number) if number < 94 else code(number // 94 - 1) + chr(33 + number % 94)


def header(shape):
    yield "$timescale 1ns $end\n$scope module tb $end\n$scope module dut $end\n"
    for number, (name, width) in enumerate(shape.signals()):
        yield "$var wire %d %s %s%s $end\n" % (width, code(number), name, " [%d:0]" % (width - 1) if width > 1 else "")
    yield "$upscope $end\n$upscope $end\n$enddefinitions $end\n#0\n$dumpvars\n"
    for number, (_, width) in enumerate(shape.signals()):
        yield "0%s\n" % code(number) if width == 1 else "b0 %s\n" % code(number)
    yield "$end\n"


def changes(choose, first, count, width, changing):
    """Values by chance of so many of the signals from a first number on, each of them once."""
    for number in choose.sample(range(first, first + count), changing):
        value = bin(choose.getrandbits(width))[2:]
        yield "%s%s\n" % (value, code(number)) if width == 1 else "b%s %s\n" % (value, code(number))


def cycles(shape, rows):
    """The changes of so many cycles: an edge at 10t + 5, and what is driven by it at the same time."""
    choose = random.Random(1)
    for cycle in range(rows):
        yield "#%d\n1!\n" % (10 * cycle + 5)
        yield from changes(choose, 1, shape.bits, 1, shape.bits_change)
        yield from changes(choose, 1 + shape.bits, shape.words, 32, shape.words_change)
        yield from changes(choose, 1 + shape.bits + shape.words, shape.others, 16, shape.others_change)
        yield "#%d\n0!\n" % (10 * cycle + 10)


def write_dump(folder, shape, rows):
    path = os.path.join(folder, "%s-%d.vcd" % (shape.title.replace(" ", "-"), rows))
    with open(path, "w") as file:
        file.writelines(header(shape))
        file.writelines(cycles(shape, rows))
    return path


def command(shape, path):
    return [sys.executable, TOOL, "--scope", "tb.dut", "--clock", "clk", "--inputs", ",".join(shape.inputs()), path]


def seconds(shape, path):
    before = processor_time()
    subprocess.run(command(shape, path), check=True, stdout=subprocess.DEVNULL, stderr=subprocess.DEVNULL)
    return processor_time() - before


def kilobytes(shape, path):
    run = [GNU_TIME, "-f", "%M"] + command(shape, path)
    done = subprocess.run(run, stdout=subprocess.DEVNULL, stderr=subprocess.PIPE, text=True)
    return int(re.findall(r"\d+", done.stderr)[-1])


def main():
    print("dump                       rows        MB   seconds  MB a second  peak memory, KiB  of %d rows" % FEW_ROWS)
    for shape in SHAPES:
        with tempfile.TemporaryDirectory() as folder:
            path, few = write_dump(folder, shape, shape.rows), write_dump(folder, shape, FEW_ROWS)
            size = os.path.getsize(path) / 1e6
            time = statistics.median(seconds(shape, path) for _ in range(RUNS))
            print("%-20s %10d %9.1f %9.1f %12.1f" % (shape.title, shape.rows, size, time, size / time), end="")
            if os.path.exists(GNU_TIME):
                print(" %17d %14d" % (kilobytes(shape, path), kilobytes(shape, few)), end="")
            print(flush=True)


if __name__ == "__main__":
    main()
