#!/usr/bin/env python3
"""Times the reader of stimulus texts over texts of one shape each, in bytes a second and nanoseconds a value: the best of nine runs.

The values are random, and what the program sums over them must be what is summed here. The program of stimulus.rattle is built by
`rt run` in a copy of the crates that it stands on; a word after the script's name is such a program that is built already.
"""
import os
import random
import sys
import tempfile

from common import built_of_rattle, lines_of

BELOW = ["dt_core", "dt_io", "stimulus"]
BYTES = 32_000_000
MOST_ROWS = 1_048_576

# inputs, and the bits of each
SHAPES = [(2, 1), (32, 1), (1024, 1), (16, 8), (16, 32), (16, 64), (8, 128), (1024, 128)]


def text_of(count, width):
    """The text, its rows, and the sum over their values."""
    choose = random.Random(1)
    parts, size, rows, total = ["stimulus 1\ninputs" + "".join(" i%d" % n for n in range(count)) + "\n"], 0, 0, 0
    while size < BYTES and rows < MOST_ROWS:
        values = [choose.getrandbits(width) for _ in range(count)]
        part = " ".join("%x" % value for value in values) + "\n"
        parts.append(part)
        size += len(part)
        rows += 1
        for value in values:
            total = (total * 31 + value % 65536) % 2 ** 64
    return "".join(parts), rows, total


def main():
    with tempfile.TemporaryDirectory() as folder:
        program = sys.argv[1] if len(sys.argv) > 1 else built_of_rattle(folder, "stimulus", BELOW)
        print("inputs  bits       MB/s   ns a value   ns a row")
        for count, width in SHAPES:
            text, rows, total = text_of(count, width)
            path = os.path.join(folder, "text")
            with open(path, "w") as file:
                file.write(text)
            runs = [line.split() for line in lines_of([program, path, str(count), str(width)])]
            if {tuple(run[:2]) for run in runs} != {(str(rows), str(total))}:
                sys.exit("%d inputs of %d bits: not the rows of the text" % (count, width))
            best = min(int(run[2]) for run in runs)
            print("%6d %5d %10.1f %12.2f %10.1f" % (count, width, len(text) / best * 1e3, best / rows / count, best / rows))


if __name__ == "__main__":
    main()
