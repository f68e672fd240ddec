#!/usr/bin/env python3
"""Times the readers of a design's text on a file of 4 MiB: `preprocess` (clean text) and `lex` (tokens), in bytes of the file a second.

Beside them stand the same work in plain Rust (reading.rs, by `rustc -O`), whose clean text and tokens must agree, and the preprocessors
of Icarus Verilog and Verilator, as whole processes in processor time. A peer that isn't installed is left out. Each time is the best of
nine. The program of reading.rattle is built by `rt run` in a copy of the crates that it stands on, so nothing of it stands in the
repository's crates.
"""
import os
import random
import shutil
import subprocess
import sys
import tempfile

from common import built_of_rattle, built_of_rust, lines_of, processor_time

MOST = 4_194_304
RUNS = 9
BELOW = ["dt_core", "vl_tree", "vl_pre", "vl_lex"]

MODULE = """\
// Stage {n}: adds what comes in to what it holds, and is cleared by `rst`.
`define WIDTH_{n} {width}
`define CLEARED  {{`WIDTH_{n}{{1'b0}}}}   // what the stage holds at first
/* The limits of this stage are {limit} and 'h{mask:x}; a value above them
   is cut, as clause 5.4 says of assignments. */
module stage_{n}(input clk, input rst, input [`WIDTH_{n}-1:0] data_in, output reg [`WIDTH_{n}-1:0] data_out);
  reg [`WIDTH_{n}-1:0] held_{n};
  wire is_over = held_{n} > `WIDTH_{n}'h{mask:x} && data_in != {width}'b{bits:b};
`ifdef NEVER_DEFINED
  // nothing of this is read: {limit}
  assign held_{n} = data_in << 3;
`elsif ALSO_NEVER
  assign held_{n} = "a string with a ` in it";
`else
  always @(posedge clk) begin
    if (rst)
      held_{n} <= `CLEARED;
    else if (is_over == 1'b1 || data_in[{bit}] === 1'bx)
      held_{n} <= held_{n} + 32'd{limit} - 16'o{octal:o};
    data_out <= (held_{n} ^ ~data_in) >>> 4'd{bit};
    if (held_{n} == {width}'hz{mask:x}) begin
      $display("stage {n}: %0d is above %h\\n", held_{n}, data_in);
      $stop;
    end
  end
`endif
endmodule
`undef WIDTH_{n}
`undef CLEARED

"""


def source_text():
    """A text of modules with comments, macros, conditions, strings and numbers in each base, and of 4 MiB at most."""
    choose = random.Random(1)
    parts, size, n = ["`timescale 1ns / 1ps\n"], 21, 0
    while True:
        n += 1
        part = MODULE.format(n=n, width=choose.randint(8, 64), limit=choose.getrandbits(20), mask=choose.getrandbits(28),
                             bits=choose.getrandbits(7), bit=choose.randint(1, 7), octal=choose.getrandbits(14))
        if size + len(part) > MOST:
            return "".join(parts)
        parts.append(part)
        size += len(part)


def texts_of_one_kind():
    """Texts of nothing but what a reader may be slow at, of 2 MiB each."""
    size = MOST // 2
    return {
        "blanks": " " * size,
        "line comments": "//x\n" * (size // 4),
        "skipped text": "`ifdef NONE\n" + "x" * size + "\n`endif\n",
        "definitions": "".join("`define n%d x\n" % n for n in range(size // 18)),
        "uses that give nothing": "`define n\n" + "`n\n" * (size // 3),
        "uses that give a name": "`define n x \n" + "`n\n" * (size // 3),
        "nested conditions": "`define n\n" + "`ifdef n\n" * (size // 18) + "`endif\n" * (size // 18),
        "names": "ab " * (size // 3),
        "keywords": "disable " * (size // 8),
        "marks, the first listed": "( " * (size // 2),
        "marks, the last listed": "~ " * (size // 2),
        "numbers": "128'hzzzz_ffff_0000_ffff_0000 " * (size // 30),
        "strings": '"\\n\\t\\101 text" ' * (size // 17),
    }


class Read:
    """What a program made of the text, and the seconds of its best run: what it counted and summed must be the same in each."""

    def __init__(self, program, text):
        runs = [line.split() for line in lines_of([program, text])]
        self.made = {tuple(run[:4]) for run in runs}
        self.clean = min(int(run[4]) for run in runs) / 1e9
        self.tokens = min(int(run[5]) for run in runs) / 1e9


def agree(reads):
    made = set().union(*(it.made for it in reads.values()))
    if len(made) != 1:
        sys.exit("the readers don't agree: %s" % made)


def write(folder, content):
    path = os.path.join(folder, "text.v")
    with open(path, "w") as file:
        file.write(content)
    return path


def best_process(command):
    times = []
    for _ in range(RUNS):
        before = processor_time()
        subprocess.run(command, check=True, stdout=subprocess.DEVNULL, stderr=subprocess.DEVNULL)
        times.append(processor_time() - before)
    return min(times)


def line(name, bytes_read, seconds, ours):
    print("%-24s %8.1f %10.2f %13.2f" % (name, bytes_read / seconds / 1e6, seconds / bytes_read * 1e9, ours / seconds))


def compare_whole(folder, readers):
    """Prints the speed of each reader, and of the preprocessors that are installed, on a text like those of designs."""
    text = write(folder, source_text())
    size = os.path.getsize(text)
    reads = {name: Read(program, text) for name, program in readers.items()}
    ours = reads["dessert"]
    agree(reads)
    print("%d bytes, %s of clean text, %s tokens" % ((size,) + next((it[0], it[2]) for it in ours.made)))
    print("                             MB/s    ns/byte  dessert / it")
    for name, it in reads.items():
        line("clean text, " + name, size, it.clean, ours.clean)
    icarus = ["iverilog", "-E", "-o", os.path.join(folder, "out"), text]
    for name, command in (("iverilog -E", icarus), ("verilator -E", ["verilator", "-E", text])):
        if shutil.which(command[0]):
            line("clean text, " + name, size, best_process(command), ours.clean)
    for name, it in reads.items():
        line("tokens, " + name, size, it.tokens, ours.tokens)


def in_nanoseconds(ours, other, size):
    return ours / size * 1e9, other / size * 1e9, ours / other


def compare_kinds(folder, readers):
    """Prints the speed of both readers on texts of one kind."""
    print("nanoseconds a byte        clean text  Rust  ratio   tokens  Rust  ratio")
    for kind, content in texts_of_one_kind().items():
        text = write(folder, content)
        size = os.path.getsize(text)
        reads = {name: Read(program, text) for name, program in readers.items()}
        agree(reads)
        ours, rust = reads["dessert"], reads["plain Rust"]
        print("%-26s %9.1f %5.1f %6.2f" % ((kind,) + in_nanoseconds(ours.clean, rust.clean, size)), end="")
        # Where next to nothing is left in the clean text, there is nothing to measure.
        left = int(next(iter(ours.made))[0])
        print("" if left < size // 10 else " %8.1f %5.1f %6.2f" % in_nanoseconds(ours.tokens, rust.tokens, size))


def main():
    with tempfile.TemporaryDirectory() as folder:
        readers = {"dessert": sys.argv[1] if len(sys.argv) > 1 else built_of_rattle(folder, "reading", BELOW)}
        rust = built_of_rust(folder, "reading")
        if rust:
            readers["plain Rust"] = rust
        compare_whole(folder, readers)
        if rust:
            compare_kinds(folder, readers)


if __name__ == "__main__":
    main()
