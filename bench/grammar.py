#!/usr/bin/env python3
"""How fast a text's grammar is read, in how much memory, and on how much stack.

    python3 bench/grammar.py [PROGRAM]

runs `dessert sim` (`./dessert` where no program is named) on generated texts. A text of many constructs is read twice, once as it is and once
with a string that isn't closed at its end: then the run ends after the tokens, so the difference of the two is what the grammar took (with
the few steps to `NotYetBuilt`). Processor time, the least of five. Memory is the peak of a text with as many tokens as there may be, less that
of the same text with the open string. The stack is the smallest on which a text nested to depth 200 is read, by halving, for each of some
constructs, beside that of a flat text.
"""
import os
import resource
import subprocess
import sys
import tempfile

RUNS = 5
MOST_TOKENS = 1_048_576
FILE_BYTES = 4_190_000
OPEN = b'\n"open'

# A module of many constructs.
CONSTRUCTS = b"""module stage%d #(parameter WIDTH = 32, DEPTH = 4)(input clk, rst, input [WIDTH-1:0] a, b, output reg [WIDTH-1:0] q);
  wire [WIDTH-1:0] sum = a + b * 3, mux = rst ? a : b[3] ? {a[7:0], b[WIDTH-1:8]} : ~(a ^ b);
  reg [WIDTH-1:0] pipe, store [0:DEPTH-1];
  assign q_next = pipe | (sum & {WIDTH{rst}});
  always @(posedge clk) begin
    if (rst) begin pipe <= 0; q <= 0; end
    else if (a[0] && !b[1]) pipe <= store[a[1:0]] + 1;
    else case (b[2:0]) 3'd0, 3'd1: q <= sum; 3'd2: q <= mux - 1; default: store[b[1:0]] <= a >> 2; endcase
  end
  inner #(.WIDTH(WIDTH)) i%d (.clk(clk), .a(sum[3:0]), .y(mux));
endmodule
"""

# What stands before and after the middle of a nested text, how often, and the middle.
NESTED = {
    "( )": (b"wire a = ", b"(", b"1", b")", b";", 199),
    "unary": (b"wire a = ", b"~", b"1", b"", b";", 199),
    "{ }": (b"wire a = ", b"{", b"1", b"}", b";", 199),
    "? :": (b"wire a = ", b"1?", b"1", b":1", b";", 198),
    "f( )": (b"wire a = ", b"f(", b"1", b")", b";", 199),
    "[ ]": (b"wire a = ", b"b[", b"1", b"]", b";", 199),
    "begin": (b"initial ", b"begin ", b";", b" end", b"", 199),
    "if": (b"initial ", b"if (1) ", b";", b"", b"", 198),
    "case": (b"initial ", b"case (1) 1: ", b";", b" endcase", b"", 99),
    "for": (b"initial ", b"for (i=1;i;i=1) ", b";", b"", b"", 198),
    "generate if": (b"", b"if (1) begin ", b"", b" end", b"", 99),
    "flat": (b"wire a = ", b"", b"1", b"", b";", 0),
}


def many(count):
    return b"".join(CONSTRUCTS % (i, i) for i in range(count))


def nested(name):
    first, before, middle, after, last, depth = NESTED[name]
    return b"module m;\n" + first + before * depth + middle + after * depth + last + b"\nendmodule\n"


def write(folder, text):
    """The text as files that are no longer than a file may be, cut at lines' ends; gives their names."""
    names, lines, size = [], [], 0
    for line in text.splitlines(keepends=True) + [None]:
        if line is None or size + len(line) > FILE_BYTES:
            names.append(os.path.join(folder, f"part{len(names)}.v"))
            with open(names[-1], "wb") as file:
                file.write(b"".join(lines))
            lines, size = [], 0
        if line is not None:
            lines.append(line)
            size += len(line)
    return names


def run(program, text, stack=None):
    """Runs the program on a text; gives its status, its report, processor seconds and peak memory in KiB."""
    limit = (lambda: resource.setrlimit(resource.RLIMIT_STACK, (stack, stack))) if stack else None
    with tempfile.TemporaryDirectory() as folder:
        names = write(folder, text)
        child = subprocess.Popen([program, "sim", *names], stdin=subprocess.DEVNULL, stdout=subprocess.DEVNULL, stderr=subprocess.PIPE, preexec_fn=limit)
        report = child.stderr.read()
        _, status, usage = os.wait4(child.pid, 0)
        child.returncode = os.waitstatus_to_exitcode(status)
    return child.returncode, report, usage.ru_utime + usage.ru_stime, usage.ru_maxrss


def expect(answer, word):
    assert word in answer[1], answer[:2]
    return answer


def speed(program, text):
    whole = min(expect(run(program, text), b"NotYetBuilt")[2] for _ in range(RUNS))
    tokens = min(expect(run(program, text + OPEN), b"OpenString")[2] for _ in range(RUNS))
    return whole, tokens


def least_stack(program, text):
    """The smallest stack, in KiB, on which the program reads the text."""
    low, high = 16, 8192
    while high - low > 16:
        middle = (low + high) // 2
        if run(program, text, middle * 1024)[0] == 3:
            high = middle
        else:
            low = middle
    return high


def main():
    program = os.path.abspath(sys.argv[1] if len(sys.argv) > 1 else "./dessert")
    text = many(3_000)
    whole, tokens = speed(program, text)
    megabytes = len(text) / 1e6
    print(f"grammar: {megabytes:.1f} MB in {whole - tokens:.3f} s, {megabytes / (whole - tokens):.0f} MB/s; clean text and tokens {tokens:.3f} s")
    full = b"module m;\n" + b"assign a = b;\n" * ((MOST_TOKENS - 4) // 5) + b"endmodule\n"
    with_tree = expect(run(program, full), b"NotYetBuilt")[3]
    without = expect(run(program, full + OPEN), b"OpenString")[3]
    print(f"memory at {MOST_TOKENS} tokens: {with_tree / 1024:.0f} MiB, without the tree {without / 1024:.0f} MiB")
    for name in NESTED:
        assert run(program, nested(name))[0] == 3, name
        print(f"stack, {name}: {least_stack(program, nested(name))} KiB")


if __name__ == "__main__":
    sys.exit(main())
