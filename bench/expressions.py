#!/usr/bin/env python3
"""Compares what sized expressions are worth with Icarus Verilog, over random expressions of all operators, selects, braces, calls and
system functions, each assigned to a vector of a random width; then times `size_expr` on a tree of a million nodes.

The program of expressions.rattle is built by `rt run` in a copy of the crates that it stands on, so nothing of it stands in the
repository's crates. Icarus has four states: a zero divisor and a place outside give x there and 0 here, so bits that are x are compared only
where they are the value that was read or divided, as 0; all other bits are compared, and `--count` counts the expressions that have no x.
What Icarus 11 stops at or never ends isn't made: constant indices outside of a memory with a select behind them, parts of vectors in
`$clog2`, distances of many bits. What it is known to get wrong isn't compared: `$clog2` of a signed constant whose highest bit is set (which
it takes as below 0), a memory's index that loses a carry (which it keeps), an index of 32 bits that wraps below 0 (which it takes as below
0), a constant part that is as wide as its vector and lies partly outside (which it takes as the whole), quotients of more than 64 bits.

Words after the script's name: `--count N` (100,000), `--seed N` (1), `--nodes N` (1,000,000), `--program PATH` for a program that is built
already; `--table N` prints so many rows for the tests of `vl_sized`, with Icarus's values, and compares nothing. It answers 1 at a difference.
"""
import argparse
import os
import random
import re
import subprocess
import sys
import tempfile

from common import built_of_rattle

BELOW = ["dt_core", "bit_ops", "vl_tree", "vl_pre", "vl_lex", "vl_read", "vl_expr", "vl_value", "vl_found", "vl_width", "vl_sized",
         "vl_sized_tests"]
BATCH = 2000
MOST = 128

# name, left, right, signed
SIGNALS = [
    ("s0", 0, 0, False), ("s1", 3, 0, False), ("s2", 3, 0, True), ("s3", 7, 0, False), ("s4", 7, 0, True),
    ("s5", 0, 7, False), ("s6", 11, 4, True), ("s7", 15, 0, False), ("s8", 15, 0, True), ("s9", 31, 0, False),
    ("s10", 31, 0, True), ("s11", 32, 0, False), ("s12", 32, 0, True), ("s13", 63, 0, False), ("s14", 63, 0, True),
    ("s15", 64, 0, False), ("s16", 99, 0, True), ("s17", 127, 0, False), ("s18", 127, 0, True), ("s19", 2, 33, False),
]
# name, left, right, signed, first, last
MEMORIES = [("m0", 7, 0, False, 0, 15), ("m1", 32, 0, True, 12, 5)]
# name, width, signed, value
PARAMETERS = [("P", 32, True, 3), ("Q", 4, True, 15), ("R", 8, False, 200)]
# name, width, signed, widths of the inputs
FUNCTIONS = [("f", 12, True, [8, 16]), ("g", 65, False, [4])]
BODIES = """  function signed [11:0] f(input [7:0] a, input signed [15:0] b); f = a + b; endfunction
  function [64:0] g(input signed [3:0] a); g = {a, 61'd5}; endfunction
"""


class Expression:
    """A text with its width, whether it is one primary, a constant number if it is one, and whether Icarus may see an x in it."""

    def __init__(self, text, width, unknown=False, is_primary=False, is_plain=False):
        self.text, self.width, self.unknown, self.is_primary, self.is_plain = text, width, unknown, is_primary, is_plain


def inside(e):
    return e.text if e.is_primary else "(%s)" % e.text


class Maker:
    def __init__(self, seed):
        self.random = random.Random(seed)
        self.divides_widely = False

    def number(self):
        r = self.random
        if r.random() < 0.3:
            return Expression(str(r.choice([0, 1, 2, 3, 7, 31, 32, 255, r.randrange(1 << 31)])), 32, is_primary=True)
        width = r.choice([1, 2, 4, 5, 8, 16, 31, 32, 33, 64, 65, 100, 128])
        value = r.choice([0, 1, (1 << width) - 1, 1 << (width - 1), r.randrange(1 << width)])
        base, sign = r.choice("dhb"), r.choice(["", "s"])
        digits = {"d": "%d", "h": "%x"}.get(base)
        text = digits % value if digits else bin(value)[2:]
        return Expression("%d'%s%s%s" % (width, sign, base, text), width, is_primary=True)

    def leaf(self):
        kind = self.random.random()
        if kind < 0.3:
            return self.number()
        if kind < 0.7:
            name, left, right, _ = self.random.choice(SIGNALS)
            return Expression(name, abs(left - right) + 1, is_primary=True, is_plain=True)
        if kind < 0.8:
            name, width, _, _ = self.random.choice(PARAMETERS)
            return Expression(name, width, is_primary=True)
        return self.read(0)

    def index(self, depth):
        if self.random.random() < 0.5:
            return Expression(str(self.random.randrange(0, 36)), 32)
        return self.small(depth)

    def small(self, depth):
        """An index or a distance of few bits."""
        r = self.random
        if depth <= 0 or r.random() < 0.6:
            return Expression(r.choice(["s1", "s2", "s3", "s4", "s0", "s5", "s6", "Q", "3", "8'sd5", "4'sd9"]), 8)
        a, b = r.choice(["s1", "s2", "s3", "s4"]), r.choice(["s1", "s2", "s5", "1"])
        return Expression("%s %s %s" % (a, r.choice(["+", "-", "^", "|"]), b), 8)

    def select(self, name, left, right, depth):
        """A select of a vector, with its width and whether a place may lie outside."""
        r, size = self.random, abs(left - right) + 1
        low, step = min(left, right), 1 if left <= right else -1
        kind = r.random()
        if kind < 0.4:
            i = self.index(depth)
            return Expression("%s[%s]" % (name, i.text), 1, unknown=True, is_primary=True, is_plain=True)
        if kind < 0.65:
            a, b = sorted((r.randrange(size), r.randrange(size)))
            first, last = (low + a, low + b) if step > 0 else (low + b, low + a)
            return Expression("%s[%d:%d]" % (name, first, last), b - a + 1, is_primary=True, is_plain=True)
        width = r.randrange(1, min(size, 40) + 1)
        i = self.index(depth)
        sign = r.choice("+-")
        return Expression("%s[%s %s: %d]" % (name, i.text, sign, width), width, unknown=True, is_primary=True, is_plain=True)

    def place(self, least, most):
        """An index of a memory; Icarus stops at some constant ones that are outside."""
        if self.random.random() < 0.5:
            return str(self.random.randrange(least, most + 1))
        return self.random.choice(["s1", "s2", "s3", "s4", "s1 + s0", "s3 - 3", "s6 ^ s1"])

    def read(self, depth):
        r = self.random
        if r.random() < 0.3:
            name, left, right, _, first, last = r.choice(MEMORIES)
            word = "%s[%s]" % (name, self.place(min(first, last), max(first, last)))
            if r.random() < 0.5:
                return Expression(word, abs(left - right) + 1, unknown=True, is_primary=True, is_plain=True)
            e = self.select(word, left, right, depth)
            e.unknown = True
            return e
        name, left, right, _ = r.choice([it for it in SIGNALS if it[1] != it[2]])
        return self.select(name, left, right, depth)

    def braces(self, depth):
        r, parts, width = self.random, [], 0
        for _ in range(r.randrange(1, 4)):
            e = self.make(depth - 1)
            if width + e.width > MOST:
                break
            parts.append(e)
            width += e.width
        if not parts:
            return self.leaf()
        text = "{%s}" % ", ".join(e.text for e in parts)
        unknown, is_plain = any(e.unknown for e in parts), all(e.is_plain for e in parts)
        if r.random() < 0.3 and width * 2 <= MOST:
            copies = r.randrange(1, min(8, MOST // width) + 1)
            return Expression("{%d%s}" % (copies, text), width * copies, unknown, True, is_plain)
        return Expression(text, width, unknown, True, is_plain)

    def call(self, depth):
        name, width, _, inputs = self.random.choice(FUNCTIONS)
        arguments = [self.make(depth - 1) for _ in inputs]
        text = "%s(%s)" % (name, ", ".join(e.text for e in arguments))
        return Expression(text, width, any(e.unknown for e in arguments), True)

    def system(self, depth):
        e = self.make(depth - 1)
        name = self.random.choice(["$signed", "$unsigned", "$signed", "$clog2"])
        if name == "$clog2":
            if e.unknown:
                return self.leaf()
            # (Icarus stops at a part of a vector there)
            return Expression("$clog2(%s)" % ("{%s}" % e.text if "[" in e.text else e.text), 32, False, True)
        return Expression("%s(%s)" % (name, e.text), e.width, e.unknown, True, e.is_plain)

    def binary(self, depth):
        r = self.random
        a, b = self.make(depth - 1), self.make(depth - 1)
        op = r.choice("+ - * / % & | ^ ~^ == != < <= > >= === !== && || << >> <<< >>> + - ^ >>> / %".split())
        unknown = a.unknown or b.unknown
        if op in ("===", "!==") and unknown:
            op = op[:2]
        if op in ("<<", ">>", "<<<", ">>>"):
            # (Icarus takes a day for a distance of many bits)
            if r.random() < 0.6 or b.width > 16:
                b = self.small(1)
                unknown = a.unknown
            return Expression("%s %s %s" % (inside(a), op, inside(b)), a.width, unknown)
        width = max(a.width, b.width)
        if op in ("==", "!=", "<", "<=", ">", ">=", "===", "!==", "&&", "||"):
            width = 1
        divides = op in ("/", "%")
        if divides and width > 64:
            self.divides_widely = True
        is_plain = divides and not unknown
        return Expression("%s %s %s" % (inside(a), op, inside(b)), width, unknown or divides, False, is_plain)

    def chain(self, depth):
        """Operators of one level without parentheses."""
        r = self.random
        ops = r.choice([["+", "-"], ["<<", ">>>", ">>"], ["*", "*"], ["&"], ["^", "~^"], ["==", "!="], ["<", ">="]])
        parts = [self.make(depth - 2) for _ in range(3)]
        shifts, tests = ops[0] == "<<", ops[0] in ("==", "<")
        if shifts:
            parts[1:] = [self.small(1), self.small(1)]
        text = inside(parts[0])
        for e in parts[1:]:
            text += " %s %s" % (r.choice(ops), inside(e))
        width = 1 if tests else parts[0].width if shifts else max(e.width for e in parts)
        return Expression(text, width, any(e.unknown for e in parts))

    def unary(self, depth):
        op = self.random.choice("- ~ ! & | ^ ~& ~| ~^ + -".split())
        a = self.make(depth - 1)
        return Expression(op + inside(a), a.width if op in ("-", "~", "+") else 1, a.unknown)

    def choice(self, depth):
        c, a, b = (self.make(depth - 1) for _ in range(3))
        unknown = a.unknown or b.unknown or c.unknown
        return Expression("%s ? %s : %s" % (inside(c), inside(a), inside(b)), max(a.width, b.width), unknown)

    def make(self, depth):
        if depth <= 0 or self.random.random() < 0.15:
            return self.leaf()
        kinds = [(self.binary, 9), (self.unary, 3), (self.choice, 2), (self.braces, 2), (self.read, 3), (self.system, 2),
                 (self.call, 1), (self.chain, 2)]
        return self.random.choices([it for it, _ in kinds], [it for _, it in kinds])[0](depth)


def values(maker):
    """A value for each signal, and for each word of each memory."""
    r = maker.random

    def of(width):
        return r.choice([0, 1, (1 << width) - 1, 1 << (width - 1), r.randrange(1 << width), r.randrange(1 << width)])

    signals = [of(abs(left - right) + 1) for _, left, right, _ in SIGNALS]
    words = [[of(abs(left - right) + 1) for _ in range(abs(first - last) + 1)] for _, left, right, _, first, last in MEMORIES]
    return signals, words


def module_of(signals, words, rows):
    """The Verilog text that prints what each expression is worth."""
    out = ["module top;"]
    out += ["  reg %s [%d:%d] %s;" % ("signed" if s else "", left, right, name) for name, left, right, s in SIGNALS]
    out += ["  reg %s [%d:%d] %s [%d:%d];" % ("signed" if s else "", left, right, name, first, last)
            for name, left, right, s, first, last in MEMORIES]
    out += ["  parameter %s [%d:0] %s = %d'h%x;" % ("signed" if s else "", width - 1, name, width, value)
            for name, width, s, value in PARAMETERS]
    out.append(BODIES)
    targets = sorted({context for context, _ in rows})
    out += ["  reg [%d:0] r%d;" % (width - 1, width) for width in targets]
    out.append("  initial begin")
    out += ["    %s = %d'h%x;" % (name, abs(left - right) + 1, value)
            for (name, left, right, _), value in zip(SIGNALS, signals)]
    for (name, left, right, _, first, last), held in zip(MEMORIES, words):
        out += ["    %s[%d] = %d'h%x;" % (name, min(first, last) + k, abs(left - right) + 1, value) for k, value in enumerate(held)]
    for context, e in rows:
        out.append('    r%d = %s; $display("%%b", r%d);' % (context, sized(e.text), context))
    out += ["  end", "endmodule"]
    return "\n".join(out) + "\n"


def sized(text):
    """The text with its numbers without a size as numbers of 32 bits, which Icarus wants in braces."""
    return re.sub(r"(?<![\w'.$])(\d+)(?![\w'])", r"32'sd\1", text)


def of_icarus(folder, text):
    with open(os.path.join(folder, "top.v"), "w") as file:
        file.write(text)
    program = os.path.join(folder, "top.vvp")
    subprocess.run(["iverilog", "-g2005", "-o", program, os.path.join(folder, "top.v")], check=True)
    return subprocess.run(["vvp", "-n", program], check=True, stdout=subprocess.PIPE, text=True, timeout=20).stdout.split()


def batch_text(signals, words, rows):
    """What the program reads of a batch."""
    values = signals + [value for held in words for value in held]
    return "v " + " ".join("%x" % value for value in values) + "\n" + "".join("%d %s\n" % (context, e.text) for context, e in rows)


def of_program(folder, program, text):
    path = os.path.join(folder, "rows.txt")
    with open(path, "w") as file:
        file.write(text)
    return subprocess.run([program, path], check=True, stdout=subprocess.PIPE, text=True).stdout.split("\n")[:-1]


def long_sum(nodes):
    """An expression of so many nodes: half of them names, half of them operators of two levels."""
    names = [name for name, _, _, _ in SIGNALS[:10]]
    text = names[0]
    return text + "".join("%s%s" % ("+*-*^*"[k % 6], names[(k + 1) % 10]) for k in range((nodes - 1) // 2))


def compared(context, e, theirs, ours):
    """None where the two agree, and the number of bits that were compared."""
    if not re.fullmatch("[0-9a-f]+", ours):
        return False, 0
    bits = bin(int(ours, 16))[2:].zfill(context)[-context:]
    for place, theirs_bit in enumerate(theirs):
        if theirs_bit in "01" and theirs_bit != bits[place]:
            return False, 0
        if theirs_bit in "xz" and e.is_plain and bits[place] != "0":
            return False, 0
    return True, sum(it in "01" for it in theirs)


def argument_at(text, start):
    """What stands in parentheses from a place on."""
    depth = 0
    for k in range(start, len(text)):
        depth += (text[k] == "(") - (text[k] == ")")
        if depth == 0:
            return text[start:k]
    return text[start:]


def is_misread(text):
    """Whether Icarus is known to get it wrong."""
    for call in re.finditer(r"\$clog2\(", text):
        if not re.search(r"\bs\d|\bm\d|\b[fg]\(", argument_at(text, call.end() - 1)):
            return True
    for name, width in re.findall(r"\b(s\d+)\[\d+ [+-]: (\d+)\]", text):
        if any(it == name and abs(left - right) + 1 == int(width) for it, left, right, _ in SIGNALS):
            return True
    return bool(re.search(r"\[s1 \+ s0\]|\[s\d+ - 1( [+-]: \d+)?\]|\]\[\d+ [+-]: (8|33)\]", text))


def rows_of(maker, count, careful=True):
    """Contexts and expressions; where careful, none that Icarus is known to get wrong."""
    rows = []
    while len(rows) < count:
        maker.divides_widely = False
        e = maker.make(maker.random.choice([1, 2, 2, 3, 3, 4]))
        if e.width <= MOST and len(e.text) < 4000:
            context = maker.random.choice([1, 4, 8, 16, 32, 33, 64, 65, 128, e.width])
            if not careful or not (maker.divides_widely or is_misread(e.text)):
                rows.append((context, e))
    return rows


def print_table(folder, maker, count):
    """Rust's text of a table of expressions that have a value in all bits."""
    signals, held = values(maker)
    rows = [(context, e) for context, e in rows_of(maker, 4 * count, careful=False) if len(e.text) < 90]
    told = of_icarus(folder, module_of(signals, held, rows))
    rows = [(context, e, value) for (context, e), value in zip(rows, told) if "x" not in value][:count]
    print("static VALUES: [u128; %d] = [" % len(signals + sum(held, [])))
    print("".join("    0x%x,\n" % value for value in signals + sum(held, [])) + "];\n")
    for k in range(0, len(rows), 20):
        print("static ROWS_%d: [Row; %d] = [" % (k // 20, len(rows[k:k + 20])))
        for context, e, value in rows[k:k + 20]:
            print("    Row {\n        context: %d,\n        text: b\"%s\\n\",\n        value: 0x%x,\n    }," % (context, e.text, int(value, 2)))
        print("];\n")


def told_differences(rows, theirs, ours):
    """Prints the first differences and the sum; 1 where there is one."""
    whole = partly = differences = 0
    if len(ours) != len(rows):
        raise SystemExit("%d lines of the program in place of %d" % (len(ours), len(rows)))
    for (context, e), one, other in zip(rows, theirs, ours):
        same, bits = compared(context, e, one, other)
        whole += same and bits == context
        partly += same and bits != context
        differences += not same
        if not same and differences <= 20:
            print("%d bits of %s\n  Icarus  %s\n  here    %s" % (context, e.text, one, other))
    print("%d expressions agree in all bits, %d in those that aren't x in Icarus; %d differ" % (whole, partly, differences))
    return 1 if differences else 0


def main():
    words = argparse.ArgumentParser()
    words.add_argument("--count", type=int, default=100_000)
    words.add_argument("--seed", type=int, default=1)
    words.add_argument("--program")
    words.add_argument("--table", type=int)
    words.add_argument("--nodes", type=int, default=1_000_000)
    words = words.parse_args()
    with tempfile.TemporaryDirectory() as folder:
        maker = Maker(words.seed)
        if words.table:
            return print_table(folder, maker, words.table)
        rows, theirs, text, whole = [], [], "", 0
        while whole < words.count:
            signals, held = values(maker)
            batch = rows_of(maker, BATCH)
            try:
                told = of_icarus(folder, module_of(signals, held, batch))
            except subprocess.TimeoutExpired:
                # (Icarus never ends some divisions of more than 64 bits)
                batch = [row for row in batch if not re.search("[/%]", row[1].text)]
                told = of_icarus(folder, module_of(signals, held, batch))
            if len(told) != len(batch):
                raise SystemExit("%d lines of Icarus in place of %d" % (len(told), len(batch)))
            rows, theirs, text = rows + batch, theirs + told, text + batch_text(signals, held, batch)
            whole += sum("x" not in line for line in told)
        program = words.program or built_of_rattle(folder, "expressions", BELOW)
        ours = of_program(folder, program, text)
        taken = of_program(folder, program, "t %s\n" % long_sum(words.nodes))[0]
        print("%d nodes are sized in %.3f s" % (words.nodes, int(taken) / 1e9))
    return told_differences(rows, theirs, ours)


if __name__ == "__main__":
    sys.exit(main())
