#!/usr/bin/env python3
"""Times `flat_sim` on two designs beside Icarus Verilog and Verilator, and prints nanoseconds a cycle and ratios; then the time from a
draft to its first cycle, and peak memory.

Both designs are made here, once as numbers, of which engine.rattle makes a draft, and once as Verilog: `soak`, eight chained registers of
16 bits and a counter, and `core`, a netlist by chance with the mix of a synthesized processor of 32 bits: about 3,500 nodes, a file of 32
registers and a memory of 1,024 words. All run over the same rows by chance, once made by each itself, and once read from a stimulus text;
the states after the last cycle must be the same. A simulator that isn't installed is left out, and said to be.

Runs alternate, and a figure is the median of RUNS; it is processor time, of the whole process less that of one which runs no cycle.
"""
import os
import random
import shutil
import statistics
import subprocess
import sys
import tempfile

from common import built_of_rattle, processor_time

BELOW = [
    "dt_core", "dt_io", "bit_ops", "netlist", "comb_order", "message_text", "step_program", "net_compile", "flat_sim", "draft_maker",
    "stimulus",
]
RUNS = 5
SOAK_CYCLES, CORE_CYCLES = 1_000_000, 200_000
FEW_FOR_ICARUS = 20
CORE_SEED = 3
MULTIPLIER, INCREMENT, SEED = 6364136223846793005, 1442695040888963407, 7

# What the proof of engine.rattle picks for the count of steps, what holds of a row that is looked at or made, and that what was made fits.
PROOFS = {
    "main/Invariants.antt": """use Rattle.engine_bench.proofs.main.Given as goal

abbrev pub ghosts-measure : goal.ghosts-measure
ghosts-measure a = record { name = a.blank.name; parts = a.blank.parts }
""",
    "row_fits/Invariants.antt": """use Rattle.std.proofs.Common.{ℕ, ◌<◌, ◌^◌, slice_index}
use Rattle.net_compile.specs.Cycle.{signal_width}
use Rattle.engine_bench.proofs.row_fits.Given as goal

abbrev pub invariant-loop-k : goal.invariant-loop-k
invariant-loop-k l = (n : ℕ) → n < l.k → slice_index l.row n < 2 ^ signal_width l.flat.signals (slice_index l.inputs n)
""",
    "fill/Invariants.antt": """use Rattle.std.proofs.Common.{◌≡◌, ℕ, ◌<◌, ◌≤◌, length, slice_index}
use Rattle.engine_bench.proofs.fill.Given as goal

abbrev pub invariant-loop-k : goal.invariant-loop-k
invariant-loop-k l =
    (length l.row ≡ length l.fn.row) × ((n : ℕ) → n < l.k → slice_index l.row n ≤ slice_index l.masks n)
""",
    "run/Invariants.antt": """use Rattle.std.proofs.Common.{◌≡◌, length}
use Rattle.engine_bench.proofs.run.Given as goal

abbrev pub invariant-loop-cycle : goal.invariant-loop-cycle
invariant-loop-cycle g l = (length l.row ≡ length l.masks) × (l.sim.flat ≡ l.fn.sim.flat)
""",
}

# ---- designs

INNER, CLOCK, INPUT = 0, 1, 2
UNARY = {"~": 0, "!": 1, "&": 2, "|": 3, "^": 4}
BINARY = {"+": 0, "-": 1, "&": 2, "|": 3, "^": 4, "==": 5, "!=": 6, "<": 7, "<<": 8, ">>": 9, ">>>": 10, "*": 11}


class Design:
    """Signals, nodes, parts that are whole signals, memories and writes of whole words; and the Verilog of each node."""

    def __init__(self):
        self.signals, self.nodes, self.driven, self.registers, self.memories, self.writes, self.stops = [], [], [], [], [], [], []
        self.text, self.wires = [], []
        self.signal(1, CLOCK)

    def signal(self, width, role=INNER):
        self.signals.append((width, role))
        return len(self.signals) - 1

    def node(self, width, numbers, text, has_wire=True):
        number = len(self.nodes)
        self.nodes.append((width,) + tuple(numbers))
        if has_wire:
            self.wires.append("  wire [%d:0] n%d = %s;" % (width - 1, number, text))
            text = "n%d" % number
        self.text.append(text)
        return number

    def width(self, node):
        return self.nodes[node][0]

    def constant(self, width, value):
        return self.node(width, (0, value), "%d'd%d" % (width, value), False)

    def bits(self, signal, low=0, width=None):
        whole = self.signals[signal][0]
        width = width or whole
        place = "" if width == whole else "[%d:%d]" % (low + width - 1, low)
        return self.node(width, (1, signal, low), "s%d%s" % (signal, place), width != whole)

    def word(self, memory, index):
        return self.node(self.memories[memory][0], (2, memory, index), "m%d[%s]" % (memory, self.text[index]))

    def unary(self, mark, of):
        width = self.width(of) if mark == "~" else 1
        return self.node(width, (3, UNARY[mark], of), "%s%s" % (mark, self.text[of]))

    def binary(self, mark, left, right, signed=False):
        width = 1 if mark in ("==", "!=", "<") else self.width(left)
        form = "$signed(%s) %s $signed(%s)" if signed else "%s %s %s"
        text = form % (self.text[left], mark, self.text[right])
        return self.node(width, (4, BINARY[mark], int(signed), left, right), text)

    def select(self, of, low, width):
        place = self.constant(7, low)
        text = self.text[of] if self.width(of) == 1 else "%s[%d:%d]" % (self.text[of], low + width - 1, low)
        return self.node(width, (5, of, place), text)

    def concat(self, left, right):
        return self.node(self.width(left) + self.width(right), (6, left, right), "{%s, %s}" % (self.text[left], self.text[right]))

    def choose(self, condition, yes, no):
        text = "%s ? %s : %s" % tuple(self.text[it] for it in (condition, yes, no))
        return self.node(self.width(yes), (7, condition, yes, no), text)

    def net(self, node):
        """A signal that has the node's value."""
        signal = self.signal(self.width(node))
        self.driven.append((signal, node))
        return signal

    def numbers(self):
        yield [len(self.signals)] + [it for signal in self.signals for it in signal]
        yield [len(self.memories)] + [it for memory in self.memories for it in memory]
        yield [len(self.nodes)]
        yield from self.nodes
        for parts in (self.driven, self.registers):
            yield [len(parts)] + [it for signal, node in sorted(parts) for it in (signal, self.signals[signal][0], node)]
        yield [len(self.writes)] + [it for write in self.writes for it in write]
        yield [len(self.stops)] + self.stops

    def of_role(self, role):
        return [(number, width) for number, (width, is_role) in enumerate(self.signals) if is_role == role]

    def verilog(self):
        inputs = self.of_role(INPUT)
        ports = ["input s0", "input show"] + ["input [%d:0] s%d" % (width - 1, number) for number, width in inputs]
        yield "module bench(%s);" % ", ".join(ports)
        for number, width in self.of_role(INNER):
            kind = "reg" if number in dict(self.registers) else "wire"
            yield "  %s [%d:0] s%d;" % (kind, width - 1, number)
        for number, (width, words) in enumerate(self.memories):
            yield "  reg [%d:0] m%d [0:%d];" % (width - 1, number, words - 1)
        yield "  integer i;"
        yield from self.wires
        for signal, node in self.driven:
            yield "  assign s%d = %s;" % (signal, self.text[node])
        yield from self.blocks()
        yield "endmodule"

    def blocks(self):
        yield "  always @(posedge s0) begin"
        for signal, node in sorted(self.registers):
            yield "    s%d <= %s;" % (signal, self.text[node])
        for condition, memory, index, _, _, value in self.writes:
            yield "    if (%s) m%d[%s] <= %s;" % (self.text[condition], memory, self.text[index], self.text[value])
        for condition in self.stops:
            yield "    if (%s) $stop;" % self.text[condition]
        yield "  end"
        yield "  always @(posedge show) begin"
        for signal, _ in sorted(self.registers):
            yield '    $display("%%h", s%d);' % signal
        for number, (_, words) in enumerate(self.memories):
            yield '    for (i = 0; i < %d; i = i + 1) $display("%%h", m%d[i]);' % (words, number)
        yield "  end"
        yield "  initial begin"
        for signal, _ in sorted(self.registers):
            yield "    s%d = 0;" % signal
        for number, (_, words) in enumerate(self.memories):
            yield "    for (i = 0; i < %d; i = i + 1) m%d[i] = 0;" % (words, number)
        yield "  end"


def soak(number=7):
    """The large input: eight registers, each of the two before it and of a constant that the input turns."""
    design = Design()
    data = design.signal(16, INPUT)
    counter = design.signal(32)
    registers = [design.signal(16) for _ in range(8)]
    for i in range(8):
        first, second = registers[(i + 7) % 8], registers[(i + 6) % 8]
        turned = design.concat(design.bits(second, 0, 15), design.bits(second, 15, 1))
        key = design.binary("^", design.constant(16, (number + 4096 * i) % 65536), design.bits(data))
        mixed = design.binary("^", design.bits(first), design.bits(design.net(turned)))
        design.registers.append((registers[i], design.binary("+", design.bits(design.net(mixed)), design.bits(design.net(key)))))
    design.registers.append((counter, design.binary("+", design.bits(counter), design.constant(32, 1))))
    design.stops.append(design.binary("==", design.bits(counter), design.constant(32, 2 ** 32 - 1)))
    return design


# Of a synthesized processor's netlist: how many nodes of each kind, but for copies, which are reads of nets.
MIX = {
    "concat": 448, "mux": 319, "select": 229, "&": 90, "~": 53, "==": 41, "|": 33, "!=": 25, "reduce |": 43, "reduce &": 18, "!": 7,
    "+": 9, "-": 3, "word": 3, "^": 1, "signed <": 1, "<": 1, ">>": 1,
}


class Core:
    """A netlist by chance: of each width the values that can be read, nets or nodes; those not yet read come first."""

    def __init__(self, seed, scale=1):
        self.choose, self.design = random.Random(seed), Design()
        self.fresh, self.old = {}, {}
        for width, count in ((32, 3), (1, 4)):
            for _ in range(count):
                self.add(width, signal=self.design.signal(width, INPUT))
        self.registers = [self.design.signal(width) for width, count in ((32, 24), (1, 40), (5, 6), (16, 4)) for _ in range(count * scale)]
        for signal in self.registers:
            self.add(self.design.signals[signal][0], signal=signal)
        self.design.memories = [(32, 32), (32, 1024)]
        kinds = [kind for kind, count in MIX.items() for _ in range(count * scale)]
        self.choose.shuffle(kinds)
        for kind in kinds:
            self.add_node(self.made(kind))
        self.close()

    def add(self, width, signal=None, node=None):
        self.fresh.setdefault(width, []).append((signal, node))

    def add_node(self, node):
        """A value that is read as a net, which makes a copy of it, or as the node itself."""
        width = self.design.width(node)
        if self.choose.random() < 0.55:
            self.add(width, signal=self.design.net(node))
        else:
            self.add(width, node=node)

    def entry(self, width):
        fresh, old = self.fresh.get(width), self.old.setdefault(width, [])
        if fresh and (len(old) < 3 or self.choose.random() < 0.9):
            old.append(fresh.pop(self.choose.randrange(len(fresh))))
            return old[-1]
        return self.choose.choice(old) if old else None

    def bits_of(self, entry, low, width):
        signal, node = entry
        if signal is not None:
            return self.design.bits(signal, low, width)
        return node if self.design.width(node) == width else self.design.select(node, low, width)

    def read(self, width):
        """A value of this width, or the low bits of a wider one."""
        entry = self.entry(width)
        while entry is None:
            wider = min(it for it in list(self.fresh) + list(self.old) if it > width and (self.fresh.get(it) or self.old.get(it)))
            entry = self.entry(wider)
        return self.bits_of(entry, 0, width)

    def width(self):
        return self.choose.choices((32, 1, 2, 5, 8, 16), (45, 35, 5, 5, 5, 5))[0]

    def concat(self):
        """Two pieces side by side, as of a sign extension or a field of an instruction."""
        whole = self.choose.choices((32, 16, 8, 5, 2, 64), (55, 10, 10, 10, 10, 5))[0]
        left = self.choose.choice([it for it in (1, 1, 1, 2, 5, 8, 16, 32) if whole - 32 <= it < whole])
        return self.design.concat(self.read(left), self.read(whole - left))

    def select(self):
        """Bits of the width of which most isn't read yet."""
        whole = max((it for it in self.fresh if it > 1), key=lambda it: len(self.fresh[it]))
        width = min(self.choose.choices((1, 5, 8, 16), (70, 10, 10, 10))[0], whole)
        low = self.choose.randrange(whole - width + 1)
        return self.bits_of(self.entry(whole), low, width)

    def made(self, kind):
        design = self.design
        if kind == "concat":
            return self.concat()
        if kind == "select":
            return self.select()
        if kind == "mux":
            width = self.width()
            return design.choose(self.read(1), self.read(width), self.read(width))
        if kind == "word":
            memory, width = self.choose.choice(((0, 5), (0, 5), (1, 10)))
            return design.word(memory, self.bits_of(self.entry(32), 0, width))
        if kind.startswith("reduce"):
            return design.unary(kind[-1], self.read(self.choose.choice((2, 5, 8, 32))))
        if kind in ("~", "!"):
            return design.unary(kind, self.read(1))
        if kind in ("==", "!="):
            width = self.choose.choice((32, 5, 2, 8))
            return design.binary(kind, self.read(width), design.constant(width, self.choose.randrange(4)))
        if kind == ">>":
            return design.binary(kind, self.read(32), self.read(5))
        width = 1 if kind in ("&", "|") else 32
        return design.binary(kind[-1], self.read(width), self.read(width), kind == "signed <")

    def close(self):
        """Writes to both memories, and next values, in which all is read that nobody read before."""
        design = self.design
        for memory, width in ((0, 5), (1, 10)):
            index = self.bits_of(self.entry(32), 0, width)
            design.writes.append((self.read(1), memory, index, design.constant(1, 0), 32, self.read(32)))
        left = [(width, entry) for width, entries in self.fresh.items() for entry in entries]
        parts = {register: self.read(design.signals[register][0]) for register in self.registers}
        for number, (width, entry) in enumerate(left):
            register = self.registers[number % len(self.registers)]
            whole = design.signals[register][0]
            other = self.extended(self.bits_of(entry, 0, min(width, whole)), whole)
            parts[register] = design.choose(self.read(1), other, parts[register])
        design.registers = sorted(parts.items())

    def extended(self, node, width):
        missing = width - self.design.width(node)
        return self.design.concat(self.design.constant(missing, 0), node) if missing else node


def with_large_memory():
    """One memory of 1,048,576 words of 32 bits, of which each cycle writes one."""
    design = Design()
    index, value = design.bits(design.signal(20, INPUT)), design.bits(design.signal(32, INPUT))
    shown = design.signal(32)
    design.memories = [(32, 2 ** 20)]
    design.writes.append((design.constant(1, 1), 0, index, design.constant(1, 0), 32, value))
    design.registers.append((shown, design.word(0, index)))
    return design


# ---- simulators

def written(folder, name, lines):
    path = os.path.join(folder, name)
    with open(path, "w") as file:
        file.writelines(line + "\n" for line in lines)
    return path


def stimulus(design, cycles):
    """The rows that each makes itself otherwise."""
    inputs, x = design.of_role(INPUT), SEED
    yield "stimulus 1"
    yield "inputs" + "".join(" i%d" % number for number in range(len(inputs)))
    for _ in range(cycles):
        row = []
        for _, width in inputs:
            x = (x * MULTIPLIER + INCREMENT) % 2 ** 64
            row.append("%x" % ((x >> 32) % 2 ** width))
        yield " ".join(row)


def testbench(design):
    inputs = design.of_role(INPUT)
    made = "".join(" x = x * 64'd%d + 64'd%d; i%d = x[%d:32];" % (MULTIPLIER, INCREMENT, it, 31 + width) for it, width in inputs)
    read = '$fscanf(file, "%s"%s)' % (" ".join("%h" for _ in inputs), "".join(", i%d" % it for it, _ in inputs))
    yield "module testbench;"
    yield "  reg clock, show;"
    yield "  reg [63:0] x;"
    yield "  reg [8 * 1024 - 1:0] path, heading;"
    yield "  integer cycles, file, got;"
    for number, width in inputs:
        yield "  reg [%d:0] i%d;" % (width - 1, number)
    yield "  bench bench(clock, show%s);" % "".join(", i%d" % number for number, _ in inputs)
    yield "  initial begin"
    yield "    clock = 0; show = 0; x = %d; file = 0;" % SEED
    yield '    if (!$value$plusargs("cycles=%d", cycles)) cycles = 0;'
    yield '    if ($value$plusargs("rows=%s", path)) begin'
    yield '      file = $fopen(path, "r"); got = $fgets(heading, file); got = $fgets(heading, file);'
    yield "    end"
    yield "    repeat (cycles) begin"
    yield "      if (file != 0) got = %s; else begin%s end" % (read, made)
    yield "      #1 clock = 1;"
    yield "      #1 clock = 0;"
    yield "    end"
    yield "    show = 1;"
    yield "    #1 $finish;"
    yield "  end"
    yield "endmodule"


HARNESS = """#include <cstdint>
#include <cstdio>
#include <cstdlib>
#include "Vbench.h"
static FILE* file = nullptr;
static char block[65536];
static size_t used = 0, held = 0;
static int next_byte() {
    if (used == held) {
        held = fread(block, 1, sizeof block, file);
        used = 0;
        if (held == 0) return -1;
    }
    return block[used++];
}
static uint64_t x = %dULL;
static uint64_t next_value() {
    if (!file) {
        x = x * %dULL + %dULL;
        return x >> 32;
    }
    uint64_t value = 0;
    for (int byte; (byte = next_byte()) > ' ';) {
        int digit = byte <= '9' ? byte - '0' : byte - 'a' + 10;
        if (digit < 0 || digit > 15) exit(4);
        value = value << 4 | digit;
    }
    return value;
}
int main(int count, char** words) {
    if (count > 2) {
        file = fopen(words[2], "r");
        for (int lines = 0; lines < 2;) lines += next_byte() == '\\n';
    }
    Vbench bench;
    for (long left = atol(words[1]); left > 0; --left) {"""


def harness(design):
    yield HARNESS % (SEED, MULTIPLIER, INCREMENT)
    for number, width in design.of_role(INPUT):
        yield "        bench.s%d = next_value() & 0x%xULL;" % (number, 2 ** width - 1)
    yield "        bench.s0 = 0;"
    yield "        bench.eval();"
    yield "        bench.s0 = 1;"
    yield "        bench.eval();"
    yield "    }"
    yield "    bench.show = 1;"
    yield "    bench.eval();"
    yield "    bench.final();"
    yield "}"


class Simulator:
    """A simulator that is ready to run a design: its name, its command for a number of cycles and for rows that it reads, if any, and
    which share of the cycles it runs."""

    def __init__(self, name, command, share=1):
        self.name, self.command, self.share = name, command, share

    def run(self, cycles, rows):
        """The state after so many cycles, and the seconds of processor time."""
        before = processor_time()
        done = subprocess.run(self.command(cycles, rows), check=True, stdout=subprocess.PIPE, text=True)
        time = processor_time() - before
        return [int(line, 16) for line in done.stdout.split("\n") if line and " " not in line], time


def icarus(folder, name, design):
    if not shutil.which("iverilog") or not shutil.which("vvp"):
        return None
    built = os.path.join(folder, name + ".vvp")
    sources = [written(folder, name + ".v", design.verilog()), written(folder, name + "_testbench.v", testbench(design))]
    subprocess.run(["iverilog", "-g2005", "-o", built, "-s", "testbench"] + sources, check=True)
    words = lambda cycles, rows: ["vvp", "-n", built, "+cycles=%d" % cycles] + (["+rows=" + rows] if rows else [])
    return Simulator("Icarus", words, FEW_FOR_ICARUS)


def verilator(folder, name, design):
    if not all(shutil.which(it) for it in ("verilator", "make", "g++")):
        return None
    made = os.path.join(folder, name + "_verilated")
    source, main = written(folder, name + ".v", design.verilog()), written(folder, name + ".cpp", harness(design))
    words = ["-O3", "--x-initial", "fast", "--x-assign", "fast", "-Wno-fatal", "-Wno-lint", "--noassert", "-CFLAGS", "-O3", "--Mdir", made]
    with open(os.path.join(folder, name + ".log"), "w") as log:
        command = ["verilator", "--cc", "--exe", "--build", "--top-module", "bench", "-o", name] + words + [source, main]
        subprocess.run(command, check=True, stdout=log, stderr=log)
    return Simulator("Verilator", lambda cycles, rows: [os.path.join(made, name), str(cycles)] + ([rows] if rows else []))


def ours(program, folder, name, design):
    lines = (" ".join(str(it) for it in numbers) for numbers in design.numbers())
    path = written(folder, name + ".draft", lines)
    return Simulator("flat_sim", lambda cycles, rows: [program, path, str(cycles)] + ([rows] if rows else []))


def nanoseconds_a_cycle(folder, simulators, design, cycles, has_text):
    """Of each the median of runs that alternate; stops where a state is another one."""
    times = {it.name: [] for it in simulators}
    counts = {it.name: cycles // it.share for it in simulators}
    rows = {}
    for count in {0, *counts.values()}:
        rows[count] = written(folder, "rows_%d" % count, stimulus(design, count)) if has_text else None
    states = {count: simulators[0].run(count, rows[count])[0] for count in set(counts.values())}
    for _ in range(RUNS):
        for it in simulators:
            count = counts[it.name]
            state, time = it.run(count, rows[count])
            if state != states[count]:
                sys.exit("%s comes to another state in %d cycles" % (it.name, count))
            times[it.name].append((time - it.run(0, rows[0])[1]) / count * 1e9)
    return {name: statistics.median(all_of) for name, all_of in times.items()}


def compare(program, folder, name, design, cycles):
    peers = [icarus(folder, name, design), verilator(folder, name, design)]
    for peer, it in zip(("Icarus Verilog", "Verilator"), peers):
        if not it:
            print("%s isn't installed" % peer)
    simulators = [ours(program, folder, name, design)] + [it for it in peers if it]
    made = nanoseconds_a_cycle(folder, simulators, design, cycles, False)
    read = nanoseconds_a_cycle(folder, simulators, design, cycles, True)
    print("%s, %d nodes, %d cycles" % (name, len(design.nodes), cycles))
    print("             rows made: ns a cycle  flat_sim / it   rows read: ns a cycle  flat_sim / it")
    for it in simulators:
        ratios = [times["flat_sim"] / times[it.name] for times in (made, read)]
        print("  %-10s %21.1f %14.3f %23.1f %14.3f" % (it.name, made[it.name], ratios[0], read[it.name], ratios[1]))


def start_of(simulator):
    """The milliseconds from the draft to the first cycle, the least of RUNS."""
    runs = (subprocess.run(simulator.command(0, None), check=True, stdout=subprocess.PIPE, text=True) for _ in range(RUNS))
    return min(int(run.stdout.split()[1]) for run in runs) / 1e6


def kilobytes(simulator, cycles):
    command = ["/usr/bin/time", "-f", "%M"] + simulator.command(cycles, None)
    return int(subprocess.run(command, check=True, stdout=subprocess.DEVNULL, stderr=subprocess.PIPE, text=True).stderr.split()[-1])


def main():
    with tempfile.TemporaryDirectory() as folder:
        program = os.path.abspath(sys.argv[1]) if len(sys.argv) > 1 else built_of_rattle(folder, "engine", BELOW, PROOFS)
        core = Core(CORE_SEED).design
        compare(program, folder, "soak", soak(), SOAK_CYCLES)
        compare(program, folder, "core", core, CORE_CYCLES)
        print("nodes     start, ms")
        for scale in (1, 8, 64):
            design = Core(CORE_SEED, scale).design
            print("%8d %10.1f" % (len(design.nodes), start_of(ours(program, folder, "start", design))))
        if os.path.exists("/usr/bin/time"):
            print("peak memory, KiB     1 cycle  %d cycles" % CORE_CYCLES)
            for name, design in (("core", core), ("1,048,576 words", with_large_memory())):
                it = ours(program, folder, "memory", design)
                print("  %-17s %9d %12d" % (name, kilobytes(it, 1), kilobytes(it, CORE_CYCLES)))


if __name__ == "__main__":
    main()
