#!/usr/bin/env python3
"""Tests stimulus_from_vcd.py: on small dumps, on those that dumps/record.sh recorded, and on the built program.

    tools/test_stimulus_from_vcd.py [PROGRAM]

PROGRAM is the program, ./dessert for one: over the stimulus of a recorded dump it must find the failure that the testbench found. Without
it these tests are skipped. The simulators aren't wanted.
"""
import io
import os
import re
import subprocess
import sys
import tempfile
import unittest
from unittest import mock

import stimulus_from_vcd as tool

TOOLS = os.path.dirname(os.path.abspath(__file__))
TOP = os.path.dirname(TOOLS)
TOOL = os.path.join(TOOLS, "stimulus_from_vcd.py")
PROGRAM = None

DECLARATIONS = "$var wire 1 ! clk $end\n$var wire 1 % a $end\n$var wire 8 & b [7:0] $end\n"
START = "#0\n$dumpvars\n0!\n0%\nb0 &\n$end\n"


def dump_of(body, declarations=DECLARATIONS):
    """A dump of the scope tb.dut whose declarations are lines 3 to 5, and whose body begins at line 9."""
    head = "$timescale 1ns $end\n$scope module tb $end $scope module dut $end\n"
    return (head + declarations + "$upscope $end\n$upscope $end\n$enddefinitions $end\n" + body).encode()


def converted(dump, *words):
    """The status, the stimulus and what is said, of a dump on standard input."""
    streams = [io.TextIOWrapper(io.BytesIO(dump)), io.TextIOWrapper(io.BytesIO()), io.StringIO()]
    words = ["--scope", "tb.dut", "--clock", "clk", *words, "-"]
    with mock.patch.multiple(sys, stdin=streams[0], stdout=streams[1], stderr=streams[2]):
        status = tool.main(words)
    return status, streams[1].buffer.getvalue().decode(), streams[2].getvalue()


class Converts(unittest.TestCase):
    """Dumps that are taken: what it shows, the body (or declarations and body), words, and the lines after `stimulus 1`."""

    TABLE = [
        ("a row for each rising edge", START + "#5 1!\n#10 0!\n#11 1%\n#15 1!\n", [], ["inputs a b", "0 0", "1 0"]),
        ("the falling edge gives none", START + "#5\n1!\n#10\n0!\n", [], ["inputs a b", "0 0"]),
        ("a clock that stays gives none", START + "#5\n1!\n#10\n1!\n#15\n1!\n", [], ["inputs a b", "0 0"]),
        ("a clock that begins at 1 has no edge there", "#0\n1!\n1%\nb10 &\n#5\n0!\n#10\n1!\n", [], ["inputs a b", "1 2"]),
        ("first values before any time", "$dumpvars 0! 1% b1 & $end\n#0\n1!\n", [], ["inputs a b", "1 1"]),
        ("a change after the edge at its time doesn't count", START + "#5\n1!\n1%\n#10\n0!\n#15\n1!\n", [], ["inputs a b", "0 0", "1 0"]),
        ("a change before it at its time doesn't either", START + "#5\n1%\n1!\n#10\n0!\n#15\n1!\n", [], ["inputs a b", "0 0", "1 0"]),
        ("one time that stands twice is one", START + "#5\n1%\n#5\n1!\n#10\n0!\n", [], ["inputs a b", "0 0"]),
        ("of two changes at one time the last counts", START + "#2\n1%\n0%\n#5\n1!\n", [], ["inputs a b", "0 0"]),
        ("two edges at one time, with nothing else there", START + "#5\n1!\n0!\n1!\n", [], ["inputs a b", "0 0", "0 0"]),
        ("a pulse without length is an edge", START + "#5\n1!\n0!\n#6\n1%\n#10\n1!\n", [], ["inputs a b", "0 0", "1 0"]),
        ("an edge that $dumpall alone tells", START + "#5\n$dumpall\n1!\n1%\nb11 &\n$end\n", [], ["inputs a b", "0 0"]),
        ("words may share a line, and part over lines", "#0 0! 0% b11\n&\n#5 1!\n", [], ["inputs a b", "0 3"]),
        ("ends of lines with CR", START.replace("\n", "\r\n") + "#5\r\n1!\r\n", [], ["inputs a b", "0 0"]),
        ("vectors in lower case without leading zeros", START + "#1\nb10101111 &\n#5\n1!\n", [], ["inputs a b", "0 af"]),
        ("a short vector is extended by 0", START + "#1\nB101 &\n#5\n1!\n", [], ["inputs a b", "0 5"]),
        ("inputs in the order asked for", START + "#1\nb1 &\n#5\n1!\n", ["--inputs", "b,a"], ["inputs b a", "1 0"]),
        ("no inputs", START + "#5\n1!\n", ["--inputs", ""], ["inputs", ""]),
        ("other commands are passed over", START + "$comment 1% #9 $end\n$vcdclose 3 $end\n#5\n1!\n", [], ["inputs a b", "0 0"]),
        ("a dump that is off at its end", START + "#5 1!\n#7\n$dumpoff\nx!\nx%\nbx &\n$end\n", [], ["inputs a b", "0 0"]),
        ("an edge where the dump goes off", START + "#5 1!\n$dumpoff\nx!\nx%\nbx &\n$end\n", [], ["inputs a b", "0 0"]),
        (
            "a gap, with --x0: $dumpon tells values and no edge",
            START + "#5 1!\n#7\n$dumpoff\nx!\nx%\nbx &\n$end\n#25\n$dumpon\n1!\n1%\nb10 &\n$end\n#30 0!\n#35 1!\n",
            ["--x0"],
            ["inputs a b", "0 0", "1 2"],
        ),
        (
            "a gap in which the clock rises, with --x0",
            START + "#5 1!\n#6 0!\n#7\n$dumpoff\nx!\nx%\nbx &\n$end\n#25\n$dumpon\n1!\n1%\nb10 &\n$end\n#30 0!\n#35 1!\n",
            ["--x0"],
            ["inputs a b", "0 0", "1 2"],
        ),
        ("x and z with --x0", START + "#1\nbzx1 &\nz%\n#5\n1!\n", ["--x0"], ["inputs a b", "0 1"]),
        ("x extends x, with --x0", START + "#1\nbX &\n#2\nb11 &\n#5\n1!\n", ["--x0"], ["inputs a b", "0 3"]),
        ("x at the clock with --x0 is 0", START + "#1\nx!\n#2\n1!\n#3\nx!\n#4\n0!\n#5\n1!\n", ["--x0"], ["inputs a b", "0 0", "0 0"]),
        ("x where no edge is", START + "#1\nx%\nbx &\n#2\n0%\nb1 &\n#5\n1!\n", [], ["inputs a b", "0 1"]),
        ("the edge that the run stopped at", START + "#5\n1!\n#10\n0!\n#12\n1%\n", ["--stopped"], ["inputs a b", "0 0", "1 0"]),
        ("no edge after a dump that is off", START + "#5 1!\n#7\n$dumpoff\nx!\n$end\n", ["--stopped"], ["inputs a b", "0 0"]),
        ("no edge can come after the end", START + "#5\n1!\n#10\n1%\n", ["--stopped"], ["inputs a b", "0 0"]),
    ]

    def test_table(self):
        for shows, body, words, lines in self.TABLE:
            with self.subTest(shows):
                status, stimulus, _ = converted(dump_of(body), *words)
                self.assertEqual((status, stimulus), (0, "\n".join(["stimulus 1"] + lines) + "\n"))

    DECLARED = [
        ("a range at the name", "$var wire 1 ! clk $end $var wire 8 & b[7:0] $end", ["inputs b", "a5"]),
        ("a range with blanks", "$var wire 1 ! clk $end $var wire 8 & b [7 : 0] $end", ["inputs b", "a5"]),
        ("no range", "$var wire 1 ! clk $end $var wire 8 & b $end", ["inputs b", "a5"]),
        ("a range that rises", "$var wire 1 ! clk $end $var wire 8 & b [0:7] $end", ["inputs b", "a5"]),
        ("an element of an array", "$var wire 1 ! clk $end $var wire 8 & b[3] [7:0] $end", ["inputs b[3]", "a5"]),
        ("the same without its range", "$var wire 1 ! clk $end $var wire 8 & b[3] $end", ["inputs b[3]", "a5"]),
        ("an escaped name", "$var wire 1 ! clk $end $var wire 8 & \\b+c[3] [7:0] $end", ["inputs b+c[3]", "a5"]),
        ("an escaped name like a bit", "$var wire 1 ! clk $end $var wire 1 , \\b[3] $end", ["inputs b[3]", "1"]),
        ("a name with bytes of UTF-8", "$var wire 1 ! clk $end $var wire 8 & \\é $end", ["inputs é", "a5"]),
        ("two names of one code", "$var wire 1 ! clk $end $var wire 8 & b $end $var wire 8 & c $end", ["inputs b c", "a5 a5"]),
        ("an input that is the clock's net", "$var wire 1 ! clk $end $var wire 1 ! b $end", ["inputs b", "0"]),
        ("a declaration that stands twice", "$var wire 1 ! clk $end $var wire 8 & b $end $var wire 8 & b $end", ["inputs b", "a5"]),
        (
            "no real, parameter or event",
            "$var wire 1 ! clk $end $var real 64 ' r $end $var parameter 8 & P $end $var event 1 ( e $end $var reg 8 & b $end",
            ["inputs b", "a5"],
        ),
        (
            "other scopes, of the same names",
            "$scope module in $end $var wire 4 ) b $end $upscope $end $var wire 1 ! clk $end $var wire 8 & b $end "
            "$scope begin g $end $var wire 4 ) b $end $upscope $end "
            "$scope module tb $end $scope module dut $end $var wire 4 ) b $end $upscope $end $upscope $end",
            ["inputs b", "a5"],
        ),
        (
            "a scope that is opened twice",
            "$var wire 1 ! clk $end $upscope $end $scope module dut $end $var wire 8 & b $end",
            ["inputs b", "a5"],
        ),
        (
            "a vector in bits",
            "$var wire 1 ! clk $end $var wire 1 * b [1] $end $var wire 1 + b [0] $end $var wire 1 , b [2] $end",
            ["inputs b", "4"],
        ),
        ("bits with the index at the name", "$var wire 1 ! clk $end $var wire 1 * b[0] $end $var wire 1 , b[1] $end", ["inputs b", "2"]),
        ("a vector in parts", "$var wire 1 ! clk $end $var wire 8 & b [15:8] $end $var wire 8 & b [7:0] $end", ["inputs b", "a5a5"]),
        ("parts that rise", "$var wire 1 ! clk $end $var wire 1 + b [8] $end $var wire 8 & b [0:7] $end", ["inputs b", "14a"]),
        ("codes that look like commands", "$var wire 1 ! clk $end $var wire 8 $end b $end", ["inputs b", "1"]),
    ]

    def test_declarations(self):
        body = "#0\n0!\n0*\n0+\n1,\nb1 $end\nr1.5e-3 '\nsone '\nrNaN '\nb1001 )\nb10100101 &\n#5\n1!\n1(\n"
        for shows, declarations, lines in self.DECLARED:
            with self.subTest(shows):
                status, stimulus, said = converted(dump_of(body, declarations + "\n"))
                self.assertEqual((status, stimulus, said), (0, "\n".join(["stimulus 1"] + lines) + "\n", ""))

    def test_notes(self):
        gap = "#7\n$dumpoff\nx!\nx%\nbx &\n$end\n#25\n$dumpon\n0!\n1%\nb10 &\n$end\n"
        table = [
            (START + "#1\nbx &\nz%\n#5 1!\n#10 0!\n#15 1!\n", ["--x0"], ["values that were x or z and are taken as 0: 4"]),
            (START + gap + "#35 1!\n", ["--x0"], ["gaps of the dump, of which there are no rows: 1"]),
            (START + "#5 1!\n#10 0!\n", [], ["the dump ends before clk rises again: "]),
            (START + "#5 1!\n#10 0!\n", ["--stopped"], []),
            (START + "#5 1!\n", [], []),
        ]
        for body, words, notes in table:
            with self.subTest(notes):
                status, _, said = converted(dump_of(body), *words)
                self.assertEqual((status, len(said.splitlines())), (0, len(notes)))
                for note, line in zip(notes, said.splitlines()):
                    self.assertIn(note, line)


class Refuses(unittest.TestCase):
    """Dumps that are refused: the declarations, the body, words, the line, and the reason's beginning."""

    WITH_A = DECLARATIONS
    TABLE = [
        (WITH_A, START + "#5\n1!\n", ["--scope", "tb.dt"], 8, "no scope tb.dt; the nearest: tb.dut, tb"),
        (WITH_A, START + "#5\n1!\n", ["--scope", "tb.dut.a"], 8, "no scope tb.dut.a; the nearest: tb.dut"),
        (WITH_A, START + "#5\n1!\n", ["--clock", "clock"], 8, "no clock clock in tb.dut; the nearest: clk"),
        (WITH_A, START + "#5\n1!\n", ["--clock", "b"], 8, "b isn't a signal of one bit, as a clock is"),
        (WITH_A, START + "#5\n1!\n", ["--inputs", "a,bb"], 8, "no input bb in tb.dut; the nearest: b"),
        (WITH_A + "$var real 64 ' r $end\n", START, ["--inputs", "r"], 9, "r is no signal, but of the kind real"),
        (WITH_A + "$var wire 2 ' a $end\n", START, [], 9, "a is declared more than once"),
        (WITH_A + "$var wire 1 ' c [3] $end\n$var wire 1 ( c [1] $end\n", START, [], 10, "between c[3, 3] and c[1, 1] bits are missing"),
        (WITH_A, START + "#3\nx%\n#5\n1!\n", [], 18, "a is x at the clock's edge at time 5; --x0 takes x and z as 0"),
        (WITH_A, START + "#3\nbz01 &\n#5\n1!\n1%\n#6\n", [], 18, "b is zzzzzz01 at the clock's edge at time 5"),
        (WITH_A, "#0\n0!\n0%\n#5\n1!\n", [], 13, "b is xxxxxxxx at the clock's edge at time 5"),
        (WITH_A, START + "#5\nx!\n", [], 16, "clk is 0 and then x at the clock's edge at time 5"),
        (WITH_A, START + "#5\nz!\n", ["--x0"], 16, "no rising edge of clk"),
        (WITH_A, "#0\nx!\n0%\nb0 &\n#5\n1!\n", [], 14, "clk is x and then 1 at the clock's edge at time 5"),
        (WITH_A, START + "#5\n1!\n0!\n1!\n1%\n", [], 18, "the clock rises 2 times at time 5, where inputs change"),
        (WITH_A, START, [], 14, "no rising edge of clk"),
        (WITH_A, START + "#5\n1%\n", [], 16, "no rising edge of clk"),
        (WITH_A, START + "#7\n$dumpoff\nx!\n$end\n#9\n$dumpon\n0!\n$end\n#10\n1!\n", [], 24, "the dump is off from time 7 (line 16), and"),
        (WITH_A, START + "#7 $dumpoff $end #8 $dumpon $end #9 $dumpoff $end\n#10 0! #15 1!\n", [], 16, "the dump is off from time 7 "),
        (WITH_A, START + "#5\n1!\n#10", [], 17, "the dump ends in the middle of a line"),
        (WITH_A, START + "#5\n1!\nb101\n", [], 17, "the dump ends in the middle of a value"),
        (WITH_A, START + "#5\n1!\n#7\n$dumpall\n1!\n", [], 19, "the dump ends in the middle of $dumpall"),
        (WITH_A, START + "#5\n1!\n$comment it goes\n", [], 17, "the dump ends in the middle of $comment"),
        (WITH_A, START + "#5\n1!\n1\n!\n", [], 17, "a value without its variable's code"),
        (WITH_A, START + "#5\n1!\np1 %\n", [], 17, "p1 is no change of a value"),
        (WITH_A, START + "#5\n1!\nb2 &\n", [], 17, "2 is no value of its variable, whose width is 8"),
        (WITH_A, START + "#5\n1!\nb1_0 &\n", [], 17, "1_0 is no value of its variable, whose width is 8"),
        (WITH_A, START + "#5\n1!\nb000000001 &\n", [], 17, "000000001 is no value of its variable, whose width is 8"),
        (WITH_A, START + "#5\n1!\nb &\n", [], 17, " is no value of its variable, whose width is 8"),
        (WITH_A, START + "#5\n1!\n#4\n", [], 17, "time 4 stands after time 5"),
        (WITH_A, START + "#5\n1!\n#-6\n", [], 17, "a time that isn't a number"),
        ("$var wire one ! clk $end\n", "", [], 3, "a declaration without a width, a name or its $end"),
        ("$var wire 1 ! $end\n", "", [], 3, "a declaration without a width, a name or its $end"),
        ("$var wire 1 ! clk\n", "", [], 4, "a declaration without a width, a name or its $end"),
        ("$upscope $end\n$upscope $end\n$upscope $end\n", "", [], 5, "an $upscope without its $scope"),
    ]

    def refused(self, outcome, line, why):
        status, stimulus, said = outcome
        self.assertEqual((status, stimulus), (2, ""))
        self.assertRegex(said, r"\A[^\n]+\n\Z")
        self.assertIn(f" -:{line}: {why.strip()}" if line else why, said)

    def test_table(self):
        for declarations, body, words, line, why in self.TABLE:
            with self.subTest(why):
                self.refused(converted(dump_of(body, declarations), *words), line, why)

    def test_no_dump(self):
        for dump, line, why in [
            (b"", 0, "the dump ends in the middle of its header"),
            (b"$scope module tb $end\n$var wire 1 ! clk\n", 2, "the dump ends in the middle of a declaration"),
            (b"$scope module tb $end\n", 1, "the dump ends in the middle of its header"),
            (b"\0\1\2FST\n", 1, "this isn't the header of a value change dump"),
            (b"module cnt(input clk);\nendmodule\n", 1, "this isn't the header of a value change dump"),
        ]:
            with self.subTest(dump):
                self.refused(converted(dump), line, why)

    def test_each_front(self):
        """A dump that is cut anywhere but at a line's end is refused; and cut there it gives the first rows, or is refused."""
        dump = dump_of(START + "#5\n1!\n#7\nb110 &\n#10\n0!\n#15\n1!\n")
        whole = converted(dump)[1]
        self.assertEqual(whole, "stimulus 1\ninputs a b\n0 0\n0 6\n")
        for length in range(len(dump)):
            status, stimulus, _ = converted(dump[:length])
            self.assertEqual(status, 0 if stimulus else 2)
            self.assertTrue(whole.startswith(stimulus) and (dump[:length].endswith(b"\n") or not stimulus), length)

    def test_too_many_rows(self):
        self.assertEqual(tool.MOST_ROWS, 1_048_576)
        body = START + "".join(f"#{10 * t + 5} 1!\n#{10 * t + 10} 0!\n" for t in range(3))
        with mock.patch.object(tool, "MOST_ROWS", 3):
            self.assertEqual(converted(dump_of(body))[0], 0)
            self.refused(converted(dump_of(body + "#35 1!\n")), 21, "more than 3 rising edges, and a stimulus has no more rows")
            self.refused(converted(dump_of(body), "--stopped"), 20, "more than 3 rising edges, and a stimulus has no more rows")

    def test_words(self):
        for words, why in [
            (["--inputs", "a", "--design", "a.v", "--x0"], "not allowed with argument"),
            (["--inputs", "a,a"], "an input stands twice, or is the clock"),
            (["--inputs", "a,clk"], "an input stands twice, or is the clock"),
            (["--rows", "3"], "unrecognized arguments"),
            (["--design", "there/is/none.v", "--x0"], "No such file"),
        ]:
            with self.subTest(why):
                self.refused(converted(dump_of(START + "#5\n1!\n"), *words), None, why)


class ReadsDesigns(unittest.TestCase):
    """Verilog texts, and the data inputs of their top; or the beginning of the refusal's reason."""

    TABLE = [
        ("module m(input clk, input [7:0] a, b, output reg c, input d); endmodule", "a b d"),
        ("module m(clk, c, a, d); input clk; input [7:0] a, d; output c; endmodule", "a d"),
        ("module m #(parameter W = f(3), V = 2) (input wire signed [W-1:0] a, input clk); endmodule", "a"),
        ("module m(input clk, // input x,\n /* input y, */ input \\a+b , (* keep *) input z); endmodule", "a+b z"),
        ("`define PORT input [7:0] \\\n  q\n`timescale 1ns/1ps\nmodule m(input clk, input [`WIDTH:0] a); endmodule", "a"),
        ("module m(input clk); endmodule", ""),
        ("module low(input clk, input x); endmodule module m(input clk, input y); low #(3) l(clk, y); endmodule", "y"),
        ("module m(input clk, input y); low l(clk, y); endmodule module low(input clk, input x); endmodule", "y"),
        ("module m(input clk, input a); initial $display(\"module n(input b);\"); always @(*) ; endmodule", "a"),
        ("module m(input clk, input a); endmodule module n(input clk, input b); endmodule", "!the design's top isn't clear, as"),
        ("", "!the design's top isn't clear"),
        ("module m(input a); endmodule", "!the design's top m has no input clk"),
        ("module m(input clk,\n`ifdef WIDE\ninput b,\n`endif\ninput a); endmodule", "!the ports of m have `ifdef, which isn't read here"),
        ("module m(.p(clk), a); input clk, a; endmodule", "!the ports of m have ., which isn't read here"),
    ]

    def test_table(self):
        with tempfile.TemporaryDirectory() as folder:
            path = os.path.join(folder, "m.v")
            for text, told in self.TABLE:
                with self.subTest(text), open(path, "w") as file:
                    file.write(text)
                    file.flush()
                    if told.startswith("!"):
                        self.assertRaisesRegex(tool.Refusal, re.escape(told[1:]), tool.read_design, [path], "clk")
                    else:
                        self.assertEqual(tool.read_design([path], "clk"), told.split())


class Recorded(unittest.TestCase):
    """The dumps that simulators wrote: the stimulus has the inputs that the testbench said at each edge."""

    # The testbench, the simulator, the scope, and the files of the design.
    EXAMPLES = [
        ("cnt", "icarus", "tb.dut", ["examples/cnt.v"]),
        ("cnt", "verilator", "TOP.tb.dut", ["examples/cnt.v"]),
        ("cnt", "gtkwave", "tb.dut", ["examples/cnt.v"]),
        ("watchdog", "icarus", "tb.dut", ["examples/watchdog.v"]),
        ("watchdog", "verilator", "TOP.tb.dut", ["examples/watchdog.v"]),
        ("timer", "icarus", "tb.dut", ["examples/bus.v", "examples/timer.v"]),
        ("timer", "verilator", "TOP.tb.dut", ["examples/bus.v", "examples/timer.v"]),
    ]
    IN_THE_GAP = [15, 16]

    def path(self, name, simulator, ending):
        return os.path.join(TOOLS, "dumps", f"{name}.{simulator}.{ending}")

    def said(self, name, simulator):
        """What the testbench said: the inputs of each cycle, and the first failure."""
        with open(self.path(name, simulator, "log")) as file:
            log = file.read()
        rows = [[int(digits, 16) for digits in row.split()] for row in re.findall(r"^cycle \d+: (.*)$", log, re.MULTILINE)]
        failure = re.search(r"^failure at cycle (\d+)$", log, re.MULTILINE)
        return rows, int(failure[1]) if failure else None

    def example(self, name, simulator, scope, files):
        """The stimulus, by a command as the README has it."""
        words = ["--scope", scope, "--clock", "clk", "--design", *files, "--stopped", "--", self.path(name, simulator, "vcd")]
        done = subprocess.run([sys.executable, TOOL, *words], cwd=TOP, capture_output=True, text=True)
        self.assertEqual((done.returncode, done.stderr), (0, ""))
        return done.stdout

    def features(self, simulator, *words):
        with open(self.path("features", simulator, "vcd"), "rb") as file:
            return converted(file.read(), "--inputs", "data,mask,a+b,copy,wide", *words)

    def rows_of(self, stimulus):
        return [[int(digits, 16) for digits in line.split()] for line in stimulus.splitlines()[2:]]

    def test_examples(self):
        for name, simulator, scope, files in self.EXAMPLES:
            with self.subTest(name, simulator=simulator):
                rows, failure = self.said(name, simulator)
                taken = self.rows_of(self.example(name, simulator, scope, files))
                self.assertEqual(len(taken), failure + 1)
                # A run that stops in its failing cycle may not come to say that cycle's inputs.
                self.assertIn(len(rows), (failure, failure + 1))
                self.assertEqual(taken[: len(rows)], rows)

    def test_features_of_verilator(self):
        status, stimulus, _ = self.features("verilator", "--scope", "TOP.tb.dut.part.core")
        self.assertEqual((status, stimulus.splitlines()[1]), (0, "inputs data mask a+b copy wide"))
        self.assertEqual(self.rows_of(stimulus), self.said("features", "verilator")[0])

    def test_features_of_icarus(self):
        status, stimulus, said = self.features("icarus", "--scope", "tb.dut.part.core")
        self.assertEqual((status, stimulus), (2, ""))
        self.assertIn("the dump is off from time 153", said)
        status, stimulus, said = self.features("icarus", "--scope", "tb.dut.part.core", "--x0")
        rows = [row for cycle, row in enumerate(self.said("features", "icarus")[0]) if cycle not in self.IN_THE_GAP]
        self.assertEqual((status, self.rows_of(stimulus)), (0, rows))
        self.assertIn("gaps of the dump, of which there are no rows: 1", said)

    def test_round_trip(self):
        """The program's first failure is the testbench's own."""
        if not PROGRAM:
            self.skipTest("no program was given")
        for name, simulator, scope, files in self.EXAMPLES:
            with self.subTest(name, simulator=simulator):
                stimulus = self.example(name, simulator, scope, files)
                done = subprocess.run([PROGRAM, "sim", *files], cwd=TOP, input=stimulus, capture_output=True, text=True)
                failure = self.said(name, simulator)[1]
                self.assertEqual((done.returncode, done.stderr.splitlines()[0]), (1, f"failure at cycle {failure}"))


class Runs(unittest.TestCase):
    """The command as a process."""

    def test_output_that_closes(self):
        """A reader that takes nothing, as a program whose words are bad."""
        ends = os.pipe()
        os.close(ends[0])
        words = ["--scope", "tb.dut", "--clock", "clk", "-"]
        dump = dump_of(START + "#5\n1!\n")
        plain = {name: value for name, value in os.environ.items() if not name.startswith("PYTHON")}
        done = subprocess.run([sys.executable, TOOL, *words], input=dump, stdout=ends[1], stderr=subprocess.PIPE, env=plain)
        os.close(ends[1])
        self.assertEqual(done.returncode, 2)
        self.assertRegex(done.stderr.decode(), r"\A[^\n]+\n\Z")


if __name__ == "__main__":
    if len(sys.argv) > 1 and not sys.argv[1].startswith("-"):
        PROGRAM = os.path.abspath(sys.argv.pop(1))
    unittest.main()
