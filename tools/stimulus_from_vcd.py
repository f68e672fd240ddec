#!/usr/bin/env python3
"""Makes the stimulus of `dessert sim` from a waveform: a value change dump (VCD; IEEE 1364-2005, clause 18) of a run's inputs.

    tools/stimulus_from_vcd.py --scope tb.dut --clock clk --design dut.v --stopped -- dump.vcd > dut.stimulus

The stimulus has a row for each rising edge of the clock, with the value that each input had just before the edge, as registers take it:
what changes at the same time as the clock doesn't count, wherever it stands there. docs/FORMATS.md says the form of the text.

The dump is read once, as a stream, in five steps, which are the parts of this file:

- `Dump`: the dump's words, each with its line.
- `read_header`: the variables of the scope.
- `read_design`: the inputs that the design's top has, where --design asks for them.
- `choose_inputs`: which codes of the dump the inputs' bits stand under.
- `Recorder`: the changes, and a row for each edge.

What can't be used is a `Refusal`: one line on standard error with the dump's line, status 2, and nothing on standard output, as the rows
wait in a temporary file until the dump is at its end. So memory doesn't grow with the dump, and a pipe never takes a part for the whole.
"""
import argparse
import contextlib
import difflib
import os
import re
import shutil
import sys
import tempfile
from collections.abc import Iterable, Iterator
from dataclasses import dataclass, field
from typing import BinaryIO, NoReturn, Optional

MOST_ROWS = 1_048_576
MOST_NEAR_NAMES = 3

# Kinds of variables that are no signals: without --inputs and --design they are passed over.
NO_SIGNALS = frozenset(["real", "realtime", "shortreal", "real_parameter", "parameter", "event", "string"])

# First bytes of the changes in a dump's body.
SCALAR_MARKS = frozenset(b"01xXzZ")
VECTOR_MARKS = frozenset(b"bB")
PASSED_OVER_MARKS = frozenset(b"rRsS")
TIME_MARK = ord("#")
COMMAND_MARK = ord("$")

# Commands that hold changes of their own up to their $end; every other one is passed over.
CHECKPOINTS = frozenset([b"$dumpvars", b"$dumpall", b"$dumpon", b"$dumpoff"])

# The rising edges of 9.7.2: the clock's value before and after. All but the first are refused, or have 0 for x and z.
RISING = frozenset([(b"0", b"1"), (b"0", b"x"), (b"0", b"z"), (b"x", b"1"), (b"z", b"1")])

KNOWN_BITS = frozenset([b"0", b"1"])
UNKNOWN_AS_ZERO = bytes.maketrans(b"xz", b"00")


class Refusal(Exception):
    """Why there is no stimulus, and the line of the dump, where it is the dump's fault."""

    def __init__(self, why: str, line: Optional[int] = None):
        super().__init__(why)
        self.line = line


def shown(name: bytes) -> str:
    return name.decode("utf-8", "surrogateescape")


def plain(name: str) -> str:
    """A name without the backslash and the blank of an escaped one: some simulators write them, and others don't."""
    return name.strip().removeprefix("\\")


def plain_path(path: str) -> str:
    return ".".join(plain(name) for name in path.split("."))


def near(name: str, names: Iterable[str]) -> str:
    """The end of a refusal of a name: those that are nearest to it, or else the first ones."""
    names = list(dict.fromkeys(names))
    nearest = difflib.get_close_matches(name, names, MOST_NEAR_NAMES, 0.4) or names[:MOST_NEAR_NAMES]
    return "; the nearest: " + ", ".join(nearest) if nearest else ""


# The dump's words.


class Dump:
    """The words of a dump, which blanks and ends of lines part; `line` is the line of the last word taken, from 1."""

    def __init__(self, stream: BinaryIO):
        self._stream = stream
        self.line = 0
        self.words = self._read()

    def _read(self) -> Iterator[bytes]:
        text = b"\n"
        for self.line, text in enumerate(self._stream, 1):
            yield from text.split()
        if not text.endswith(b"\n"):
            self.refuse("the dump ends in the middle of a line")

    def refuse(self, why: str) -> NoReturn:
        raise Refusal(why, self.line)

    def take(self, within: str) -> bytes:
        """The next word, which must be there."""
        if (word := next(self.words, None)) is not None:
            return word
        self.refuse(f"the dump ends in the middle of {within}")

    def take_to_end(self, within: str) -> list[bytes]:
        """The words up to the next $end."""
        taken = []
        while (word := self.take(within)) != b"$end":
            taken.append(word)
        return taken


# The header.


@dataclass(frozen=True)
class Variable:
    """A variable as the header declares it; `bits` are the indices of its left and right bit, where it says them."""

    kind: str
    width: int
    code: bytes
    name: str
    bits: Optional[tuple[int, int]]

    @property
    def is_signal(self) -> bool:
        return self.kind not in NO_SIGNALS and self.width > 0


@dataclass
class Header:
    """The variables of one scope by name, in order of the header. A vector may stand in pieces, each a variable of the same name."""

    scope: str
    line: int
    variables: dict[str, list[Variable]]


RANGE = re.compile(r"\[(-?\d+)(?::(-?\d+))?\]")
NAME_AND_RANGE = re.compile(r"([^\\].*?)(\[-?\d+(?::-?\d+)?\])")


def bits_of(text: str) -> Optional[tuple[int, int]]:
    found = RANGE.fullmatch(text)
    if not found:
        return None
    left = int(found[1])
    return left, int(found[2]) if found[2] else left


def span(bits: tuple[int, int]) -> int:
    return abs(bits[0] - bits[1]) + 1


def read_variable(dump: Dump) -> Variable:
    """A declaration after its $var: `reg 8 ! data [7:0] $end`. The range may also stand at the name without a blank."""
    kind, width, code = (shown(dump.take("a declaration")) for _ in range(3))
    reference = [shown(word) for word in dump.take_to_end("a declaration")]
    if not width.isdecimal() or not reference or any(word.startswith("$") for word in reference[1:]):
        dump.refuse("a declaration without a width, a name or its $end")
    name, bits = reference[0], bits_of("".join(reference[1:]))
    joined = NAME_AND_RANGE.fullmatch(name) if len(reference) == 1 else None
    # Else it is an element of an array, whose name ends with an index, or an escaped name that looks like one.
    if joined and span(bits_of(joined[2])) == int(width):
        name, bits = joined[1], bits_of(joined[2])
    return Variable(kind, int(width), code.encode("utf-8", "surrogateescape"), plain(name), bits)


def read_scope(dump: Dump, outer: str) -> str:
    """The path of the scope that begins after a $scope: `module dut $end`. Verilator's outermost one may have no name."""
    names = [plain(shown(word)) for word in dump.take_to_end("a scope")[1:]]
    return ".".join(filter(None, [outer, *names]))


def read_header(dump: Dump, scope: str) -> Header:
    """Reads to the end of the declarations. Of the scopes only the names are kept, and variables only of the one that is asked for."""
    variables: dict[str, list[Variable]] = {}
    scopes: dict[str, None] = {}
    open_scopes = [""]
    while (command := dump.take("its header")) != b"$enddefinitions":
        if command == b"$var":
            variable = read_variable(dump)
            if open_scopes[-1] == scope:
                variables.setdefault(variable.name, []).append(variable)
        elif command == b"$scope":
            open_scopes.append(read_scope(dump, open_scopes[-1]))
            scopes[open_scopes[-1]] = None
        elif command == b"$upscope":
            dump.take_to_end("a scope")
            open_scopes.pop()
            if not open_scopes:
                dump.refuse("an $upscope without its $scope")
        elif command.startswith(b"$"):
            dump.take_to_end("its header")
        else:
            dump.refuse("this isn't the header of a value change dump")
    dump.take_to_end("its header")
    if scope not in scopes:
        dump.refuse(f"no scope {scope}{near(scope, scopes)}")
    return Header(scope, dump.line, variables)


# The inputs of the design's top, by a plain reading of its header.

# Comments, attributes, and the directives that take the rest of their line: they part words as a blank does.
BLANK = r"\s+|//[^\n]*|/\*.*?\*/|\(\*(?!\)).*?\*\)|`(?:define|undef|include|timescale|default_nettype|line)\b(?:[^\n\\]|\\.)*"
LEXEME = re.compile(rf"(?P<blank>{BLANK})" r'|"(?:[^"\\]|\\.)*"|\\\S+|`?[A-Za-z_][\w$]*|[\w$\']+|.', re.DOTALL)
WORD = re.compile(r"\\\S+|[A-Za-z_][\w$]*")
DIRECTIONS = ("input", "output", "inout")
OPENING, CLOSING = ("(", "[", "{"), (")", "]", "}")


@dataclass
class Module:
    """A module of the design: the lexemes of its header, up to the semicolon, and those of its body."""

    name: str
    header: list[str]
    body: list[str]


def lexemes_of(text: str) -> list[str]:
    return [found.group() for found in LEXEME.finditer(text) if found.lastgroup != "blank"]


def modules_of(lexemes: list[str]) -> list[Module]:
    modules: list[Module] = []
    inside: Optional[list[str]] = None
    for lexeme in lexemes:
        if lexeme in ("module", "macromodule"):
            inside = []
        elif lexeme == "endmodule" and inside and ";" in inside:
            end = inside.index(";")
            modules.append(Module(plain(inside[0]), inside[1:end], inside[end + 1 :]))
            inside = None
        elif inside is not None:
            inside.append(lexeme)
    return modules


def top_of(modules: list[Module]) -> Module:
    """The one module that none has an instance of; an instance begins with the module's name, and a word or `#` after it."""
    used = {one for it in modules for one, two in zip(it.body, it.body[1:]) if two == "#" or WORD.fullmatch(two)}
    tops = [it for it in modules if it.name not in used]
    if len(tops) != 1:
        names = ", ".join(it.name for it in tops[:MOST_NEAR_NAMES]) or "none"
        raise Refusal(f"the design's top isn't clear, as these modules are in no other: {names}; --inputs names the inputs")
    return tops[0]


def closing(lexemes: list[str], start: int) -> int:
    """The place of the bracket that closes the one at `start`, or the end."""
    depth = 0
    for place in range(start, len(lexemes)):
        depth += (lexemes[place] == "(") - (lexemes[place] == ")")
        if depth == 0:
            return place
    return len(lexemes)


def port_list(header: list[str]) -> list[str]:
    """What stands between the brackets of the ports, which come after those of the parameters."""
    start = closing(header, 1) + 1 if header[:1] == ["#"] else 0
    return header[start + 1 : closing(header, start)]


def items_of(lexemes: list[str]) -> Iterator[list[str]]:
    """The items of a list with commas, without what stands in brackets of any kind (ranges, above all) and without initial values."""
    item: list[str] = []
    depth, is_value = 0, False
    for lexeme in lexemes:
        depth += (lexeme in OPENING) - (lexeme in CLOSING)
        if depth == 0 and lexeme == ",":
            yield item
            item, is_value = [], False
        is_value = is_value or lexeme == "="
        if depth == 0 and not is_value and lexeme not in CLOSING + (",",):
            item.append(lexeme)
    if item:
        yield item


def named(item: list[str], module: Module) -> str:
    """The name that an item declares, its last word."""
    odd = next((it for it in item if it[0] in "`."), None)
    if odd or not WORD.fullmatch(item[-1]):
        raise Refusal(f"the ports of {module.name} have {odd or item[-1]}, which isn't read here; --inputs names the inputs")
    return plain(item[-1])


def inputs_of(module: Module) -> list[str]:
    """The names of a module's inputs, in order of its ports, whose directions stand with them or in the body."""
    ports = [item for item in items_of(port_list(module.header)) if item]
    if not any(item[0] in DIRECTIONS for item in ports):
        declared = inputs_declared(module)
        return [name for name in (named(item, module) for item in ports) if name in declared]
    direction, inputs = "", []
    for item in ports:
        direction = item[0] if item[0] in DIRECTIONS else direction
        if direction == "input":
            inputs.append(named(item, module))
    return inputs


def inputs_declared(module: Module) -> set[str]:
    """The names that declarations in the body make inputs."""
    declared = set()
    for place, lexeme in enumerate(module.body):
        if lexeme == "input":
            end = module.body.index(";", place)
            declared.update(named(item, module) for item in items_of(module.body[place:end]))
    return declared


def read_design(paths: list[str], clock: str) -> list[str]:
    """The names of the data inputs that the design's top has, in order of its ports: all inputs but the clock."""
    lexemes: list[str] = []
    for path in paths:
        with open(path, encoding="utf-8", errors="surrogateescape") as file:
            lexemes += lexemes_of(file.read())
    top = top_of(modules_of(lexemes))
    inputs = inputs_of(top)
    if clock not in inputs:
        raise Refusal(f"the design's top {top.name} has no input {clock}{near(clock, inputs)}")
    return [name for name in inputs if name != clock]


# The inputs' places in the dump.


@dataclass(frozen=True)
class Clock:
    name: str
    code: bytes


@dataclass(frozen=True)
class Piece:
    """Bits of an input that stand under one code: `width` of them from `start`, counted from the left; `place` is the input's number."""

    place: int
    start: int
    width: int


@dataclass
class Inputs:
    """The inputs in the order of the stimulus, and for each code of the dump the pieces that stand under it."""

    names: list[str] = field(default_factory=list)
    widths: list[int] = field(default_factory=list)
    pieces: dict[bytes, list[Piece]] = field(default_factory=dict)

    def add(self, name: str, parts: list[Variable]) -> None:
        start = 0
        for part in parts:
            self.pieces.setdefault(part.code, []).append(Piece(len(self.names), start, part.width))
            start += part.width
        self.names.append(name)
        self.widths.append(start)


def pieces_of(name: str, variables: list[Variable], line: int) -> list[Variable]:
    """The variables of an input from the left: one, or pieces without a gap. Single bits stand with the highest index on the left."""
    parts = list(dict.fromkeys(variables))
    if len(parts) == 1:
        return parts
    if any(not part.bits or span(part.bits) != part.width for part in parts):
        raise Refusal(f"{name} is declared more than once", line)
    rises = any(left < right for left, right in (part.bits for part in parts))
    parts.sort(key=lambda part: min(part.bits), reverse=not rises)
    for one, two in zip(parts, parts[1:]):
        low, high = (one, two) if rises else (two, one)
        if max(low.bits) + 1 != min(high.bits):
            raise Refusal(f"between {name}{list(one.bits)} and {name}{list(two.bits)} bits are missing, or they overlap", line)
    return parts


def find(what: str, name: str, header: Header) -> list[Variable]:
    variables = header.variables.get(name)
    if not variables:
        raise Refusal(f"no {what} {name} in {header.scope}{near(name, header.variables)}", header.line)
    return variables


def find_clock(name: str, header: Header) -> Clock:
    variables = find("clock", name, header)
    codes = {it.code for it in variables}
    if len(codes) != 1 or variables[0].width != 1 or not variables[0].is_signal:
        raise Refusal(f"{name} isn't a signal of one bit, as a clock is", header.line)
    return Clock(name, codes.pop())


def choose_inputs(names: Optional[list[str]], clock: str, header: Header) -> Inputs:
    """The inputs of these names; or all signals of the scope but the clock."""
    if names is None:
        names = [name for name, (first, *_) in header.variables.items() if first.is_signal and name != clock]
    inputs = Inputs()
    for name in names:
        variables = find("input", name, header)
        if not all(it.is_signal for it in variables):
            raise Refusal(f"{name} is no signal, but of the kind {variables[0].kind}", header.line)
        inputs.add(name, pieces_of(name, variables, header.line))
    return inputs


# The changes.


class Row:
    """The value of each input as the changes up to a time leave it."""

    def __init__(self, inputs: Inputs):
        self._pieces = inputs.pieces
        self._bits = [bytearray(b"x" * width) for width in inputs.widths]
        self._values = [b"0"] * len(inputs.names)
        self.unknown = set(range(len(inputs.names)))

    def take(self, changes: dict[bytes, bytes]) -> None:
        """Takes changes, each a value of 0, 1, x and z by its code; a value that is short is extended on the left (18.2.2)."""
        for code, value in changes.items():
            for piece in self._pieces.get(code, ()):
                self._take_bits(piece, value)

    def _take_bits(self, piece: Piece, value: bytes) -> None:
        place = piece.place
        bits = self._bits[place]
        if len(bits) == 1 and value in KNOWN_BITS:
            # By far the most changes are of one bit, and this is quicker than what stands below for all.
            bits[:] = value
            self._values[place] = value
            self.unknown.discard(place)
            return
        if len(value) < piece.width:
            value = value.rjust(piece.width, b"0" if value[:1] in KNOWN_BITS else value[:1])
        bits[piece.start : piece.start + piece.width] = value
        known = bits.translate(UNKNOWN_AS_ZERO)
        self._values[place] = b"%x" % int(known, 2)
        if known == bits:
            self.unknown.discard(place)
        else:
            self.unknown.add(place)

    def bits(self, place: int) -> str:
        return self._bits[place].decode()

    def text(self) -> bytes:
        """The row, with x and z as 0."""
        return b" ".join(self._values) + b"\n"


class Recorder:
    """Goes through the changes of a dump, and writes the row of each rising edge.

    A change counts only from the next time on, so that a row has the values before the edge.
    """

    def __init__(self, dump: Dump, clock: Clock, inputs: Inputs, zeros: bool, rows: BinaryIO):
        self._dump = dump
        self._clock = clock
        self._inputs = inputs
        self._zeros = zeros
        self._rows = rows
        self._row = Row(inputs)
        self._widths = {code: max(piece.width for piece in pieces) for code, pieces in inputs.pieces.items()} | {clock.code: 1}
        self._time = -1  # before the first time
        self._changes: dict[bytes, bytes] = {}  # at this time, by code
        self._edges = 0  # at this time
        self._edge_line = 0
        self._level: Optional[bytes] = None  # of the clock: none before its first value, and none while the dump is off
        self._is_off = False  # within the values that $dumpoff gives
        self._gap = ""
        self.count = 0
        self.zeros_taken = 0
        self.gaps_taken = 0

    @property
    def ends_low(self) -> bool:
        """Whether the clock may rise next."""
        return self._level == b"0"

    def run(self) -> None:
        """Reads the dump to its end."""
        watched = self._widths
        within = b""  # the command that is open
        for word in self._dump.words:
            mark = word[0]
            if mark in SCALAR_MARKS:
                code = word[1:]
                if code in watched:
                    self._change(code, word[:1])
                elif not code:
                    self._dump.refuse("a value without its variable's code")
            elif mark == TIME_MARK:
                self._go_to(word[1:])
            elif mark in VECTOR_MARKS:
                code = self._dump.take("a value")
                if code in watched:
                    self._change(code, word[1:])
            elif mark in PASSED_OVER_MARKS:
                self._dump.take("a value")
            elif mark == COMMAND_MARK:
                within = self._command(word)
            else:
                self._dump.refuse(f"{shown(word[:40])} is no change of a value")
        if within:
            self._dump.refuse(f"the dump ends in the middle of {shown(within)}")
        self._end_time()

    def write_last_row(self) -> None:
        """Writes the row of an edge after the last change."""
        self._write_row(self._dump.line)

    def _command(self, word: bytes) -> bytes:
        """Takes a command of the body, and returns the one that is open after it, if any."""
        self._is_off = False
        if word == b"$end":
            return b""
        if word not in CHECKPOINTS:
            self._dump.take_to_end(shown(word))
            return b""
        if word == b"$dumpoff":
            self._end_time()
            self._is_off = True
            self._level = None
            self._gap = self._gap or f"the dump is off from time {self._time} (line {self._dump.line})"
        return word

    def _go_to(self, digits: bytes) -> None:
        if not digits.isdigit():
            self._dump.refuse("a time that isn't a number")
        time = int(digits)
        if time < self._time:
            self._dump.refuse(f"time {time} stands after time {self._time}")
        if time > self._time:
            self._end_time()
            self._time = time

    def _change(self, code: bytes, value: bytes) -> None:
        if value not in KNOWN_BITS:
            value = value.lower()
            width = self._widths[code]
            if not value or len(value) > width or value.strip(b"01xz"):
                self._dump.refuse(f"{shown(value[:40])} is no value of its variable, whose width is {width}")
        self._changes[code] = value
        if code == self._clock.code and not self._is_off:
            self._change_clock(value)

    def _change_clock(self, level: bytes) -> None:
        before, self._level = self._level, level
        if (before, level) not in RISING:
            return
        if (before, level) != (b"0", b"1"):
            self._take_unknown(self._clock.name, f"{shown(before)} and then {shown(level)}", self._dump.line)
        if level == b"1":
            self._edges += 1
            self._edge_line = self._dump.line

    def _end_time(self) -> None:
        """Writes the rows of the edges at this time, and then lets its changes count."""
        if self._edges > 1 and not self._inputs.pieces.keys().isdisjoint(self._changes):
            why = f"the clock rises {self._edges} times at time {self._time}, where inputs change: what each edge met isn't known"
            raise Refusal(why, self._edge_line)
        for _ in range(self._edges):
            self._write_row(self._edge_line)
        self._edges = 0
        if self._changes:
            self._row.take(self._changes)
            self._changes.clear()

    def _write_row(self, line: int) -> None:
        if self._gap:
            self._take_gap(line)
        for place in sorted(self._row.unknown):
            self._take_unknown(self._inputs.names[place], self._row.bits(place), line)
        if self.count == MOST_ROWS:
            raise Refusal(f"more than {MOST_ROWS} rising edges, and a stimulus has no more rows", line)
        self._rows.write(self._row.text())
        self.count += 1

    def _take_gap(self, line: int) -> None:
        if not self._zeros:
            raise Refusal(f"{self._gap}, and edges of the clock may be missing; --x0 goes on without them", line)
        self.gaps_taken += 1
        self._gap = ""

    def _take_unknown(self, name: str, value: str, line: int) -> None:
        if not self._zeros:
            raise Refusal(f"{name} is {value} at the clock's edge at time {self._time}; --x0 takes x and z as 0", line)
        self.zeros_taken += 1


# The command.


@dataclass(frozen=True)
class Options:
    """The words of the command; `inputs` are the names, or none where the dump's scope says them."""

    scope: str
    clock: str
    inputs: Optional[list[str]]
    zeros: bool
    stopped: bool
    dump: str


class OneLineParser(argparse.ArgumentParser):
    def error(self, message: str) -> NoReturn:
        raise Refusal(f"{message} (--help says the form)")


def read_options(words: list[str]) -> Options:
    parser = OneLineParser(
        prog="stimulus_from_vcd.py",
        description="Makes the stimulus of `dessert sim` from a value change dump: a row for each rising edge of the clock.",
        epilog="Without --inputs and --design all signals of the scope but the clock are inputs.",
    )
    parser.add_argument("--scope", required=True, help="the design's instance, as tb.dut")
    parser.add_argument("--clock", required=True, help="the clock's name in that scope")
    choice = parser.add_mutually_exclusive_group()
    choice.add_argument("--inputs", metavar="A,B,..", help="the inputs, in the order of the stimulus")
    choice.add_argument("--design", nargs="+", metavar="FILE", help="Verilog files, whose top says the inputs; `--` ends the files")
    parser.add_argument("--x0", action="store_true", help="take x and z as 0, go on after a gap of $dumpoff, and say how many there were")
    parser.add_argument("--stopped", action="store_true", help="a last row, where the run stopped at an edge that isn't in the dump")
    parser.add_argument("dump", help="the dump, or - for standard input")
    given = parser.parse_args(words)
    clock = plain(given.clock)
    inputs = None
    if given.inputs is not None:
        inputs = [plain(name) for name in given.inputs.split(",") if name]
    elif given.design:
        inputs = read_design(given.design, clock)
    if inputs and (clock in inputs or len(set(inputs)) < len(inputs)):
        raise Refusal("an input stands twice, or is the clock")
    return Options(plain_path(given.scope), clock, inputs, given.x0, given.stopped, given.dump)


def convert(options: Options, stream: BinaryIO, rows: BinaryIO) -> list[str]:
    """Writes the stimulus, and returns what else is to be said of it."""
    dump = Dump(stream)
    header = read_header(dump, options.scope)
    clock = find_clock(options.clock, header)
    inputs = choose_inputs(options.inputs, options.clock, header)
    rows.write("".join(["stimulus 1\ninputs"] + [" " + name for name in inputs.names] + ["\n"]).encode("utf-8", "surrogateescape"))
    recorder = Recorder(dump, clock, inputs, options.zeros, rows)
    recorder.run()
    if options.stopped and recorder.ends_low:
        recorder.write_last_row()
    if recorder.count == 0:
        dump.refuse(f"no rising edge of {options.clock}")
    notes = []
    if recorder.zeros_taken:
        notes.append(f"values that were x or z and are taken as 0: {recorder.zeros_taken}")
    if recorder.gaps_taken:
        notes.append(f"gaps of the dump, of which there are no rows: {recorder.gaps_taken}")
    if recorder.ends_low and not options.stopped:
        notes.append(f"the dump ends before {options.clock} rises again: where the run stopped at that edge, --stopped gives its row")
    return notes


def run(options: Options) -> None:
    """Converts into a file of its own, and copies it to standard output once it is whole."""
    with tempfile.TemporaryFile() as rows:
        with contextlib.nullcontext(sys.stdin.buffer) if options.dump == "-" else open(options.dump, "rb") as stream:
            notes = convert(options, stream, rows)
        for note in notes:
            tell(f"note: {note}")
        rows.seek(0)
        copy_out(rows)


def copy_out(rows: BinaryIO) -> None:
    try:
        shutil.copyfileobj(rows, sys.stdout.buffer)
        sys.stdout.flush()
    except OSError:
        # Or else Python tries the rest once more as it ends, and ends with a status and words of its own.
        os.dup2(os.open(os.devnull, os.O_WRONLY), sys.stdout.fileno())
        raise


def tell(text: str) -> None:
    """One line on standard error, whatever the names in it."""
    print("stimulus_from_vcd:", " ".join(text.split()), file=sys.stderr)


def main(words: list[str]) -> int:
    options = None
    try:
        options = read_options(words)
        run(options)
    except Refusal as refusal:
        source = "" if refusal.line is None else f"{options.dump}:{refusal.line}: "
        tell(f"{source}{refusal}")
        return 2
    except OSError as error:
        tell(f"{error.filename}: {error.strerror}" if error.filename else str(error.strerror))
        return 2
    return 0


if __name__ == "__main__":
    sys.exit(main(sys.argv[1:]))
