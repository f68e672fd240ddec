#!/usr/bin/env python3
"""Times `dessert sim` on the counter over 1,000,000 rows beside Icarus Verilog and Verilator, and prints nanoseconds a cycle and ratios.

Each reads the same stimulus text, and each must give the same answer: no failure, and then a failure in the last cycle. Runs alternate,
and a figure is the median of nine. Time is processor time (user and system), which other work on the machine disturbs less. A simulator
that isn't installed is left out, and so is memory without GNU time.
"""
import os
import random
import re
import shutil
import statistics
import subprocess
import sys
import tempfile

from common import BENCH, COUNTER, PROGRAM, processor_time

GNU_TIME = "/usr/bin/time"
ROWS = 1_000_000
FEW_ROWS = 10_000
RUNS = 9


def rows(count, fails):
    """Rows by chance with which the counter counts and is reset and stays below 9, and in the last cycle it is at 8, or at 9."""
    choose = random.Random(1)
    value = 0
    for _ in range(count - 11):
        enabled = choose.getrandbits(1)
        reset = int(value == 8 or choose.random() < 1 / 16)
        value = 0 if reset else value + enabled
        yield "%d %d\n" % (reset, enabled)
    yield "1 0\n" + 8 * "0 1\n" + ("0 1\n" if fails else "0 0\n") + "0 0\n"


def write_stimulus(folder, count, fails):
    path = os.path.join(folder, "%d-%s" % (count, "fails" if fails else "quiet"))
    with open(path, "w") as file:
        file.write("stimulus 1\ninputs rst en\n")
        file.writelines(rows(count, fails))
    return path


class Simulator:
    """A simulator that is ready to run the counter: its command, made of a stimulus, and the seconds that building it took."""

    def __init__(self, name, command, answer, build=0.0):
        self.name, self.command, self.answer, self.build = name, command, answer, build

    def run(self, path):
        with open(path, "rb") as source:
            before = processor_time()
            done = subprocess.run(self.command(path), stdin=source, stdout=subprocess.PIPE, stderr=subprocess.PIPE, text=True)
            return self.answer(done), processor_time() - before

    def kilobytes(self, path):
        with open(path, "rb") as source:
            command = [GNU_TIME, "-f", "%M"] + self.command(path)
            done = subprocess.run(command, stdin=source, stdout=subprocess.DEVNULL, stderr=subprocess.PIPE, text=True)
        return int(done.stderr.split()[-1])


def failure_said(done):
    """The failing cycle that the program, or the harness of Verilator, says; none where it says that there is none."""
    said = re.search(r"failure at cycle (\d+)", done.stderr + done.stdout)
    return int(said.group(1)) if said else None


def failure_of_icarus(done):
    """Icarus stops at the clock's edge at 2t+1, and goes on as its standard input is at its end."""
    said = re.search(r"Current simulation time is (\d+) ticks", done.stdout)
    return int(said.group(1)) // 2 if said else None


def dessert():
    return Simulator("dessert", lambda path: [PROGRAM, "sim", COUNTER], failure_said)


def icarus(folder):
    if not shutil.which("iverilog") or not shutil.which("vvp"):
        return None
    built = os.path.join(folder, "counter.vvp")
    before = processor_time()
    subprocess.run(["iverilog", "-o", built, COUNTER, os.path.join(BENCH, "counter_bench.v")], check=True)
    run = ["sh", "-c", 'exec vvp "$1" "+stimulus=$2" </dev/null', "sh", built]
    return Simulator("Icarus", lambda path: run + [path], failure_of_icarus, processor_time() - before)


def verilator(folder):
    if not all(shutil.which(it) for it in ("verilator", "make", "g++")):
        return None
    made = os.path.join(folder, "verilated")
    harness = os.path.join(BENCH, "counter_bench.cpp")
    words = ["-O3", "--x-initial", "fast", "-CFLAGS", "-O2 -DVL_USER_STOP", "--Mdir", made, "-o", "counter"]
    before = processor_time()
    subprocess.run(["verilator", "--cc", "--exe", "--build"] + words + [COUNTER, harness], check=True, stdout=subprocess.DEVNULL)
    return Simulator("Verilator", lambda path: [os.path.join(made, "counter")], failure_said, processor_time() - before)


def measure(simulators, path, wanted):
    """The median time of each, over runs that alternate; stops where an answer is another one."""
    times = {it.name: [] for it in simulators}
    for _ in range(RUNS):
        for it in simulators:
            answer, time = it.run(path)
            if answer != wanted:
                sys.exit("%s: failure at %s, and %s is right" % (it.name, answer, wanted))
            times[it.name].append(time)
    return {name: statistics.median(all_of) for name, all_of in times.items()}


def main():
    if not os.path.exists(PROGRAM):
        sys.exit("./dessert --version builds the program first")
    with tempfile.TemporaryDirectory() as folder:
        peers = [it for it in (icarus(folder), verilator(folder)) if it]
        simulators = [dessert()] + peers
        quiet = write_stimulus(folder, ROWS, False)
        times = measure(simulators, quiet, None)
        late = measure(simulators, write_stimulus(folder, ROWS, True), ROWS - 1)
        start = measure(simulators, write_stimulus(folder, 11, False), None)
        few = write_stimulus(folder, FEW_ROWS, False)
        ours = times["dessert"]
        print("%d rows       ns a cycle  dessert / it  start, ms  failing / quiet" % ROWS)
        for it in simulators:
            time = times[it.name]
            told = (it.name, time / ROWS * 1e9, ours / time, start[it.name] * 1e3, late[it.name] / time)
            print("%-20s %8.1f %13.2f %10.1f %16.2f" % told)
            if it.build:
                whole = time + it.build
                print("%-20s %8.1f %13.2f" % ("  with its build", whole / ROWS * 1e9, ours / whole))
        if os.path.exists(GNU_TIME):
            print("peak memory, KiB   %d rows  %d rows" % (FEW_ROWS, ROWS))
            for it in simulators:
                print("%-18s %10d %13d" % (it.name, it.kilobytes(few), it.kilobytes(quiet)))
        for name in sorted({"Icarus", "Verilator"} - {it.name for it in peers}):
            print("%s isn't installed" % name)


if __name__ == "__main__":
    main()
