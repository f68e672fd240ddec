#!/usr/bin/env python3
"""Says where the gate's time goes: processor seconds of each crate's proof, of its tests' proof and of its edits.

    python3 bench/gate.py [COMMAND...]

runs COMMAND at the top of the repository (`rt ci` where none stands) and looks every half second at the provers that it started. Each
prover is put down as the proof of a crate, of its tests, or of an edit that must be refused, by its words. What was kept from an earlier
run isn't proved again and costs nothing here: for the whole cost run it where nothing is kept, or with `rt ci --anew`.
Linux alone, as it reads /proc. A prover's last half second may be missed.
"""
import os
import subprocess
import sys
import time

TICK = os.sysconf("SC_CLK_TCK")
KINDS = ("proof", "tests", "edits")


def read(path):
    try:
        with open(path, "rb") as file:
            return file.read()
    except OSError:
        return b""


def stat_of(process):
    """The parent of a process, and its processor time with that of the children that it waited for, in seconds."""
    fields = read(f"/proc/{process}/stat").rpartition(b")")[2].split()
    if len(fields) < 15:
        return None
    return int(fields[1]), sum(int(it) for it in fields[11:15]) / TICK


def kind_of(process):
    """The crate that a prover looks at, and for what; None where the process is no prover."""
    words = read(f"/proc/{process}/cmdline").split(b"\0")
    if os.path.basename(words[0]) != b"rattle" or b"--crate-name" not in words:
        return None
    crate = words[words.index(b"--crate-name") + 1].decode()
    if words[1] == b"check":
        return crate, "edits"
    return crate, "tests" if b"--test" in words else "proof"


def provers_below(top):
    """Each prover that the process started, if not through another prover: its number and start, kind and processor time."""
    table = {}
    for name in os.listdir("/proc"):
        if name.isdigit():
            at = stat_of(name)
            if at:
                table[int(name)] = at
    for process, (parent, seconds) in table.items():
        line = []
        while parent in table and parent != top:
            line.append(parent)
            parent = table[parent][0]
        if parent != top or any(kind_of(it) for it in line):
            continue
        kind = kind_of(process)
        if kind:
            yield process, kind, seconds


def watch(command):
    """Runs the command; gives its status, its wall time in seconds, and the processor seconds by crate and kind."""
    began = time.time()
    seconds = {}
    running = subprocess.Popen(command)
    while running.poll() is None:
        for process, kind, spent in provers_below(running.pid):
            seconds[process, kind] = max(spent, seconds.get((process, kind), 0))
        time.sleep(0.5)
    costs = {}
    for (_, (crate, kind)), spent in seconds.items():
        costs.setdefault(crate, dict.fromkeys(KINDS, 0))[kind] += spent
    return running.returncode, time.time() - began, costs


def lines_of(crate):
    """The lines of a crate: code, tests, definitions and proofs; and the number of its edits."""
    count = {"code": 0, "tests": 0, "definitions": 0, "proofs": 0}
    for folder, _, files in os.walk(f"crates/{crate}"):
        for file in files:
            path = os.path.join(folder, file)
            part = os.path.relpath(path, f"crates/{crate}").split(os.sep)[0]
            if not file.endswith((".rt", ".antt")) or part not in ("src", "specs", "proofs"):
                continue
            code = "tests" if "tests" in os.path.relpath(path, f"crates/{crate}") else "code"
            kind = {"src": code, "specs": "definitions", "proofs": "proofs"}[part]
            count[kind] += read(path).count(b"\n")
    edits = f"crates/{crate}/must-fail"
    return count, len(os.listdir(edits)) if os.path.isdir(edits) else 0


def main():
    os.chdir(os.path.join(os.path.dirname(os.path.abspath(__file__)), ".."))
    command = sys.argv[1:] or ["rt", "ci"]
    status, wall, costs = watch(command)
    print("| Crate | Code | Tests | Definitions | Proofs | Edits | Proof, s | Tests, s | Edits, s | All, s | s a 100 lines |")
    print("|---|---|---|---|---|---|---|---|---|---|---|")
    total = dict.fromkeys(KINDS, 0)
    for crate in sorted(costs, key=lambda it: -sum(costs[it].values())):
        lines, edits = lines_of(crate)
        cost = costs[crate]
        whole = sum(cost.values())
        share = 100 * whole / max(1, sum(lines.values()))
        cells = [f"`{crate}`", *lines.values(), edits, *(f"{cost[it]:.0f}" for it in KINDS), f"{whole:.0f}", f"{share:.1f}"]
        print("| " + " | ".join(str(it) for it in cells) + " |")
        for kind in KINDS:
            total[kind] += cost[kind]
    whole = ", ".join(f"{it} {total[it]:.0f}" for it in KINDS)
    print(f"\nprocessor seconds: {whole}, together {sum(total.values()):.0f}; wall {wall / 60:.1f} minutes; status {status}")
    return status


if __name__ == "__main__":
    sys.exit(main())
