#!/usr/bin/env python3
"""Times what threads do on channels and boards: a token of 16 registers taken and given on one thread, each call on a board on one
thread, and tokens from one thread to another. Beside them plain Rust: steps on atomic words, channels of std; and what words of a board
side by side would cost, of which the board's stand 8 apart.

It builds a program of threads.rattle by `rt run` in a copy of the crates that it stands on, so nothing of it stands in the repository's
crates, and threads.rs by `rustc -O`. Each time is the best of ten runs. A word after the script's name is such a program that is built
already. It answers 1 where a mark is missed.
"""
import sys
import tempfile

from common import built_of_rattle, built_of_rust, lines_of

BELOW = ["dt_core", "bit_ops", "netlist", "token_net", "named_run", "board_rule", "gang_board", "token_chan", "thread_tests"]

# nanoseconds
TOKEN_MARK = 120
CALL_MARK = 15


def best(lines):
    """Nanoseconds of one, by name."""
    found = {}
    for line in lines:
        name, count, time = line.split()
        found[name] = min(found.get(name, float("inf")), int(time) / int(count))
    return found


def of_calls(times):
    """Each call by itself, of rounds of several."""
    alone = {name: times[name] for name in ("take_and_give", "raise", "see_fire")}
    alone["see_leader"] = times["raise+see_leader"] - times["raise"]
    alone["lag_raise"] = times["raise+see_leader+lag_raise"] - times["raise+see_leader"]
    return alone


def main():
    with tempfile.TemporaryDirectory() as folder:
        ours = best(lines_of([sys.argv[1] if len(sys.argv) > 1 else built_of_rattle(folder, "threads", BELOW)]))
        program = built_of_rust(folder, "threads")
        plain = best(lines_of([program])) if program else {}
    missed = False
    for name, time in of_calls(ours).items():
        mark = TOKEN_MARK if name == "take_and_give" else CALL_MARK
        missed = missed or time > mark
        print("%-15s %7.1f ns, at most %d%s" % (name, time, mark, "" if time <= mark else ": MISSED"))
    print("between threads %7.1f ns a token, %.1f million a second" % (ours["between_threads"], 1e3 / ours["between_threads"]))
    for name, time in plain.items():
        print("plain Rust: %-22s %7.1f ns" % (name.replace("_", " "), time))
    return 1 if missed else 0


if __name__ == "__main__":
    sys.exit(main())
