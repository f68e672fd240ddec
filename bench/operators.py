#!/usr/bin/env python3
"""Times each operator on bit vectors of 32, 64 and 128 bits beside plain Rust, and prints ratios: to the machine's own on u32, u64 and
u128, and to Rust's on a vector of the same form, a width and a u128, which is what a width that is known only at run time costs.

It builds a program of operators.rattle by `rt run` in a copy of the crates that it stands on, so nothing of it stands in the
repository's crates, and operators.rs by `rustc -O`. Each time is the best of ten runs over 512,000 steps that lie in memory. The sums
of both programs' values must agree.
"""
import sys
import tempfile

from common import built_of_rattle, built_of_rust, lines_of

STEPS = 512_000


def best(lines):
    found = {}
    for line in lines:
        name, width, signed, total, time = line.split()
        key = (name, int(width), signed == "true")
        found[key] = min(found.get(key, (total, float("inf"))), (total, int(time) / STEPS), key=lambda it: it[1])
    return found


def main():
    with tempfile.TemporaryDirectory() as folder:
        program = built_of_rust(folder, "operators")
        if not program:
            sys.exit("rustc isn't installed")
        ours = best(lines_of([sys.argv[1] if len(sys.argv) > 1 else built_of_rattle(folder, "operators", ["dt_core", "bit_ops"])]))
        numbers = best(lines_of([program]))
        vectors = best(lines_of([program, "vectors"]))
    agree = True
    print("                              Rust: numbers      vectors")
    print("operator width sign        ns     ns  ratio     ns  ratio")
    for key, (total, time) in ours.items():
        name, width, signed = key
        (_, number), (_, vector) = numbers[key], vectors[key]
        told = (name, width, "signed" if signed else "unsigned", time, number, time / number, vector, time / vector)
        print("%-8s %5d %-8s %5.1f  %5.1f %6.2f  %5.1f %6.2f" % told)
        if not total == numbers[key][0] == vectors[key][0]:
            print("  the sums of the values differ: %s, %s and %s" % (total, numbers[key][0], vectors[key][0]))
            agree = False
    return 0 if agree else 1


if __name__ == "__main__":
    sys.exit(main())
