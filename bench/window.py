#!/usr/bin/env python3
"""Times a run that keeps a window of 64 and of 16,384 cycles over a design with a memory of 16 to 1,048,576 words, of which each cycle
writes one: nanoseconds a cycle of the run, and of the window when it is written, the best of RUNS by the clock; and peak memory.

What is kept for a window grows with the lag and not with the memory, so the figures of one lag should be the same but for the cache.
The program of window.rattle is built by `rt run` in a copy of the crates that it stands on; a word after the script's name is such a program
that is built already.
"""
import os
import subprocess
import sys
import tempfile

from common import built_of_rattle, lines_of

BELOW = [
    "dt_core", "dt_io", "bit_ops", "netlist", "comb_order", "design_names", "message_text", "step_program", "net_compile", "flat_sim",
    "state_changes", "packed_rows", "waveform", "window_run", "draft_maker", "circular_buffer", "thiserror",
]
RUNS, CYCLES = 5, 1_000_000
LAGS, WORDS = (64, 16_384), (16, 1_024, 65_536, 1_048_576)

# What holds of the rows so far, and what the proof of the program picks for the count of steps.
PROOFS = {
    "run_all/Invariants.antt": """use Rattle.std.proofs.Common.{◌≡◌, ℕ, List, length}
use Rattle.window_run.specs.Ran.{RanTo}
use Rattle.window_bench.proofs.run_all.Given as goal

abbrev pub invariant-loop : goal.invariant-loop
invariant-loop g l = record {
  ran : (order : List ℕ) × (rows : List (List ℕ)) × RanTo l.initial.run.flat order rows l.run × (length rows ≡ l.counter);
  flat : l.run.flat ≡ l.initial.run.flat;
}
""",
    "run_all/Answers.antt": """use Rattle.std.proofs.Common.{◌≡◌, ◌++◌, ◌∷◌, [], Ok, subst, ◌∙◌, arith, length-append}
use Rattle.std.specs.Prelude.{Result, OnOk}
use Rattle.window_bench.proofs.run_all.Goals as goal

-- what a call that succeeded says
said : {T E P : Type 0} (r : Result T E) (x : T) → r ≡ Ok x → OnOk r P → P
said {T} {E} {P} r x e h = subst (λ (s : Result T E). OnOk s P) e h

pub loop-preserved : goal.loop-preserved
loop-preserved g c =
    let i = c.loop.invariant.ran in
    let long = length-append i.1 ([] ∷ []) in
    record {
      ran = (i.0, i.1 ++ [] ∷ [], said c.take.result _ c.in-Ok.is c.take.ensures.ran c.args.run.now.flat i.0 i.1 i.2, omega (arith, long, i.3));
      flat = c.take.ensures.flat ∙ c.loop.invariant.flat;
    }
""",
    "main/Invariants.antt": """use Rattle.window_bench.proofs.main.Given as goal

abbrev pub ghosts-measure : goal.ghosts-measure
ghosts-measure a = record { name = a.blank.name; parts = a.blank.parts }
""",
}


def kilobytes(command):
    done = subprocess.run(["/usr/bin/time", "-f", "%M"] + command, check=True, stdout=subprocess.DEVNULL, stderr=subprocess.PIPE, text=True)
    return int(done.stderr.split()[-1])


def main():
    with tempfile.TemporaryDirectory() as folder:
        program = os.path.abspath(sys.argv[1]) if len(sys.argv) > 1 else built_of_rattle(folder, "window", BELOW, PROOFS)
        print("   lag     words   ns a cycle   ns a cycle of the window   peak memory, KiB")
        for lag in LAGS:
            for words in WORDS:
                command = [program, str(words), str(lag), str(CYCLES)]
                runs = [line.split() for _ in range(RUNS) for line in lines_of(command)]
                if any(len(run) != 3 or run[2] == "0" for run in runs):
                    sys.exit("a run of %d words and lag %d has no window" % (words, lag))
                ran, again = (min(int(run[column]) for run in runs) for column in (0, 1))
                print("%6d %9d %12.1f %26.1f %18d" % (lag, words, ran / CYCLES, again / (lag + 1), kilobytes(command)))


if __name__ == "__main__":
    main()
