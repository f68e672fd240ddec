#!/bin/sh
# Records the dumps of this folder again, with Icarus Verilog, Verilator and GTKWave's converters: NAME.SIMULATOR.vcd is what the testbench
# NAME_tb.v dumps, and NAME.SIMULATOR.log what it says. The tests read these files, and want none of the simulators.
cd "$(dirname -- "$(readlink -f -- "$0")")/../.." || exit 1
kept=tools/dumps
built=$(mktemp -d) || exit 1
trap 'rm -rf "$built"' EXIT
set -e

# record NAME FILES...: runs the testbench, which is the last of the files, in both simulators.
record() {
    name=$1
    shift
    iverilog -o "$built/$name.vvp" "$@"
    (cd "$built" && vvp -n "$name.vvp") | grep -v '^VCD info' >"$kept/$name.icarus.log"
    mv "$built/${name}_tb.vcd" "$kept/$name.icarus.vcd"
    verilator --binary --timing --trace -Wno-fatal -Wno-lint --top-module tb --Mdir "$built/$name" -o run "$@" >"$built/$name.build" 2>&1
    # Verilator aborts the run at $stop.
    (cd "$built" && { "./$name/run" || true; }) >"$kept/$name.verilator.log"
    mv "$built/${name}_tb.vcd" "$kept/$name.verilator.vcd"
}

record cnt examples/cnt.v examples/cnt_tb.v
record watchdog examples/watchdog.v examples/watchdog_tb.v
record timer examples/bus.v examples/timer.v examples/timer_tb.v
record features tools/dumps/features_tb.v
vcd2fst "$kept/cnt.icarus.vcd" "$built/cnt.fst"
fst2vcd "$built/cnt.fst" >"$kept/cnt.gtkwave.vcd"
cp "$kept/cnt.icarus.log" "$kept/cnt.gtkwave.log"
