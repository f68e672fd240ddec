#!/bin/sh
# Runs each example and compares its status, its report and its waveform with those that stand in this folder.
# Says in a line for each whether all three are as expected, and under it what differs ("-" expected, "+" given).
# With names of examples as words it runs these alone. The status is 0 where nothing differs.
cd "$(dirname -- "$(readlink -f -- "$0")")/.." || exit 1
given=$(mktemp -d) || exit 1
trap 'rm -rf "$given"' EXIT
wanted=" $* "
most=20
ran=0
failed=0

# compare EXPECTED GIVEN NAME: says how two files differ, if they do.
compare() {
    if [ ! -e "$1" ]; then
        echo "  $1 is missing"
        return
    fi
    cmp -s "$1" "$2" && return
    if [ ! -s "$2" ]; then
        echo "  no $3 was written, and $1 is expected"
        return
    fi
    echo "  the $3 differs from $1:"
    diff -u "$1" "$2" | sed -e '1,2d' -e 's/^/    /' >"$given/difference"
    head -n "$most" "$given/difference"
    lines=$(wc -l <"$given/difference")
    [ "$lines" -le "$most" ] || echo "    ... and $((lines - most)) lines more"
}

# check NAME STATUS WORDS...: runs the program with these words over NAME's stimulus.
check() {
    name=$1 expected=$2
    shift 2
    case $wanted in "  " | *" $name "*) ;; *) return ;; esac
    ran=$((ran + 1))
    ./dessert "$@" <"examples/$name.stimulus" >"$given/vcd" 2>"$given/report"
    status=$?
    {
        [ "$status" -eq "$expected" ] || echo "  the status is $status, and $expected is expected"
        compare "examples/$name.report" "$given/report" report
        # Without a failure no waveform is written.
        if [ "$expected" -eq 1 ]; then waveform=examples/$name.vcd; else waveform=/dev/null; fi
        compare "$waveform" "$given/vcd" waveform
    } >"$given/found"
    if [ -s "$given/found" ]; then
        failed=$((failed + 1))
        echo "$name: NOT as expected"
        echo "  ./dessert $* < examples/$name.stimulus"
        cat "$given/found"
    else
        echo "$name: as expected"
    fi
}

./dessert --version >"$given/version" || exit 1
check cnt20 1 sim lag=4 examples/cnt.v
check cnt9 0 sim examples/cnt.v
check watchdog 0 sim examples/watchdog.v
check timer 1 sim lag=14 examples/bus.v examples/timer.v
if [ "$ran" -eq 0 ]; then
    echo "no example has one of these names: $*"
    exit 1
fi
echo "$((ran - failed)) as expected, $failed not"
[ "$failed" -eq 0 ]
