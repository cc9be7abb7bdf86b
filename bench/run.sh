#!/usr/bin/env bash
# Measures psxk beside the interpreter in C of this folder, and prints a table: for each program the millions of steps in a second of processor time, the ratio of psxk's time to
# the interpreter's, by medians of seven runs made in turn, and where valgrind is there the host's instructions for a step. Where the outputs of the two differ, it says so and ends with 1.
# psxk is crates/psxk/out/psxk, or the one that PSXK names. Words on the command line are the names of the programs, as `integer`; without any all are measured.
set -euo pipefail
bench=$(cd "$(dirname "$0")" && pwd)
psxk=${PSXK:-$bench/../crates/psxk/out/psxk}
steps=20000000
runs=7

if [ ! -x "$psxk" ]; then
    echo "bench: nothing was measured, since $psxk isn't built"
    exit 1
fi
psxk=$(realpath "$psxk")
room=$(mktemp -d)
trap 'rm -rf "$room"' EXIT
cd "$room"
"$bench/build.sh" "$room/board"
"$psxk" image
mv psxk.bin image.bin

# Runs the program for so many steps, with what stands before it, as valgrind, on either of the two.
run_on() {
    local which=$1 budget=$2
    shift 2
    case $which in
    psxk) "$@" "$psxk" run program.exe - "$budget" >psxk.tty ;;
    board) "$@" ./board image.bin program.exe - "$budget" ;;
    esac
}

# The seconds of processor time of a run.
seconds() {
    local TIMEFORMAT='%U %S'
    { time run_on "$1" "$steps" 2>messages; } 2>&1 | awk '{ print $1 + $2 }'
}

# The middle one of the numbers, a line each.
median() { sort -n | awk '{ all[NR] = $1 } END { print all[int((NR + 1) / 2)] }'; }

# The host's instructions of a short run.
instructions() {
    run_on "$1" "$2" valgrind --tool=callgrind --callgrind-out-file=/dev/null 2>messages
    awk '/Collected/ { print $NF }' messages
}

# The host's instructions for a step behind the first ones, which are the boot's.
a_step() {
    local less=200000 more=600000
    if command -v valgrind >/dev/null; then
        echo "$(instructions "$1" "$less") $(instructions "$1" "$more")" | awk -v n=$((more - less)) '{ printf "%.0f", ($2 - $1) / n }'
    else
        echo -
    fi
}

# A program's row.
measure() {
    "$psxk" asm "$bench/$1.s"
    mv psxk.bin program.exe
    : >psxk.times
    : >board.times
    for ((i = 0; i < runs; i++)); do
        seconds psxk >>psxk.times
        seconds board >>board.times
    done
    for output in tty trace bin; do
        cmp "psxk.$output" "board.$output" || { echo "bench: $1: the outputs differ" && exit 1; }
    done
    echo "$(median <psxk.times) $(median <board.times) $(a_step psxk) $(a_step board)" |
        awk -v name="$1" -v n="$steps" '{ printf "| %s | %.0f | %.0f | %.2f | %s | %s |\n", name, n / $1 / 1e6, n / $2 / 1e6, $1 / $2, $3, $4 }'
}

[ $# -gt 0 ] || set -- integer memory calls interrupts
echo "| program | psxk, million steps a second | in C | ratio of times | psxk, host instructions a step | in C |"
echo "|---|---|---|---|---|---|"
for name; do measure "$name"; done
