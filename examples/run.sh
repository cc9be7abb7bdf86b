#!/usr/bin/env bash
# Makes and runs each example, with the schedule NAME.sched and the budget NAME.budget where there are such files, and compares what it writes and where it stops with NAME.out and NAME.end.
# Where there is a compiler of C, the interpreter of bench/ runs each too, and what the program wrote, the trace and the last memory have to be the same byte for byte.
# The program is crates/psxk/out/psxk, or the one that PSXK names. The examples in C are made with make and a gcc for MIPS, by c/makefile, and left out where one of these isn't there.
# Words on the command line are the names of the examples to be run, as `hello` or `c/hello`; without any all are.
set -uo pipefail
examples=$(cd "$(dirname "$0")" && pwd)
psxk=${PSXK:-$examples/../crates/psxk/out/psxk}
export CROSS=${CROSS:-mipsel-linux-gnu-}

if [ ! -x "$psxk" ]; then
    echo "examples: none was tried, since $psxk isn't built"
    exit 1
fi
psxk=$(realpath "$psxk")
room=$(mktemp -d)
trap 'rm -rf "$room"' EXIT

# Says what is wrong with the example, and ends its subshell.
differs() {
    echo "examples: $name: $1"
    exit 1
}

# Makes program.exe of an example.
make_program() {
    if [ "$(dirname "$name")" = c ]; then
        cp "$examples"/c/* . || differs "the folder c wasn't copied"
        make -B -s "${name#c/}.exe" || differs "it wasn't built"
        mv "${name#c/}.exe" program.exe
    else
        "$psxk" asm "$examples/$name.s" >report || differs "asm ended with $?: $(cat report)"
        mv psxk.bin program.exe || differs "asm made no program"
    fi
}

# The status and the text of a run that ends with the given stop. A stop other than Exit and Budget is reported behind what the program wrote.
expect() {
    cp "$examples/$name.out" expected || differs "it has no expected output"
    wanted=0
    case $1 in
    Exit\ * | Budget) ;;
    *)
        wanted=1
        echo "psxk: stopped $1" >>expected
        ;;
    esac
}

# Makes and runs one example in a folder of its own.
check() {
    local end schedule=- budget=2000000 status stop
    mkdir -p "$room/$name"
    cd "$room/$name" || differs "it has no folder"
    make_program
    end=$(cat "$examples/$name.end") || differs "it has no expected stop"
    expect "$end"
    [ -f "$examples/$name.sched" ] && schedule=$examples/$name.sched
    [ -f "$examples/$name.budget" ] && budget=$(cat "$examples/$name.budget")
    "$psxk" run program.exe "$schedule" "$budget" >found
    status=$?
    stop=$(tail -n 1 psxk.trace | cut -d ' ' -f 1,3-)
    [ "$stop" = "S $end" ] || differs "the last line of its trace is $(tail -n 1 psxk.trace)"
    cmp found expected || differs "it wrote $(cat found)"
    [ "$status" -eq "$wanted" ] || differs "run ended with $status"
    [ ! -x "$room/board" ] || compare
}

# The same run by the interpreter in C.
compare() {
    "$room/board" "$room/image.bin" program.exe "$schedule" "$budget" >report
    status=$?
    [ "$status" -eq "$wanted" ] || differs "the interpreter in C ended with $status: $(cat report)"
    cmp board.tty "$examples/$name.out" || differs "the interpreter in C wrote something else"
    cmp board.trace psxk.trace || differs "the interpreter in C has another trace"
    cmp board.bin psxk.bin || differs "the interpreter in C has another memory at the end"
}

# Builds the interpreter in C and writes the image that it runs.
make_interpreter() {
    if ! command -v "${CC:-gcc}" >/dev/null; then
        echo "examples: not compared with the interpreter of bench/, since there is no ${CC:-gcc}"
    elif ! (cd "$room" && "$examples/../bench/build.sh" board && "$psxk" image && mv psxk.bin image.bin); then
        echo "examples: the interpreter of bench/ wasn't built, or the image wasn't written"
        failed=$((failed + 1))
    fi
}

# The first tool that the examples in C need and that isn't there.
missing_tool() {
    for tool in make "${CROSS}gcc" "${CROSS}objcopy"; do
        command -v "$tool" >/dev/null || { echo "$tool" && return; }
    done
}

# Whether crates/example_tests has the example as it stands here.
is_tested() {
    "$examples/as_tests.sh" "$1" | cmp - "$tests/$1.rt" && grep -q "^mod $1;$" "$tests/lib.rt"
}

tests=$examples/../crates/example_tests/src
cd "$examples" || exit 1
if [ $# -eq 0 ]; then
    mapfile -t in_c < <(grep -l '^int main(' c/*.c)
    set -- *.s "${in_c[@]}"
fi
missing=$(missing_tool)
passed=0 failed=0
make_interpreter
for name in *.s; do
    if ! is_tested "${name%.s}"; then
        echo "examples: crates/example_tests has another test of ${name%.s}: write it anew by examples/as_tests.sh"
        failed=$((failed + 1))
    fi
done
for name; do
    name=${name%.[sc]}
    if [ "$(dirname "$name")" = c ] && [ -n "$missing" ]; then
        echo "examples: $name: left out, since there is no $missing"
    elif (check); then
        passed=$((passed + 1))
    else
        failed=$((failed + 1))
    fi
done
echo "examples: $passed passed, $failed failed"
[ "$failed" -eq 0 ]
