#!/usr/bin/env bash
# Refuses memory to each command, one allocation at a time: where the number that is refused is wanted at all, the command ends with status 7 and `psxk: memory`,
# or as it does with all memory, and it writes nothing else to standard output. `rt try --fail-alloc` does it, with the program compiled anew for each number.
# Words: the first number to be refused and the last one, 1 and 64 where they are left out. The sweep ends before that behind four numbers in a row that change nothing at any command.
# It stands outside the gate, for it takes a quarter of an hour or more. docs/hostile.md has what it printed last.
set -uo pipefail
examples=$(cd "$(dirname "$0")" && pwd)
first=${1:-1} last=${2:-64}
room=$(mktemp -d)
trap 'rm -rf "$room"' EXIT
mkdir "$room/cases"
commands="run gen asm dis"

# The words of each command, one a line, and its empty standard input.
words() {
    local name=$1
    shift
    : >"$room/cases/$name"
    printf '%s\n' "$@" >"$room/cases/$name.args"
}
words run run echo.exe echo.sched 2000000
words gen gen 1
words asm asm short.s
words dis dis echo.exe

# getchar, which waits for a byte; putchar of it; exit with 0. The byte comes 5,000 steps behind the program's begin.
{
    printf 'PS-X EXE' && head -c 8 /dev/zero
    printf '\0\0\1\x80' && head -c 4 /dev/zero
    printf '\0\0\1\x80\x2C\0\0\0' && head -c 2016 /dev/zero
    printf '\x3B\0\x09\x24\xA0\0\x0A\x24\x09\xF8\x40\x01\0\0\0\0\x3C\0\x09\x24\x09\xF8\x40\x01'
    printf '\x21\x20\x40\0\0\0\x04\x24\x06\0\x09\x24\x08\0\x40\x01\0\0\0\0'
} >"$room/echo.exe"
echo "43941 byte 41" >"$room/echo.sched"
printf 'start: li r4, 0\nli r9, 6\nla r10, 0xA0\njr r10\nnop\n' >"$room/short.s"

# Runs all commands, with this allocation refused where a number is given: a folder with the status and the output of each.
try() {
    local into=$1
    shift
    mkdir -p "$into"
    (cd "$examples/../crates/psxk" && rt try "$@" --data echo.exe="$room/echo.exe" --data echo.sched="$room/echo.sched" \
        --data short.s="$room/short.s" --cases "$room/cases") >"$into/output" 2>"$into/lines"
}
# The status of a command, and what it wrote.
status() {
    sed -n "s/^case=$2 run=ended status=\([0-9]*\) .*/\1/p" "$1/lines"
}
text() {
    awk -v name="$2" '/^== / { on = $2 == name; next } on' "$1/output"
}

# Tells apart how a command ends with this allocation refused: by want of memory, as with all memory, or otherwise.
judge() {
    local name=$1 number=$2 status text
    status=$(status "$room/$number" "$name")
    text=$(text "$room/$number" "$name")
    if [ "$status" = 7 ] && [ "$text" = "psxk: memory" ]; then
        refused[$name]=$((refused[$name] + 1))
        wanted[$name]=$number
        unchanged=0
    elif [ "$status" != "$(status "$room/all" "$name")" ] || [ "$text" != "$(text "$room/all" "$name")" ]; then
        echo "want_of_memory: $name: with allocation $number refused it ended with status ${status:-none}: $text"
        failed=1
        unchanged=0
    fi
}

declare -A refused wanted
for name in $commands; do
    refused[$name]=0 wanted[$name]=$((first - 1))
done
failed=0 unchanged=0
try "$room/all"
for name in $commands; do
    if [ -z "$(status "$room/all" "$name")" ]; then
        echo "want_of_memory: $name didn't end: $(tail -n 1 "$room/all/lines")"
        exit 1
    fi
done
for ((number = first; number <= last && unchanged < 4; number++)); do
    try "$room/$number" --fail-alloc "$number"
    unchanged=$((unchanged + 1))
    for name in $commands; do
        judge "$name" "$number"
    done
done
for name in $commands; do
    tried=$((wanted[$name] - first + 1))
    echo "$name: $tried allocations refused, ${refused[$name]} answered by status 7, $((tried - refused[$name])) done without"
done
echo "want_of_memory: tried $first to $((number - 1))"
[ "$failed" -eq 0 ]
