#!/usr/bin/env bash
# Writes the test of crates/example_tests for the named example: its text with its schedule, where it has one, and its expected output, as the files here have them.
set -euo pipefail
cd "$(dirname "$0")"
name=$1

# A file as the inside of a byte string.
quoted() {
    sed 's/\\/\\\\/g; s/"/\\"/g' "$1"
}

shows=shows schedule=
if [ -f "$name.sched" ]; then shows=shows_with schedule=" SCHEDULE,"; fi
echo "//! Written by examples/as_tests.sh from the files of examples/."
echo "use crate::hosts::$shows;"
echo
# A text whose first line is long begins a line of its own, as the formatter has it.
printf 'const TEXT: &[u8] = b"%s\n";\n\n' "$(quoted "$name.s")" | sed '1 { /^.\{101\}/ s/ = b"/ =\n    b"/ }'
if [ -f "$name.sched" ]; then printf 'const SCHEDULE: &[u8] = b"%s\n";\n\n' "$(quoted "$name.sched")"; fi
printf 'const OUTPUT: &[u8] = b"%s";\n\n' "$(quoted "$name.out"; printf .)" | sed 's/\.";$/";/'
printf 'const STOP: &[u8] = b" %s\n";\n\n' "$(quoted "$name.end")"
echo "#[test]"
echo "fn $name(rt: HostRuntime) {"
echo "    $shows(&rt, TEXT,$schedule OUTPUT, STOP);"
echo "}"
