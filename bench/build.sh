#!/usr/bin/env bash
# Builds the interpreter in C as the named file.
set -euo pipefail
bench=$(cd "$(dirname "$0")" && pwd)
"${CC:-gcc}" -std=c99 -O3 -Wall -Wextra -o "$1" "$bench"/*.c
