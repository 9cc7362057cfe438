#!/usr/bin/env bash
# Compiles the benchmark of a whole yard, warnings as errors, and does not run it: over target/staticlib/libyarngravel.a into
# target/bench/whole, or over the archive and into the file that are named.
# Usage: bash bench/compile.sh [ARCHIVE PROGRAM]
set -euo pipefail
root=$(cd "$(dirname "$0")/.." && pwd)
archive=${1:-$root/target/staticlib/libyarngravel.a}
program=${2:-$root/target/bench/whole}
mkdir -p "$(dirname "$program")"
gcc -std=c11 -O2 -Wall -Wextra -Wpedantic -Werror -I"$root/include" "$root/bench/whole.c" "$archive" -o "$program"
