#!/usr/bin/env bash
# Builds the C hosts against the static library, warnings as errors, and runs them. The smallest one must print smallest.out, and the one
# through wider limits, on its own seed, season.out; of the others, and of that one too, which run on a fixed seed (or the one named) and on
# a seed of the day, the last words of what they print are shown. Then tries the library as it is installed.
set -euo pipefail
cd "$(dirname "$0")/.."
bash host/library.sh
mkdir -p target/host
for host in smallest host beside season; do
  gcc -std=c11 -O2 -Wall -Wextra -Wpedantic -Werror -Iinclude "host/$host.c" target/staticlib/libyarngravel.a -o "target/host/$host"
done
target/host/smallest | diff - host/smallest.out
target/host/season | diff - host/season.out
for seed in "${1:-20261115}" "$(date -u +%Y%m%d)"; do
  echo "host: seed $seed"
  for host in host beside season; do
    "target/host/$host" "$seed" > target/host/out
    tail -n 1 target/host/out
  done
done
bash host/installed.sh
