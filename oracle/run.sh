#!/usr/bin/env bash
# Tests the second program, also that each fault planted in it is found; then compares the proved library with it, call by call, and
# the proved replay and yard, trace by trace: once on the fixed seed 1, and once on a seed of the day. Where words are given they go to
# `compare` (see oracle/README.md), which then runs once. The programs are built by ./play, of which it is asked here that it ends with
# status 1 where a trace is refused and takes a text.
set -euo pipefail
cd "$(dirname "$0")/.."
bash host/library.sh
if refused=$(./play README.md) || [ "$refused" != "refused 1" ]; then
  echo "play: a page is no trace, and it says: $refused" >&2
  exit 1
fi
./play yard oracle/samples/yard.txt | diff - crates/yard/stdout
export ABI_LIB_DIR="$PWD/target/staticlib"
bin="$PWD/target/bin"
cd oracle
cargo test --release --quiet --features plant
compare() {
  cargo run --release --quiet --features abi --bin compare -- --replay "$bin/replay" --yard "$bin/yard" --traces 4000 "$@"
}
if [ $# -gt 0 ]; then
  compare "$@"
  exit
fi
for seed in 1 "$(date -u +%Y%m%d)"; do
  echo "compare: seed $seed"
  compare --seed "$seed"
done
