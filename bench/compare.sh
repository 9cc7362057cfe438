#!/usr/bin/env bash
# Before and after by one command: times two static libraries in turn, with the tables of bench/run.sh, and prints both side by side.
# Usage: bash bench/compare.sh BEFORE AFTER [RUNS]
# BEFORE and AFTER are folders with a libyarngravel.a each, as `make` leaves one in target/staticlib; each must have all functions of the
# header of today. RUNS is how often each is run, 5 where it is not given; a run takes about 20 s, and the two builds a minute.
# Both stand at one placing, each function at a multiple of 64 and the programs under names of one length, for a function's place in
# memory changes its time (docs/COST.md, "Where the tick stands in memory").
set -euo pipefail
die() { echo "compare: $*" >&2; exit 1; }
[ $# -eq 2 ] || [ $# -eq 3 ] || die "usage: bash bench/compare.sh BEFORE AFTER [RUNS], two folders with a libyarngravel.a each"
runs=${3:-5}
[[ $runs =~ ^[1-9][0-9]*$ ]] || die "RUNS must be a number from 1 up, and is '$runs'"
for tool in ar nm objcopy; do command -v "$tool" > /dev/null || die "$tool of binutils is needed"; done
for tool in cargo gcc python3; do command -v "$tool" > /dev/null || die "$tool is needed"; done
for folder in "$1" "$2"; do [ -f "$folder/libyarngravel.a" ] || die "there is no libyarngravel.a in '$folder'"; done
folders=("$(cd "$1" && pwd)" "$(cd "$2" && pwd)")
root=$(cd "$(dirname "$0")/.." && pwd)
work=$(mktemp -d)
trap 'rm -rf "$work"' EXIT

# place FOLDER: its archive in $work/library, with each function at a multiple of 64
place() {
  rm -rf "$work/objects" "$work/library"
  mkdir "$work/objects" "$work/library"
  (cd "$work/objects" && ar x "$1/libyarngravel.a")
  for object in "$work/objects"/*; do objcopy --set-section-alignment '.text*=64' "$object"; done
  ar rcs "$work/library/libyarngravel.a" "$work/objects"/*
}

# asks of a program that the library's functions stand there as they should
check_places() {
  local wrong
  wrong=$(nm "$1" | awk '$3 ~ /^yarngravel_/ && $1 !~ /[048c]0$/ { print $3 }')
  [ -z "$wrong" ] || die "these do not start at a multiple of 64: $wrong"
}

# build SIDE: both programs over that side's library, into $work/SIDE
build() {
  place "${folders[$1]}"
  mkdir "$work/$1"
  ABI_LIB_DIR="$work/library" CARGO_TARGET_DIR="$work/cargo" \
    cargo build --release --quiet --manifest-path "$root/bench/Cargo.toml" || die "the library in ${folders[$1]} does not link"
  cp "$work/cargo/release/bench" "$work/$1/calls"
  bash "$root/bench/compile.sh" "$work/library/libyarngravel.a" "$work/$1/yards"
  check_places "$work/$1/calls"
  check_places "$work/$1/yards"
}

for side in 0 1; do build $side; done
for ((run = 1; run <= runs; run++)); do
  echo "compare: run $run of $runs" >&2
  for side in 0 1; do
    for program in calls yards; do
      "$work/$side/$program" >> "$work/$side/out" || die "a run of the library in ${folders[$side]} fails"
      echo >> "$work/$side/out"
    done
  done
done
python3 "$root/bench/compare.py" "$work/0/out" "$work/1/out"
