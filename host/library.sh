#!/usr/bin/env bash
# Proves and builds the static library if anything under crates/ is newer than it, and shows how far it is.
# `rt lib` names an archive by its crate; the one for C programs is libyarngravel.a, the same bytes.
set -euo pipefail
cd "$(dirname "$0")/.."
archive=target/staticlib/libyarngravel.a
if proving/stale "$archive"; then
  command -v rt > /dev/null || { echo "library: rt of the Rattle kit is needed on the PATH: $(< toolchain)" >&2; exit 1; }
  log=$(mktemp)
  trap 'rm -f "$log"' EXIT
  proving/progress library "$log" lib abi || { cat "$log" >&2; exit 1; }
  mkdir -p target/staticlib
  cp crates/abi/out/libabi.a "$archive"
fi
