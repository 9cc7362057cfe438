#!/usr/bin/env bash
# Times the tick, the poll and an observer's call through the static library against the oracle and a twin tuned by hand, the tick with
# both pairs of limits beside the plain one, the tick of an engine with long clocks beside its station's, charges and totals on a full ledger, and the figures. Then times the ticks of whole
# yards from C.
set -euo pipefail
cd "$(dirname "$0")/.."
bash host/library.sh
export ABI_LIB_DIR="$PWD/target/staticlib"
cargo run --release --quiet --manifest-path bench/Cargo.toml
echo
bash bench/compile.sh
target/bench/whole
