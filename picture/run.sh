#!/usr/bin/env bash
# Tests the pictures; checks that docs/picture.svg is what ./draw makes of the sample and of the text that the proved yard writes for
# it, that README.md shows lines of that text, that pictures of random traces are XML by another reader too, and that a trace which is
# cut or refused gives no picture.
set -euo pipefail
cd "$(dirname "$0")/.."
work=$(mktemp -d)
trap 'rm -rf "$work"' EXIT
kept=picture/target/tmp
rm -rf "$kept"
cargo test --release --quiet --manifest-path picture/Cargo.toml > "$work/log" 2>&1 || { cat "$work/log"; exit 1; }

# rt ci compares what the proved yard writes for the sample with this very text
printf '#!/bin/sh\nexec cat crates/yard/stdout\n' > "$work/sample"
chmod +x "$work/sample"
PLAY="$work/sample" ./draw yard -o "$work/picture.svg"
cmp "$work/picture.svg" docs/picture.svg || { echo "picture: make it anew: ./draw yard -o docs/picture.svg" >&2; exit 1; }

count=$(python3 - docs/picture.svg "$kept"/*/*.svg << 'END'
import sys
from xml.parsers import expat
for path in sys.argv[1:]:
    with open(path, "rb") as picture:
        expat.ParserCreate().ParseFile(picture)
print(len(sys.argv) - 1)
END
)

# the README's lines are the sample's, in this order
python3 - << 'END'
import re
lines = iter(open("crates/yard/stdout").read().splitlines())
for line in open("README.md"):
    shown = re.match(r"    (\d+ (?:tick|give) .*?|\d+ \d+)(?:  .*)?$", line)
    if shown and shown[1] not in lines:
        raise SystemExit(f"picture: README.md has a line that the sample has not: {shown[1]}")
END

# draws a trace for which nothing may be drawn, and looks for a message
no_picture() {
  local message=$1 status=0
  shift
  echo before > "$work/old.svg"
  "$@" -o "$work/old.svg" 2> "$work/error" || status=$?
  [ $status -eq 1 ] && [ "$(cat "$work/old.svg")" = before ] && grep -q "$message" "$work/error" && [ -z "$(find "$work" -name '.picture*')" ] ||
    { echo "picture: status $status, and not '$message':" >&2; cat "$work/error" >&2; exit 1; }
}
export PLAY=picture/second
head -c 100 crates/yard/stdin > "$work/cut"
head -c 10 crates/replay/stdin > "$work/short"
printf 'yard 3 2 1 20\nstep 0 20\n' > "$work/refused.txt"
no_picture 'refused with 5 after [0-9]* steps: it is cut' ./draw yard "$work/cut"
no_picture 'refused with 5 after 0 ticks: it is cut' ./draw "$work/short"
no_picture 'refused with 2 after 0 steps: a clock is not below B' ./draw yard "$work/refused.txt"
PLAY=false no_picture 'could not be played' ./draw yard
PLAY="$work/sample" no_picture "the text is not this trace's" ./draw yard "$work/cut"
echo "picture: the sample's picture is as it stands in docs, $count pictures are XML, none is drawn of a trace that is cut or refused"
