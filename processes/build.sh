#!/usr/bin/env bash
# Builds the drill's programs into target/processes, warnings as errors, where one is not newer than all that it is made of; with the word
# drill only those that do without the library, with the word plants also the seven copies of the station that have a fault.
set -euo pipefail
cd "$(dirname "$0")/.."
out=target/processes
mkdir -p "$out"
flags=(-std=c11 -D_XOPEN_SOURCE=700 -O2 -Wall -Wextra -Wpedantic -Werror -Iinclude ${CFLAGS:-})
archive=target/staticlib/libyarngravel.a
more=()
# make_one PROGRAM SOURCES...: with the flags in the array more too
make_one() {
  local program=$out/$1 sources=("${@:2}")
  if [ ! -f "$program" ] || [ -n "$(find processes include "${sources[@]}" -newer "$program" -print -quit)" ]; then
    gcc "${flags[@]}" "${more[@]}" "${sources[@]}" -o "$program.$$"
    mv "$program.$$" "$program"
  fi
}
make_one radio processes/radio.c processes/ether.c processes/setup.c
make_one judge processes/judge.c processes/setup.c
make_one drill processes/drill.c processes/setup.c
[ "${1:-}" != drill ] || exit 0
bash host/library.sh
station=(processes/station.c processes/calls.c processes/setup.c)
make_one station "${station[@]}" "$archive"
[ "${1:-}" = plants ] || exit 0
for plant in 1 2 3 4 5 6 7; do
  gcc "${flags[@]}" -DPLANT=$plant -c processes/plants.c -o "$out/plant-$plant.o"
  more=(-Dyarngravel_tick=planted_tick -Dyarngravel_listen=planted_listen)
  more+=(-Dyarngravel_tick_in=planted_tick_in -Dyarngravel_listen_in=planted_listen_in)
  make_one "station-$plant" "${station[@]}" "$out/plant-$plant.o" "$archive"
done
