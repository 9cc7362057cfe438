#!/usr/bin/env bash
# The drill in the gate: a fixed seed (or the one named) twice at once, which must show the same boards, and a seed of the day; a change to
# wider limits with a kill at it, with damage before it and with nothing around it; then that
# the drill finds each fault that is planted in a copy of the station; that a drill which is ended leaves no process and no file behind;
# that a radio goes on without a station that is killed, and takes it in again; and that what is wrong on a command line or in a setup is
# said. About fifteen seconds.
set -euo pipefail
cd "$(dirname "$0")/.."
bash processes/build.sh plants
bin=target/processes
work=$(mktemp -d)
clean_up() {
  for job in $(jobs -p); do kill -KILL "$job" 2> /dev/null || true; done
  rm -rf "$work"
}
trap clean_up EXIT
mkdir "$work/tmp"
export TMPDIR="$work/tmp"
fixed=${1:-26}
ticks=5000
die() { echo "drill: $1" >&2; exit 1; }

# two drills at once do not disturb each other, and the same seed gives the same boards
$bin/drill --seed "$fixed" --ticks $ticks > "$work/first" 2> "$work/first.log" &
first=$!
$bin/drill --seed "$fixed" --ticks $ticks > "$work/second" 2> "$work/second.log" || { cat "$work/second.log" >&2; die "it fails with seed $fixed"; }
wait "$first" || { cat "$work/first.log" >&2; die "it fails with seed $fixed"; }
cat "$work/first"
[ "$(grep -vc '^board [0-4] hears ' "$work/first")" -eq 11 ] || die "it does not say what it saw in eleven lines"
for board in 0 1 2 3 4; do
  [ "$(grep -c "^board $board hears station [0-3]: taken " "$work/first")" -eq 4 ] || die "board $board does not say how well it hears each station"
  [ "$(grep -c "^board $board hears no station: " "$work/first")" -eq 1 ] || die "board $board does not say what it hears of no station"
done
[ "$(tail -n 1 "$work/first")" = "$(tail -n 1 "$work/second")" ] || die "the same seed shows other boards"
today=$(date -u +%Y%m%d)
$bin/drill --seed "$today" --ticks $ticks 2> "$work/log" || { cat "$work/log" >&2; die "it fails with seed $today"; }

# the limits change while boards are killed or damaged, or as soon as the bounds let them
for how in at before clear; do
  $bin/drill --seed "$today" --ticks 2000 --change $how > "$work/out" 2> "$work/log" || { cat "$work/log" >&2; die "it fails with seed $today and a change ($how)"; }
  said=$(grep "^changed: .*($how)" "$work/out") || die "it does not say that the limits changed"
  [[ $said != *" setups 0 times"* ]] || die "no board changed its setup: $said"
  if [ $how = clear ]; then [[ $said != *" it on 0 times" ]] || die "nothing was shown through the change: $said"
  else [[ $said != *" pairs 0 times"* && $said != *" and 0 from"* ]] || die "nothing was disturbed before or after the change: $said"; fi
  echo "$said"
done

# each mend and each refused frame of the last stretch is in the logs; the folder's name has a blank
$bin/drill --seed "$today" --ticks 1000 --keep "$work/last stretch" > "$work/out" 2> "$work/log" || { cat "$work/log" >&2; die "it keeps nothing"; }
for board in 0 1 2 3 4; do
  text="$work/last stretch/board-$board" log="$work/last stretch/log-$board"
  refused=$(awk '/^hear/ && $NF != "taken"' "$text" | wc -l)
  mended=$(awk '/^tick/ && $4 != 0' "$text" | wc -l)
  [ "$(awk '/^clock [0-9]*: refused by/' "$log" | wc -l)" -eq "$refused" ] || die "board $board does not log each refused frame"
  [ "$(awk '/^clock [0-9]*: mend/' "$log" | wc -l)" -eq "$mended" ] || die "board $board does not log each mend"
done

# the judge takes that stretch again; it does not take a log in which a clock steps too far, or in which something older is heard late
judge_with() { $bin/judge "$work/last stretch/yard" "$1" "$work/last stretch"/board-{0,1,2,3,4}; }
log="$work/last stretch/radio"
judge_with "$log" > "$work/out"
awk '{ line[NR] = $0; if (/^call/) last = NR } END { for (k = 1; k <= NR; k++) print line[k] (k == last ? " o" : "") }' "$log" > "$work/older"
awk '/^call 0/ { n++; if (n == 9) $3 += 9 } { print }' "$log" > "$work/jump"
for log in older jump; do
  status=0
  judge_with "$work/$log" > "$work/out" 2> "$work/log" || status=$?
  [ $status -eq 3 ] && grep -q 'older is heard past\|the clock steps by' "$work/log" || die "status $status: the judge takes what is not fair"
done

# nor does it take a board that goes back from the wider limits to both
$bin/drill --seed "$today" --ticks 2000 --change clear --keep "$work/changed" > "$work/out" 2> "$work/log" || die "it keeps nothing of a change"
awk '{ line[NR] = $0; if (/^tick/) last = NR } END { for (k = 1; k <= NR; k++) { if (k == last) sub(/limits wider$/, "limits both", line[k]); print line[k] } }' \
  "$work/changed/board-0" > "$work/back"
mv "$work/back" "$work/changed/board-0"
status=0
$bin/judge "$work/changed/yard" "$work/changed/radio" "$work/changed"/board-{0,1,2,3,4} > "$work/out" 2> "$work/log" || status=$?
[ $status -eq 1 ] && grep -q "by the limits 'both'" "$work/log" || die "status $status: the judge takes a board that goes back to both pairs"

# a planted fault is found, with status 1 and a line of the judge's
faults=("shows in the order heard" "forgets to mend" "shows a message twice" "loses what it held" "sets the mark late"
  "loses what it held when the limits change" "knows of the wider pair alone once the limits have changed")
for plant in 1 2 3 4 5 6 7; do
  status=0
  $bin/drill --seed "$fixed" --change clear --board "$bin/station-$plant" > "$work/out" 2> "$work/log" || status=$?
  [ $status -eq 1 ] && found=$(grep '^judge: ' "$work/log") || die "status $status: a station that ${faults[plant - 1]} is not found"
  echo "drill: a station that ${faults[plant - 1]} is found: ${found#judge: }"
done

# Ended by a signal, it ends all its processes: each has number 9, the writing end of a pipe, whose reader comes to the end with the last.
mkfifo "$work/alive"
timeout 20 cat "$work/alive" > "$work/said" &
reader=$!
$bin/drill --ticks 1000000 9> "$work/alive" > "$work/out" 2> "$work/ended" &
ended=$!
for ((k = 0; k < 100; k++)); do grep -qs 'stretches judged' "$work/ended" && break; sleep 0.1; done
kill -TERM $ended
status=0
wait $ended || status=$?
[ $status -eq 143 ] || die "status $status after SIGTERM"
wait $reader || die "processes are left after SIGTERM"
[ -z "$(ls -A "$TMPDIR")" ] || die "files are left: $(ls "$TMPDIR")"

# A radio by hand: a station that is killed unseen is absent, the others go on, and it comes in again when it says hello.
mkfifo "$work/commands"
printf 'n 1\nepsilon 2\ndelta 4\nmodulus 61\n' > "$work/yard"
$bin/radio "$work/yard" --patience 3 --log "$work/radio.log" < "$work/commands" > "$work/answers" &
radio=$!
exec 4> "$work/commands"
# waits until a file has a line of this form, for 10 seconds at most
await() {
  for ((k = 0; k < 100; k++)); do grep -qs "$2" "$1" && return; sleep 0.1; done
  die "there is no '$2' in: $(cat "$1")"
}
start() {
  (cat "$work/yard"; echo "$2"; echo "radio $port"; echo "memory $work/$1.memory") > "$work/$1.setup"
  $bin/station "$work/$1.setup" --patience 20 < "$work/said" >> "$work/$1.board" 2>> "$work/$1.log" 4>&- &
}
await "$work/answers" '^port'
port=$(sed -n 's/^port //p' "$work/answers")
start station 'own 0'
station=$!
start observer observer
observer=$!
await "$work/station.log" 'own 0, port'
echo 'from a stranger' > "/dev/udp/127.0.0.1/$(sed -n 's/.*own 0, port //p' "$work/station.log")"
printf 'join 0\njoin 1\nstretch\nrun 50\n' >&4
await "$work/answers" '^at 5'
grep -q "dropped a datagram of 16 bytes: it is not the radio's" "$work/station.log" || die "a stranger's datagram is not logged"
{ kill -KILL $station; wait $station; } 2> "$work/log" || true
echo 'run 100' >&4
await "$work/answers" '^at 10'
rm "$work/station.log"
start station 'own 0'
station=$!
await "$work/station.log" 'own 0, port' # it says hello a moment later
sleep 0.5
printf 'run 150\nend\n' >&4
exec 4>&-
wait $radio && wait $observer && wait $station || die "a yard by hand does not end well"
[ "$(grep -c '^absent 0' "$work/answers")" -eq 1 ] || die "a station that was killed is not absent"
[ "$(grep -c '^stretch' "$work/radio.log")" -eq 3 ] || die "a kill and a start do not each begin a stretch"
tail -n 1 "$work/station.board" | grep -q '^tick' || die "a station that comes in again gets no clock"
grep -q 'mend 1' "$work/station.log" || die "a mend is not logged"

# asks for a status and a message
wrong() {
  local expected=$1 message=$2 status=0
  shift 2
  "$@" > "$work/out" 2> "$work/log" < "$work/said" || status=$?
  [ $status -eq "$expected" ] && grep -q -- "$message" "$work/out" "$work/log" ||
    { cat "$work/log" >&2; die "status $status and not '$message': $*"; }
}
printf 'n 4\nepsilon 3\ndelta 6\nmodulus 24\n' > "$work/narrow"
printf 'n 4\nepsilon 3\ndelta 6\nmodulus 61\nown 4\nradio 1\nmemory %s/memory\n' "$work" > "$work/own"
printf 'n 4\nepsilon three\n' > "$work/word"
printf 'n 4\nepsilon 3\ndelta 6\nmodulus 61\nwider_epsilon 4\nwider_delta 6\n' > "$work/half"
printf 'n 4\nepsilon 3\ndelta 6\nmodulus 61\nwider_epsilon 4\nwider_delta 5\nchange 9\n' > "$work/smaller"
printf 'n 4\nepsilon 3\ndelta 6\nmodulus 61\nown 2\nradio 1\nmemory %s/narrow\n' "$work" > "$work/other"
for program in station radio judge drill; do wrong 0 'Exit status' $bin/$program --help; done
wrong 2 "'--tick'" $bin/drill --tick 5
wrong 2 'from 500 to' $bin/drill --ticks 5
wrong 2 "is 'never'" $bin/drill --change never
wrong 2 'needs 2000 ticks' $bin/drill --change at --ticks 1999
wrong 2 "no line 'change'" $bin/radio "$work/half"
wrong 2 'must not be smaller' $bin/radio "$work/smaller"
wrong 3 'board 1 has ended by itself' $bin/drill --board "$(type -P false)"
wrong 2 'the setup is missing' $bin/station --words
wrong 2 'cannot be read' $bin/radio "$work/none"
wrong 2 'at least 6 epsilon + delta + 1, 25' $bin/radio "$work/narrow"
wrong 2 'own must be below n, 4' $bin/station "$work/own"
wrong 2 "word:2: epsilon must be a number from 1 to 16, and is 'three'" $bin/station "$work/word"
wrong 1 'for this setup it must have' $bin/station "$work/other"
echo "drill: the same boards twice for seed $fixed, the limits changed three times, seven faults found, a station that comes again taken in, nothing left behind"
