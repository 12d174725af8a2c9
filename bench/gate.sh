#!/usr/bin/env bash
# Processor minutes of the gate from nothing, crate by crate: its proof, its tests, and its wrong bodies (with the proof
# that they begin with). Runs `rt ci --anew` here, or `rt WORDS..` where words are given, and looks each second at what the
# provers have taken; the last line is the processor time of all. No part of the gate.
set -u
cd "$(dirname "$0")/.." || exit 1
[ $# -gt 0 ] || set -- ci --anew
room=$(mktemp -d)
trap 'rm -rf "$room"' EXIT
ticks=$(getconf CLK_TCK)

# Of each prover of that session: its number, the processor time so far, its crate, and what it does.
look() {
  local pid state words cwd kind
  for pid in $(pgrep -x -s "$1" rattle); do
    read -r state 2>/dev/null <"/proc/$pid/stat" || continue
    cwd=$(readlink "/proc/$pid/cwd") words=$(tr '\0' ' ' 2>/dev/null <"/proc/$pid/cmdline") || continue
    set -- ${state##*) }
    case "$cwd $words" in
      */rt-edit-*) kind=wrong ;;
      *' --test '*) kind=tests ;;
      *) kind=proof ;;
    esac
    [[ $words =~ --crate-name\ ([a-z_0-9]+) ]] && echo "$pid.${20} $((${12} + ${13})) ${BASH_REMATCH[1]} $kind"
  done
}

begin=$(date +%s)
setsid bash -c 'TIMEFORMAT="%U %S"; time rt "$@"' rt "$@" >"$room/log" 2>&1 </dev/null &
session=$!
while kill -0 "$session" 2>/dev/null; do
  look "$session" >>"$room/seen"
  sleep 1
done
wait "$session"
status=$?
grep -v '^fn ' "$room/log"
awk -v ticks="$ticks" '
  { took[$1] = $2; name[$1] = $3; kind[$1] = $4 }
  END {
    for (pid in took) { sum[name[pid], kind[pid]] += took[pid] / ticks; crates[name[pid]] }
    printf "%-12s %8s %8s %8s   (processor minutes)\n", "crate", "proof", "tests", "wrong"
    for (it in crates) printf "%-12s %8.1f %8.1f %8.1f\n", it, sum[it, "proof"] / 60, sum[it, "tests"] / 60, sum[it, "wrong"] / 60 | "sort"
  }' "$room/seen"
tail -n 1 "$room/log" | awk -v clock="$(($(date +%s) - begin))" '{ printf "all: %.1f processor minutes, %.1f by the clock\n", ($1 + $2) / 60, clock / 60 }'
exit "$status"
