#!/usr/bin/env bash
# Measures the proved program at every limit: valid and invalid inputs for each command, at their largest size and at
# half of it, with a native stack of 1 MB. Writes one row for each, as in tests/limits.tsv:
#     bash tests/limits.sh >tests/limits.tsv
# Arguments are patterns for the names of rows (limits.py list). A row fails if the status or the last line is wrong, if
# there is a crash message, if the program takes more than 1.5 GB, or if time or memory grows faster than the work. Time
# and memory are measured without explanations; each full row is then run once more with them, which may cost little
# more. It takes ten minutes, needs Python 3 and GNU time, and is not part of the gate.
set -u
top=$(cd "$(dirname "$0")/.." && pwd)
work=$(mktemp -d)
trap 'rm -rf "$work"' EXIT
program=$top/crates/talft/out/talft
bash "$top/build/prove.sh" >&2 || exit
export TALFT_EXPLAIN=0
failed=0

fails() {
  printf 'FAILED %s: %s\n' "$name" "$1" >&2
  failed=$((failed + 1))
}

# Runs the program on the input of a row at a size. Sets `row`, `status`, `said`, `time` in milliseconds of processor
# time, and `peak` in KB.
measure() {
  local least=1000000000 spent=0 turn words user system
  mapfile -t row < <(python3 "$top/tests/limits.py" "$name" "$1")
  words=("${row[@]:6}")
  for turn in 1 2 3; do
    TIMEFORMAT='%U %S'
    { time sh -c 'ulimit -s 1024 && exec "$@"' sh /usr/bin/time -q -o peak -f %M timeout 900 "$program" "${words[@]}" \
      <stdin >out 2>errors; } 2>times
    status=$?
    read -r user system <times
    time=$((10#${user/./} + 10#${system/./}))
    [ "$time" -lt "$least" ] && least=$time
    spent=$((spent + time))
    [ "$spent" -gt 3000 ] && break
  done
  time=$least
  peak=$(tail -n 1 peak)
  said=$(tail -n 1 out | tr -d '\0' | cut -c1-100)
  [ "$status" = "${row[3]}" ] || fails "$1: status $status, not ${row[3]}: $said"
  [ "${row[4]}" = '*' ] || [ "$said" = "${row[4]}" ] || fails "$1: <$said>, not <${row[4]}>"
  [ ! -s errors ] || fails "$1: $(head -n 1 errors)"
  [ "$peak" -le 1500000 ] || fails "$1: $peak KB"
}

# Runs the program once more on the input of the last row, with an explanation on standard error. That may take half a
# second more than twice the time of the call.
explain() {
  local again peak user system took
  TIMEFORMAT='%U %S'
  { time TALFT_EXPLAIN=1 sh -c 'ulimit -s 1024 && exec "$@"' sh /usr/bin/time -q -o peak -f %M timeout 900 "$program" \
    "${row[@]:6}" <stdin >out 2>errors; } 2>times
  again=$?
  read -r user system <times
  took=$((10#${user/./} + 10#${system/./}))
  peak=$(tail -n 1 peak)
  [ "$again" = "$status" ] || fails "explained: status $again, not $status"
  [ "$(tail -n 1 out | tr -d '\0' | cut -c1-100)" = "$said" ] || fails "explained: <$(tail -n 1 out | cut -c1-100)>, not <$said>"
  [ "$peak" -le 1500000 ] || fails "explained: $peak KB"
  [ "$took" -le $((2 * time + 500)) ] || fails "explained: $took ms, without explanation $time ms"
}

seconds() {
  printf '%d.%03d' $(($1 / 1000)) $(($1 % 1000))
}

megabytes() {
  echo $((($1 + 500) / 1000))
}

# One row of the table.
show() {
  local half factor
  rm -f object source text faults stdin
  measure half
  half=("${row[1]%% *}" "$time" "$peak")
  measure full
  factor=$((2 ** row[2]))
  [ "$time" -le $((14 * factor * half[1] / 10 + 60)) ] || fails "time grows from ${half[1]} to $time ms"
  [ "$peak" -le $((13 * factor * half[2] / 10 + 4000)) ] || fails "memory grows from ${half[2]} to $peak KB"
  explain
  [ "${row[4]}" != '*' ] || said=
  printf '%s\t%s\t%s\t%s\t%s\t%s\t%s\t%d\t%s\t%s\t%d\n' "$command" "${row[0]}" "${row[5]}" "$status" "$said" "${row[1]}" \
    "$(seconds "$time")" "$(megabytes "$peak")" "${half[0]}" "$(seconds "${half[1]}")" "$(megabytes "${half[2]}")"
}

cd "$work" || exit
[ $# -gt 0 ] || head -n 1 "$top/tests/limits.tsv"
count=0
while read -r command name; do
  if [ $# -gt 0 ] && ! grep -Exq "$(printf '|%s' "$@" | cut -c2-)" <<<"$name"; then continue; fi
  show
  count=$((count + 1))
done < <(python3 "$top/tests/limits.py" list)
echo "$count rows, $failed failures" >&2
[ "$failed" -eq 0 ]
