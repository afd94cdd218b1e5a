#!/usr/bin/env bash
# Counts the machine instructions of each command with valgrind's callgrind; the load on the machine does not affect
# them. A row fails if its count is more than 2 % above the one in tests/speed.counts. It is part of the gate. The C
# library selects its copying functions by processor: here it uses those that every processor can run. Counts with
# another version of that library are not compared.
#
#     bash tests/speed.sh [--write] [ROW..]
#     PLAIN=.. bash tests/speed.sh --times
#
# Calls are counted without explanations: to explain a run, talft repeats it, which the other program does not do.
#
# PLAIN names another program, with any arguments that precede those of a row. It is then counted as well; otherwise the
# recorded counts are shown. With --write the new counts are recorded and put into docs/SPEED.md. With --times both
# programs run each row twenty times in turn, and docs/SPEED.md gets the medians of their times: run nothing else.
set -u
top=$(cd "$(dirname "$0")/.." && pwd)
. "$top/tests/report.sh"
kept=$top/tests/speed.counts
program=$top/crates/talft/out/talft
write=no times=no
[ "${1-}" = --write ] && write=yes && shift
[ "${1-}" = --times ] && times=yes && shift
export TALFT_EXPLAIN=0
export GLIBC_TUNABLES=glibc.cpu.hwcaps=-AVX2,-AVX2_Usable,-AVX_Fast_Unaligned_Load,-AVX512F,-AVX512VL,-ERMS,-FSRM
has valgrind 'the counts of machine instructions' || { close $(of_gate); exit; }
library=$(getconf GNU_LIBC_VERSION)
if [ "$write$times" = nono ] && ! grep -qs "^# $library\$" "$kept"; then
  skip 'the counts of machine instructions' "they were not taken with $library"
  close $(of_gate)
  exit
fi
bash "$top/build/prove.sh" >"$work/said" || { cat "$work/said"; exit 1; }

# Each row's name, and its arguments.
rows() {
  cat <<'ROWS'
check-assignments check assignments.obj
check-choices check choices.obj
compile-assignments compile assignments.src
compile-choices compile choices.src
exec-assignments exec assignments.src
exec-choices exec choices.src
upgrade upgrade assignments.obj
dis dis assignments.obj
asm asm assignments.asm
schedule schedule assignments.obj
link-assignments link assignments.map
link-choices link choices.map
link-blocks link blocks.map
demo demo 4000
trial-counting trial counting.obj --steps 4000000
trial-storing trial storing.obj --steps 4000000
run-often run often.obj --steps 2000000
recover recover often.obj --steps 1000000 --fault 999000:r1:7
mean mean turns.src --turns 500000
survey survey storing.obj --faults faults --steps 15000
campaign campaign counting.obj --faults faults --steps 15000
ROWS
}

# `count FILE WORDS..` runs a command under callgrind, and writes its machine instructions to the file.
count() {
  local to=$1
  shift
  valgrind --tool=callgrind --callgrind-out-file=/dev/null "$@" 2>&1 >/dev/null </dev/null |
    sed -n 's/^.*Collected : \([0-9]*\).*$/\1/p' >"$to"
}

cd "$work" || exit 2
python3 "$top/tests/speed.py" inputs . "$program" || exit 1
if [ "$times" = yes ]; then
  rows >rows
  env -u GLIBC_TUNABLES python3 "$top/tests/speed.py" times rows "$program" "${PLAIN:?names the program to compare with}" "$top/docs/SPEED.md"
  exit
fi
names=() jobs=0
while read -r name words; do
  [ $# -eq 0 ] || [[ " $* " == *" $name "* ]] || continue
  names+=("$name")
  # shellcheck disable=SC2086
  count "$name.ours" "$program" $words &
  # shellcheck disable=SC2086
  [ -z "${PLAIN-}" ] || count "$name.plain" $PLAIN $words &
  [ $((++jobs % $(nproc))) -ne 0 ] || wait
done < <(rows)
wait

printf '%-20s %13s %13s %13s %6s\n' row count kept plain ratio
: >counts
for name in "${names[@]}"; do
  read -r _ before plain < <(grep -s "^$name " "$kept" || echo "$name 0 0")
  now=$(cat "$name.ours")
  [ ! -s "$name.plain" ] || plain=$(cat "$name.plain")
  printf '%-20s %13d %13d %13d %6s\n' "$name" "$now" "$before" "$plain" \
    "$(awk -v a="$now" -v b="$plain" 'BEGIN { if (b) printf "%.2f", a / b; else print "-" }')"
  echo "$name $now $plain" >>counts
  [ "$write" = yes ] || report "the machine instructions of $name" 'at most 2 in 100 more' \
    "$(awk -v a="$now" -v b="$before" \
      'BEGIN { print (a > 0 && a <= b * 1.02 ? "at most 2 in 100 more" : a " for " b) }')"
done
if [ "$write" = yes ]; then
  {
    printf '# The machine instructions of each row of speed.sh: of this program, and of one in plain Rust.\n'
    printf '# %s\n' "$library"
    cat counts "$kept" 2>errors | awk '/^[a-z]/ && !($1 in seen) { seen[$1]; print }' | sort
  } >new && cp new "$kept" && rows >rows && python3 "$top/tests/speed.py" table rows "$kept" "$top/docs/SPEED.md"
fi
close $(of_gate)
