#!/usr/bin/env bash
# Runs every command on its example with each allocation failing in turn, and on a large input under memory limits that
# rise until they suffice. Each run must end with status 5 and write nothing, or end as it does without a failure. It
# needs a C compiler and Python 3, and is not part of the gate.
set -u
top=$(cd "$(dirname "$0")/.." && pwd)
work=$(mktemp -d)
trap 'rm -rf "$work"' EXIT
bash "$top/build/prove.sh" >&2 || exit
program=$top/crates/talft/out/talft
cc -O1 -fPIC -shared -o "$work/failing_malloc.so" "$top/tests/failing_malloc.c" -ldl || exit
cd "$top/examples" || exit
passed=0 failed=0

# `each NAME INPUT WORDS..` runs the program with these arguments, and with standard input from a file.
each() {
  local name=$1 input=$2 total number wanted status got
  shift 2
  LD_PRELOAD=$work/failing_malloc.so COUNT_TO=$work/count "$program" "$@" <"$input" >"$work/wanted" 2>"$work/errors"
  wanted=$?
  total=$(cat "$work/count")
  local wrong=0
  for ((number = 1; number <= total; number++)); do
    LD_PRELOAD=$work/failing_malloc.so FAIL_AT=$number "$program" "$@" <"$input" >"$work/got" 2>"$work/errors"
    status=$?
    if [ "$status" -eq 5 ] && [ ! -s "$work/got" ]; then continue; fi
    if [ "$status" -eq "$wanted" ] && cmp -s "$work/got" "$work/wanted"; then continue; fi
    printf 'FAILED %s: allocation %d of %d: status %d\n' "$name" "$number" "$total" "$status"
    wrong=1
  done
  if [ "$wrong" -eq 0 ]; then passed=$((passed + 1)); else failed=$((failed + 1)); fi
  printf '%s: %d allocations, status %d\n' "$name" "$total" "$wanted"
}

each 'usage' /dev/null
each 'check' /dev/null check "$top/tests/objects/jump.obj"
each 'check of a refused object' /dev/null check mixed.obj
each 'run' /dev/null run five.obj
each 'recover' /dev/null recover five.obj --fault 4:r1:6
each 'trial' /dev/null trial five.obj --fault 4:r1:6
each 'trial with an answer' /dev/null trial reload.obj --fault 2:r0:7 --wild 5
each 'campaign' /dev/null campaign five.obj --faults five.faults --steps 14
each 'survey' /dev/null survey mixed.obj --faults mixed.faults --steps 14
each 'compile' /dev/null compile fibonacci.src
each 'compile of a refused source' /dev/null compile unknown.src
each 'exec' /dev/null exec fibonacci.src
each 'mean' /dev/null mean fibonacci.src
each 'debug' five.script debug five.obj
each 'demo' /dev/null demo 3
each 'upgrade' /dev/null upgrade five.obj
each 'upgrade of bytes that are not an object' /dev/null upgrade five.faults
each 'dis' /dev/null dis five.obj
each 'asm' /dev/null asm five.asm
each 'asm of a refused text' /dev/null asm five.faults
each 'schedule' /dev/null schedule five.obj
(cd "$work" && for name in caller doubler; do "$program" asm "$top/examples/$name.asm" >$name.obj; done)
cp "$top/examples/caller.map" "$work"
cd "$work" || exit
each 'link' /dev/null link caller.map
cd "$top/examples" || exit
each 'a missing file' /dev/null trial missing

# From here on, the program writes nothing to standard error.
export TALFT_EXPLAIN=0
# The least memory in KB under which the program writes `usage`.
least=2048
until [ "$(ulimit -v "$least" && "$program" 2>"$work/errors" </dev/null)" = usage ] || [ "$least" -gt 262144 ]; do
  least=$((least + 512))
done

# `rising NAME INPUT WORDS..` runs the program under limits from the least on, in steps of 1 MB.
rising() {
  local name=$1 input=$2 limit wanted status wrong=0
  shift 2
  "$program" "$@" <"$input" >"$work/wanted" 2>"$work/errors"
  wanted=$?
  for ((limit = least; limit < 2000000; limit += 1024)); do
    (ulimit -v "$limit" && exec "$program" "$@") <"$input" >"$work/got" 2>"$work/errors"
    status=$?
    if [ -s "$work/errors" ]; then
      printf 'FAILED %s under %d KB: %s\n' "$name" "$limit" "$(head -n 1 "$work/errors")"
      wrong=1
    fi
    if [ "$status" -eq 5 ] && [ ! -s "$work/got" ]; then continue; fi
    if [ "$status" -eq "$wanted" ] && cmp -s "$work/got" "$work/wanted"; then break; fi
    printf 'FAILED %s under %d KB: status %d\n' "$name" "$limit" "$status"
    wrong=1
  done
  if [ "$wrong" -eq 0 ]; then passed=$((passed + 1)); else failed=$((failed + 1)); fi
  printf '%s: enough with %d KB, %d more than the least, status %d\n' "$name" "$limit" $((limit - least)) "$wanted"
}

# Large inputs: a source of maximum weight, its object, the maximum number of faults, and a script of 1 MiB.
{
  printf 'cell out = 0; var i; while (i < 3) { i = i + 1; '
  for ((n = 0; n < 10914; n++)); do printf 'out = 7; '; done
  printf '}\n'
} >"$work/heavy.src"
"$program" compile "$work/heavy.src" >"$work/heavy.obj" || failed=$((failed + 1))
for ((n = 0; n < 65536; n++)); do echo '4:r1:6'; done >"$work/many.faults"
for ((n = 0; n < 74898; n++)); do printf 'step 1\nback 1\n'; done >"$work/long.script"
rising 'compile of a large source' /dev/null compile "$work/heavy.src"
rising 'exec of a large source' /dev/null exec "$work/heavy.src"
rising 'mean of a large source' /dev/null mean "$work/heavy.src"
rising 'check of a large object' /dev/null check "$work/heavy.obj"
rising 'run of a large object' /dev/null run "$work/heavy.obj"
rising 'trial of a large object' /dev/null trial "$work/heavy.obj"
rising 'campaign over a large object' /dev/null campaign "$work/heavy.obj" --faults "$work/many.faults" --steps 15000
rising 'survey of many faults' /dev/null survey five.obj --faults "$work/many.faults" --steps 14
rising 'debug with a long script' "$work/long.script" debug "$work/heavy.obj"
rising 'a large demonstration' /dev/null demo 10921
rising 'upgrade of a large object' /dev/null upgrade "$work/heavy.obj"
# Objects whose check needs much memory.
cd "$work" || exit
for row in 'fibonacci-check 20000' 'levels-check 40000' 'turned-check 2' 'updates-check 100000' 'largest-check 8192'; do
  python3 "$top/tests/limits.py" ${row} >lines || failed=$((failed + 1))
  rising "$row" /dev/null check object
done

echo "$passed passed, $failed failed"
[ "$failed" -eq 0 ]
