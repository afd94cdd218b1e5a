#!/usr/bin/env bash
# Runs the proved program over real files and real standard input and output, which no proof covers. Each line
# `expect NAME STATUS TEXT WORDS..` in tests/cli/ runs it, and compares its output and its status.
set -u
top=$(cd "$(dirname "$0")/.." && pwd)
. "$top/tests/report.sh"
cd "$work" || exit 2

expect() {
  local name=$1 status=$2 text=$3 got
  shift 3
  got=$("$top/talft" "$@" 2>"$work/errors" </dev/null; printf '/%d' $?)
  report "$name" "$(printf '%b/%d' "$text" "$status")" "$got"
}

# Likewise for a script in tools/. Its standard error goes to the file `said`.
tool() {
  local name=$1 status=$2 text=$3 script=$4 got
  shift 4
  got=$("$top/tools/$script" "$@" 2>said </dev/null; printf '/%d' $?)
  report "$name" "$(printf '%b/%d' "$text" "$status")" "$got"
}

# `refuses NAME SAID SCRIPT WORDS..`: the script writes nothing, its last message is SAID, and its status is 1.
refuses() {
  local name=$1 said=$2
  shift 2
  tool "$name" 1 '' "$@"
  report "the message about $name" "$said" "$(tail -n 1 said)"
}

# Likewise for wrong use: its first message is SAID, and its status is 2.
misused() {
  local name=$1 said=$2
  shift 2
  tool "$name" 2 '' "$@"
  report "the message about $name" "$said" "$(head -n 1 said)"
}

# What the program writes, and its status, under a memory limit in KB.
within() {
  local limit=$1
  shift
  (ulimit -v "$limit" && "$top/crates/talft/out/talft" "$@" </dev/null 2>"$work/errors"; printf '/%d' $?)
}

# `least_memory OUTPUT/STATUS WORDS..` prints the smallest limit, in steps of 512 KB, under which the program has this
# output and status, or `none` if no limit up to 256 MB suffices.
least_memory() {
  local text=$1 limit
  shift
  for ((limit = 2048; limit <= 262144; limit += 512)); do
    if [ "$(within "$limit" "$@")" = "$text" ]; then
      echo "$limit"
      return
    fi
  done
  echo none
}

bash "$top/build/prove.sh" || exit 1

for part in "$top"/tests/cli/*.sh; do
  . "$part"
done

close $(of_gate)
