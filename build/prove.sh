#!/usr/bin/env bash
# Proves the crates that the program depends on, lowest first and on all processors, and builds it: `rt ci` over a copy of
# only these crates, without the gate's wrong bodies. A kit that keeps proofs, by checksum, continues where an earlier run,
# or the gate, left off. With --anew it reuses nothing from them.
set -u
top=$(cd "$(dirname "${BASH_SOURCE[0]}")/.." && pwd) || exit 2
. "$top/build/sources.sh" || exit 2
if [ "${1-}" != --anew ] && is_built; then
  echo "talft: $program is proved and built"
  exit 0
fi
. "$top/build/kit.sh" || exit 2
need_kit || exit 2

# Removes copies that killed runs have left behind.
for left in "${TMPDIR:-/tmp}"/talft-prove-*; do
  of=${left#*/talft-prove-}
  [ ! -d "$left" ] || kill -0 "${of%-*}" 2>/dev/null || rm -rf "$left"
done
copy=$(mktemp -d "${TMPDIR:-/tmp}/talft-prove-$$-XXXXXX") || exit 2
trap 'rm -rf "$copy"' EXIT
log=$copy/log tree=$copy/tree
mkdir -p "$tree/.git" "$tree/crates" "$top/crates/talft/out" || exit 2
: >"$log"
# The program gets the time of the copy of its sources.
touch "$copy/begun"
mapfile -t crates < <(needed)
cp "$top/HANDLES" "$tree" &&
  awk -F: 'NR == FNR { needed[$1]; next } $1 in needed' <(printf '%s\n' "${crates[@]}") "$top/crates.txt" >"$tree/crates.txt" &&
  tar -C "$top/crates" --exclude=out --exclude=must-fail -cf - "${crates[@]}" | tar -C "$tree/crates" -xf - || exit 2

cd "$tree" || exit 2
# A kit that keeps nothing proves everything from scratch anyway, and has no --anew.
keeps_proofs || set --
PYTHONUNBUFFERED=1 rt ci "$@" </dev/null >"$log" 2>&1 &
proof=$!
stopped() {
  kill "$proof" 2>/dev/null
  wait "$proof"
  if keeps_proofs; then
    show 'talft: stopped; the next run keeps what is proved so far'
  else
    show 'talft: stopped; this kit keeps nothing, so the next run begins anew'
  fi
  exit "$1"
}
trap 'stopped 129' HUP
trap 'stopped 130' INT
trap 'stopped 143' TERM

# Prints a line; on a terminal it replaces the one that `show_for_now` has left.
show() {
  if [ -t 1 ]; then printf '\r\033[K%s\n' "$1"; else printf '%s\n' "$1"; fi
}
show_for_now() {
  if [ -t 1 ]; then printf '\r\033[K%.*s' "$(($(tput cols 2>/dev/null || echo 80) - 1))" "$1"; fi
}

# What is done, what is being proved, and about how long the rest will take, in one line.
told() {
  for crate in "${crates[@]}"; do
    [ ! -d "crates/$crate/out" ] || printf '%s %d\n' "$crate" "$(stat -c %Y "crates/$crate")"
  done | awk -v now="$(date +%s)" -v start="$start" -v processors="$(nproc)" -f "$top/build/progress.awk" \
    "$top/docs/PROVING.md" crates.txt "$log" -
}

start=$(date +%s) last=
echo "talft: proving ${#crates[@]} crates on $(nproc) processors"
while kill -0 "$proof" 2>/dev/null; do
  line=$(told)
  # Without a terminal, a line appears only when the proof of a crate begins or ends.
  if [ ! -t 1 ] && [ "${line%; *}" != "$last" ]; then show "$line"; fi
  show_for_now "$line"
  last=${line%; *}
  for ((second = 0; second < 5; second++)); do
    kill -0 "$proof" 2>/dev/null && sleep 1
  done
done
wait "$proof"
if [ $? -ne 0 ] || [ ! -x crates/talft/out/talft ]; then
  log=$(mktemp "${TMPDIR:-/tmp}/talft-log-XXXXXX") && cp "$copy/log" "$log"
  show "talft: error: the proof failed. The prover's whole output is in $log; it ends with:"
  tail -n 20 "$log"
  exit 1
fi
rt version >"$program.kit" && cp crates/talft/out/talft "$program.new" && touch -r "$copy/begun" "$program.new" &&
  mv "$program.new" "$program" || exit 2
show "talft: proved and built $program in $((($(date +%s) - start + 59) / 60)) minutes"
