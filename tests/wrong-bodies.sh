#!/usr/bin/env bash
# Tries the wrong bodies that the gate leaves out: tests/wrong-bodies/CRATE/*.edit, each of which the prover must refuse.
# The gate tries those in crates/CRATE/must-fail. If crates are named, only theirs are tried. A kit that keeps proofs
# starts from what `rt ci` has proved; any other uses the libraries that `rt check` built, and proves missing ones. The
# last line is "N refused, M not".
#   bash tests/wrong-bodies.sh [CRATE..]
set -u
top=$(cd "$(dirname "${BASH_SOURCE[0]}")/.." && pwd) || exit 2
. "$top/build/sources.sh" || exit 2
. "$top/build/kit.sh" || exit 2
need_kit || exit 2
crates=("$@")
[ ${#crates[@]} -gt 0 ] || mapfile -t crates < <(ls "$top/tests/wrong-bodies")
room=$(mktemp -d) || exit 2
trap 'rm -rf "$room"' EXIT
mkdir "$room/.git" && cp "$top/crates.txt" "$top/HANDLES" "$room/" || exit 2
tar -C "$top" --exclude=out --exclude=must-fail -cf - crates | tar -C "$room" -xf - || exit 2
for crate in "${crates[@]}"; do
  cp -r "$top/tests/wrong-bodies/$crate" "$room/crates/$crate/must-fail" || exit 2
done
# Takes the libraries that `rt check` built for these crates and those that they depend on: as hard links, or as copies
# if they are on another file system. Links are safe: the kit replaces their files, and changes none in place.
take_libraries() {
  local crate out
  for crate in $(for crate in "${crates[@]}"; do needed "$crate"; done | sort -u); do
    out=crates/$crate/out
    [ -e "$top/$out/rlib/stamp" ] || continue
    mkdir -p "$room/$out" && { cp -al "$top/$out/rlib" "$room/$out" 2>/dev/null || cp -a "$top/$out/rlib" "$room/$out"; } ||
      return
  done
}
# Tries the wrong bodies of these crates, and prints the outcome of each.
try() {
  if keeps_proofs; then
    rt ci "${crates[@]}"
  else
    take_libraries && rt must-fail "${crates[@]}"
  fi
}
(cd "$room" && try </dev/null) 2>&1 | tee "$room/log" | grep --line-buffered '^rt: must-fail'
refused=$(grep -c '^rt: must-fail .*: refused, as it must be' "$room/log")
not=$(($(find "$room"/crates/*/must-fail -name '*.edit' | wc -l) - refused))
echo "$refused refused, $not not"
[ "$not" -eq 0 ]
