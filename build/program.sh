#!/usr/bin/env bash
# Proves the crates that the program depends on, and builds it for another processor: crates/talft/out/talft-ARCH. The
# kit's C code is only for x86-64, so embed/heap.c and embed/system.c replace it. For x86-64, use build/prove.sh.
#
#     build/program.sh [ARCH]        aarch64; CC names the C compiler
set -u
top=$(cd "$(dirname "${BASH_SOURCE[0]}")/.." && pwd) || exit 2
. "$top/build/sources.sh" || exit 2
. "$top/build/kit.sh" || exit 2
. "$top/build/cross.sh" || exit 2
arch=${1-aarch64}
case $arch in
  aarch64) cc=${CC-aarch64-linux-gnu-gcc} ;;
  *) echo "talft: error: unknown processor \`$arch\`: expected aarch64" >&2; exit 2 ;;
esac
out=$program-$arch
! is_newer_than_sources "$out.o" talft || { [ "$out" -nt "$out.o" ] && exit 0; }
need_kit || exit 2

tree=$(mktemp -d "${TMPDIR:-/tmp}/talft-program-XXXXXX") || exit 2
log=$tree.log
trap 'rm -rf "$tree" "$log"' EXIT
mkdir -p "$(dirname "$program")" || exit 2
failed() {
  tail -n 20 "$log"
  echo "talft: the program could not be $1"
  exit 1
}
make_in "$tree" talft "$arch" talft.o src/main.rt >"$log" 2>&1 || failed 'proved or compiled'
cp "$tree/crates/talft/talft.o" "$out.o" && touch -r "$tree/begun" "$out.o" || exit 2
"$cc" -std=c99 -O2 -I"$top/include" "$out.o" "$top/embed/heap.c" "$top/embed/system.c" -o "$out" >"$log" 2>&1 || failed linked
