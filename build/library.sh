#!/usr/bin/env bash
# Proves the crates that the C library depends on, and makes it: libtalft.a, libtalft.so, talft.pc and talft.py, in
# crates/ft_c/out/library, or for another processor in crates/ft_c/out/library-ARCH. It uses the libraries that the gate
# or a check left, or that the kit has kept. A static library is compiled from its crate's proof, so the exports are
# proved once more.
#
#     build/library.sh [ARCH]        x86_64, or aarch64; CC and AR name the C compiler and the archiver
set -u
# Sorts the members of an archive the same way in every locale.
export LC_ALL=C
top=$(cd "$(dirname "${BASH_SOURCE[0]}")/.." && pwd) || exit 2
. "$top/build/sources.sh" || exit 2
. "$top/build/kit.sh" || exit 2
. "$top/build/cross.sh" || exit 2
arch=${1-x86_64}
case $arch in
  x86_64) out=$top/crates/ft_c/out/library cc=${CC-cc} ar=${AR-ar} ;;
  aarch64) out=$top/crates/ft_c/out/library-aarch64 cc=${CC-aarch64-linux-gnu-gcc} ar=${AR-aarch64-linux-gnu-ar} ;;
  *) echo "talft: error: unknown processor \`$arch\`: expected x86_64 or aarch64" >&2; exit 2 ;;
esac
case ${HEAP-heap} in
  heap | arena) ;;
  *) echo "talft: error: unknown HEAP \`$HEAP\`: expected heap or arena" >&2; exit 2 ;;
esac

# Links the compiled library with the C code in embed/.
link() {
  make -s -C "$top" -f build/library.mk ARCHIVE="$out/libft_c.a" OUT="$out" CC="$cc" AR="$ar" HEAP="${HEAP-heap}"
}
if is_newer_than_sources "$out/libft_c.a" ft_c; then
  link
  exit
fi
need_kit || exit 2

tree=$(mktemp -d "${TMPDIR:-/tmp}/talft-library-XXXXXX") || exit 2
mkdir -p "$out" || exit 2
log=$tree.log
trap 'rm -rf "$tree" "$log"' EXIT
failed() {
  tail -n 20 "$log"
  echo "talft: the library could not be proved or compiled"
  exit 1
}
make_in "$tree" ft_c "$arch" libft_c.a src/lib.rt --crate-type staticlib >"$log" 2>&1 || failed
cp "$tree/crates/ft_c/libft_c.a" "$out/libft_c.a" && touch -r "$tree/begun" "$out/libft_c.a" && link
