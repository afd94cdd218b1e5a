#!/usr/bin/env bash
# Builds the program, the C library, the tarball and the package twice, one after the other, and compares the bytes. The
# second build has another folder, user, umask, locale, time zone and number of processors. Without --packages, program
# and library are compiled in each copy, from proofs that the kit has kept; with --anew, or if the kit keeps nothing,
# each copy is proved from scratch. With `--packages PROGRAM` the library is linked twice from the archive that is built
# here, and the tarball and the package are made twice from it and from PROGRAM; that takes seconds, so the gate does
# it. Prints a line for each file.
set -u
from=$(cd "$(dirname "$0")/.." && pwd)
way=${1-} given=${2-}
room=$(mktemp -d) || exit 2
trap 'rm -rf "$room"' EXIT
chmod 755 "$room"
one=$room/one two=$room/another/and/longer
mkdir -p "$two" "$one" || exit 2
# The time of the commit: the copies are not repositories.
SOURCE_DATE_EPOCH=$(git -C "$from" log -1 --format=%ct 2>/dev/null || echo 1)
export SOURCE_DATE_EPOCH
for copy in "$one" "$two"; do
  tar -C "$from" --exclude=out --exclude=.git --exclude=__pycache__ -cf - . | tar -C "$copy" -xf - || exit 2
  mkdir -p "$copy/crates/talft/out" "$copy/crates/ft_c/out/library" || exit 2
  [ "$way" != --packages ] || { cp "$given" "$copy/crates/talft/out/talft" &&
    cp "$from/crates/ft_c/out/library/libft_c.a" "$copy/crates/ft_c/out/library"; } || exit 2
done
find "$two" -exec touch -d '2001-02-03 04:05:06' {} +

# `built FOLDER` builds the requested parts in a copy.
built() {
  cd "$1" || exit 2
  [ "$way" = --packages ] || bash build/prove.sh ${way:+"$way"} >log 2>&1 || { tail -n 5 log; exit 1; }
  bash build/dist.sh tar made && bash build/dist.sh deb made
}
(umask 022; LC_ALL=C TZ=UTC built "$one" >"$room/said") || { cat "$room/said" >&2; exit 1; }
other_locale=$(locale -a 2>/dev/null | grep -vixE 'c|posix|c\.utf-?8' | head -n 1)
export LC_ALL=${other_locale:-C.UTF-8} TZ=Pacific/Kiritimati HOME=$room way two
export -f built
as=
if [ "$(id -u)" = 0 ]; then
  chown -R nobody "$two" "$room/another"
  # The kit keeps proofs for each user separately. The other user gets a PATH with only what every user can run.
  [ "$way" != --packages ] || as='env PATH=/usr/local/bin:/usr/bin:/bin setpriv --reuid=nobody --clear-groups'
fi
# The kit runs the tests of crates as nobody, who must be able to read them.
if [ "$way" = --packages ]; then umask 077; else umask 002; fi
$as taskset -c 0 bash -c 'export HOME=$two TMPDIR=$two; built "$two"' >"$room/said" || { cat "$room/said" >&2; exit 1; }
same=0
for file in "$one"/made/* "$one/crates/talft/out/talft" "$one"/crates/ft_c/out/library/lib*; do
  name=${file#"$one"/}
  if cmp "$file" "$two/$name"; then
    echo "same: ${name##*/}"
  else
    same=1
  fi
done
exit "$same"
