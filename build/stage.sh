#!/usr/bin/env bash
# Lays out a release in a folder: `stage.sh FOLDER PROGRAM [LOG]`. The folder gets bin/, include/, lib/ and share/, and the
# files for checking a release: PROOF.md, SBOM.spdx.json and CHECKSUMS. LOG is a gate run's log, for the counts.
set -eu
export LC_ALL=C TZ=UTC
umask 022
top=$(cd "$(dirname "${BASH_SOURCE[0]}")/.." && pwd)
. "$top/build/kit.sh"
. "$top/build/about.sh"
to=$1 program=$(readlink -f "$2") log=${3-}
seconds=$(time_of_sources)

mkdir -p "$to"
make -s -C "$top" install-program install-library PROGRAM="$program" DESTDIR="$(readlink -f "$to")" PREFIX=
for name in README.md CHANGELOG.md SECURITY.md; do
  install -m 644 "$top/$name" "$to/$name"
done
install -m 644 "$top"/docs/*.md "$to/share/doc/talft"
python3 "$top/docs/trace.py" --csv "$to/share/doc/talft/trace.csv"
python3 "$top/docs/trace.py" --page "$to/share/doc/talft/trace.html"
{
  printf '# Proof\n\n%s\n\n' "$(about)"
  python3 "$top/build/counts.py" ${log:+"$log"}
} >"$to/PROOF.md"
if command -v rt >/dev/null; then
  python3 "$top/build/sbom.py" "$version" "$(commit_of_sources)" "$seconds" "$(dirname "$(rt doc)")" "$(rt version)" \
    "$program" "$to/lib/libtalft.a" "$to/lib/libtalft.so.0" >"$to/SBOM.spdx.json"
fi
(cd "$to" && find . -type f ! -name CHECKSUMS | sort | sed 's|^\./||' | tr '\n' '\0' | xargs -0 sha256sum) >"$to/CHECKSUMS"
find "$to" -exec touch -h -d "@$seconds" {} +
