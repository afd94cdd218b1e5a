#!/usr/bin/env bash
# Runs the tests of the gate as on a fresh machine: PATH is one folder of links to bash, coreutils, diffutils, findutils,
# sed, grep, tar, gzip, awk, git, make, gcc with binutils, Python 3 and the kit, and to nothing else. Every Debian has the
# first eight. It is not part of the gate.
#
#     bash tests/fresh.sh [SCRIPT ..]
#
# Without a name it runs tests/cli.sh and tests/speed.sh.
set -u
top=$(cd "$(dirname "$0")/.." && pwd)
folder=$(mktemp -d)
trap 'rm -rf "$folder"' EXIT

for command in $(dpkg -L bash coreutils diffutils findutils sed grep tar gzip | sed -nE 's|^(/usr)?/s?bin/||p') \
  sh awk git make gcc cc as ld ar nm rt rattle; do
  ln -sf "$(type -P "$command")" "$folder/$command" || exit 2
done
# A python3 that is a script of a version manager needs more than this folder.
ln -sf "$(python3 -c 'import sys; print(sys.executable)')" "$folder/python3"

failed=0
[ $# -ne 0 ] || set -- tests/cli.sh tests/speed.sh
for script; do
  env -i HOME="$HOME" PATH="$folder" "$folder/bash" "$top/$script" </dev/null || failed=1
done
exit "$failed"
