#!/usr/bin/env bash
# Writes docs/CRATES.md from crates.txt and the crates' head comments. `tests/cli.sh` checks that it is up to date.
set -eu
cd "$(dirname "$0")/.."

printf '%s\n' '# Crates' '' \
  'Each crate, lowest first: its purpose, what its contract promises, and the crates of this repository that it depends' \
  'on. `docs/crates.sh` makes this list from `crates.txt` and the head comments of the crates.'
while IFS=: read -r crate libraries; do
  crate=${crate% staticlib}
  case $crate in '' | '#'*) continue ;; esac
  root=crates/$crate/src/lib.rt
  [ -f "$root" ] || root=crates/$crate/src/main.rt
  printf '\n## `%s`\n\n' "$crate"
  sed -n '/^\/\/!/!q; s/^\/\/! \{0,1\}//p' "$root"
  below=
  for library in $libraries; do
    if [ -d "crates/$library" ]; then below="$below, \`$library\`"; fi
  done
  if [ -n "$below" ]; then printf '\nIt depends on %s.\n' "${below#, }"; fi
done <crates.txt
