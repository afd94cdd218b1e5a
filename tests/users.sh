#!/usr/bin/env bash
# Does what a new user does in a clean clone: gets a first answer, runs `make`, installs the program with its manual,
# completion and syntax files, and removes it again. It prints what it measured. It is not part of the gate.
#
#     bash tests/users.sh [--quick | --anew]
#
# With --quick nothing is proved, and the installed program and library are stand-ins. With --anew nothing is reused from
# earlier proofs. Missing programs are named, and what needs them is skipped.
set -u
from=$(cd "$(dirname "$0")/.." && pwd)
. "$from/tests/report.sh"
way=${1-}

seconds_since() { echo $(($(date +%s) - $1)); }

git clone -q "$from" "$work/talft" || exit 2
top=$work/talft
cd "$top" || exit 2
echo "processors: $(nproc); $(rt version)"

# The first answer.
start=$(date +%s)
got=$(./talft trial examples/five.obj 2>"$work/said"; printf '/%d' $?)
took=$(seconds_since "$start")
report 'the first answer' "$(printf 'out 5\n/0')" "$got"
report 'the message about it' 'talft: running the unproved sources, which is slow: `make` proves and builds the program' "$(cat "$work/said")"
report 'the first answer within a minute' yes "$([ "$took" -lt 60 ] && echo yes || echo "$took seconds")"
echo "seconds to the first answer: $took"

# Calls before the proof, on half of the processors: `tried NAME STATUS TEXT COMMAND` expects the status and the text of
# the proved program, or status 70 if the sources cannot be run in this way.
tried() {
  local name=$1 status=$2 text=$3 of
  shift 3
  while [ "$(jobs -rp | wc -l)" -ge $((($(nproc) + 1) / 2)) ]; do wait -n; done
  of=$work/tried/$((++count))
  printf '%s\n' "$name" >"$of.name"
  printf '%b/%d' "$text" "$status" >"$of.wanted"
  (eval "$1" >"$of.out" 2>"$of.said" </dev/null; printf '/%d' $? >"$of.status"; cat "$of.out" "$of.status" >"$of.got") &
}
count=0
mkdir "$work/tried" "$work/a folder"
cp examples/five.obj "$work/a folder/an object"
mkfifo "$work/pipe"
export talft=$top/talft work top
session='at 4 running\nzapped\nat 12 detected\nr1 G 6\n1048576 6\nat 4 running\nr1 G 6\nat 0 running\nout 5\nat 14 done\nat 14 done pcg 7 pcb 7 block 0 index 6\n'
tried 'a name with a blank, elsewhere' 1 '' 'cd "$work/tried" && "$talft" run "../a folder/an object" --fault 4:r1:6'
tried 'a wild load' 0 'out 5\n' '"$talft" trial "$top/examples/reload.obj" --fault 2:r0:7 --wild 5'
tried 'a campaign' 0 '4:r1:6 detected 11\n10:r1:6 masked\n0:pcg:3 detected 0\n9:qv0:6 idle\nfaults 4 masked 1 detected 2 idle 1 corrupt 0\n' \
  'cd "$top/examples" && "$talft" campaign five.obj --faults five.faults --steps 14'
tried 'an object as its own fault list' 11 'list 1 1\n' 'cd "$top/examples" && "$talft" survey five.obj --faults five.obj'
tried 'a session' 0 "$session" '"$talft" debug "$top/examples/five.obj" <"$top/examples/five.script"'
tried 'a session from a pipe' 0 "$session" 'cat "$top/examples/five.script" | "$talft" debug "$top/examples/five.obj"'
tried 'an object that is made' 0 'accepted\n' \
  '"$talft" compile "$top/examples/sum.src" >"$work/sum.obj" && "$talft" check "$work/sum.obj"'
tried 'a missing file' 3 '' '"$talft" trial "$work/missing"'
tried 'a folder' 3 '' '"$talft" trial "$work"'
tried 'no arguments' 2 'usage\n' '"$talft"'
tried 'an argument that is not UTF-8' 2 'usage\n' '"$talft" trial $'"'\\xff'"
tried 'standard output on a full device' 4 '' '"$talft" trial "$top/examples/five.obj" >/dev/full'
tried 'standard output that is closed' 4 '' '"$talft" trial "$top/examples/five.obj" >&-'
tried 'a run without output' 9 '' '"$talft" trial "$top/examples/five.obj" --steps 11 >&-'
tried 'standard input that is closed' 70 '' '"$talft" debug "$top/examples/five.obj" <&-'
tried 'a pipe as an object' 70 '' '"$talft" trial "$work/pipe"'
tried 'much output' 70 '' '"$talft" exec "$top/examples/endless.src" --steps 10000000'
wait
for name in "$work"/tried/*.name; do
  of=${name%.name}
  report "before the proof: $(cat "$name")" "$(cat "$of.wanted")" "$(cat "$of.got")"
done
report 'the clone is unchanged' '' "$(git status --short)"

# `make`.
if [ "$way" = --quick ]; then
  mkdir -p crates/talft/out
  printf '#!/bin/sh\necho "a stand-in"\n' >crates/talft/out/talft
  chmod +x crates/talft/out/talft
  mkdir -p crates/ft_c/out/library
  ar rcs crates/ft_c/out/library/libft_c.a
else
  start=$(date +%s)
  if [ "$way" = --anew ]; then bash build/prove.sh --anew; else make; fi
  report 'make' 0 $?
  took=$(seconds_since "$start")
  echo "minutes of make: $(((took + 30) / 60)) ($took seconds)"
  got=$(./talft trial examples/five.obj 2>&1; printf '/%d' $?)
  report 'the proved program' "$(printf 'out 5\n/0')" "$got"
fi
start=$(date +%s%N)
report 'make again' "talft: $top/crates/talft/out/talft is proved and built" "$(make)"
echo "milliseconds of make again: $((($(date +%s%N) - start) / 1000000))"

# The installed files.
here=$(mktemp -d "$work/here.XXX")
make -s install DESTDIR="$here" PREFIX=/usr >"$work/said" 2>&1
report 'make install' 0 $?
usr=$here/usr
report 'the installed program' "$(crates/talft/out/talft demo 3)" "$("$usr/bin/talft" demo 3)"
if has man 'the manual pages'; then
  for page in "$usr"/share/man/man?/talft*; do
    report "warnings of man at ${page##*/}" '' "$(man -l --warnings "$page" 2>&1 >/dev/null)"
  done
  report 'man talft' yes "$(MANPATH=$usr/share/man man talft 2>&1 | grep -q 'talft campaign OBJECT --faults FILE' && echo yes)"
fi
if has mandoc 'the lint of the manual pages'; then
  report 'warnings of mandoc' '' "$(mandoc -T lint -W warning "$usr"/share/man/man?/talft* 2>&1)"
fi
if has pandoc 'the making of the manual pages'; then
  bash man/make.sh
  report 'the manual pages, regenerated' '' "$(git diff -U0 man | grep '^[-+][^-+]' | grep -v '^[-+]\.TH \|^[-+]\.\\" [0-9a-f]* [0-9a-f]*$')"
  git checkout -q man
fi
sources="$top/examples/*.src $top/tests/sources/tokens.src"
report 'completion under a terminal' '8 lines, 0 wrong' \
  "$(python3 tests/completion.py "$usr/share/bash-completion/completions/talft" examples 2>&1)"
report 'the grammar of TextMate' '0 wrong' "$(python3 tests/editors.py textmate $sources 2>&1 | sed 's/.* bytes, //')"
if has vim 'its syntax file' && vim --version | grep -q '+syntax'; then
  report 'the syntax file of Vim' '0 wrong' "$(python3 tests/editors.py vim $sources 2>&1 | sed 's/.* bytes, //')"
fi
if command -v bat >/dev/null || has batcat 'the syntax file of bat'; then
  report 'the syntax file of bat' '0 wrong' "$(python3 tests/editors.py bat $sources 2>&1 | sed 's/.* bytes, //')"
fi
report 'the installed tools' "Only in $usr/share/talft/tools: talft.py" "$(diff -r -x bin tools "$usr/share/talft/tools")"
if [ "$way" != --quick ] && has pkg-config 'the installed library'; then
  cc examples/c/loader.c $(PKG_CONFIG_PATH=$usr/lib/pkgconfig pkg-config --cflags --libs talft) -o "$work/loader"
  report 'the installed library' accepted "$(LD_LIBRARY_PATH=$usr/lib "$work/loader" examples/five.obj 2>&1)"
  report 'the installed version' "$(cat "$usr/share/doc/talft/BUILD")" "$("$usr/bin/talft" --version 2>&1 >/dev/null)"
fi
report 'a tool that is installed' 'usage: talft-faults' "$("$usr/bin/talft-faults" --help | head -n 1 | cut -c1-19)"
report 'the installed examples' '' "$(diff -r examples "$usr/share/talft/examples")"
make -s uninstall DESTDIR="$here" PREFIX=/usr >"$work/said" 2>&1
report 'make uninstall' '' "$(find "$here" ! -type d)"
make -s clean
report 'make clean' '' "$(find . -name out)"
report 'the clone at the end' '' "$(git status --short --ignored)"

close
