#!/usr/bin/env bash
# Answers a call of talft before the program is proved: `rt try` compiles its sources and runs them with checks, which
# takes most of a minute. Arguments, files, standard input, output and status are the same as with the proved
# program. If that cannot be guaranteed, this script says what to do, and exits with status 70.
set -u
top=$(cd "$(dirname "${BASH_SOURCE[0]}")/.." && pwd) || exit 70
# One byte more than the longest object and the longest script that the program accepts.
most_bytes=67108865 most_script=1048577
# How long a run may take, in seconds.
most_seconds=600

cannot() {
  printf 'talft: error: %s. Only the proved program can do this: `make` proves and builds it\n' "$1" >&2
  exit 70
}

# Prints the help of one command, or of all. It needs no program: the texts come from the sources.
say_help() {
  [ "${TALFT_EXPLAIN-}" = 0 ] ||
    awk -v of="$1" -v version="$(cat "$top/VERSION")" -f "$top/build/help.awk" "$top/crates/ft_mistakes/src/forms.rt" >&2
}
help() {
  say_help "$1"
  echo usage 2>/dev/null || exit 4
  exit 2
}
case ${1-} in
  '')
    if [ $# -eq 0 ]; then
      [ "${TALFT_EXPLAIN-}" = 0 ] || echo 'talft: error: missing command' >&2
      help ''
    fi
    ;;
  help | --help | -h) help "${2-}" ;;
  --version | -V)
    [ "${TALFT_EXPLAIN-}" = 0 ] || echo "talft $(cat "$top/VERSION")" >&2
    echo usage 2>/dev/null || exit 4
    exit 2
    ;;
esac
# `talft COMMAND --help`: the program would take --help as the name of a file, or, after `demo`, as a number of turns.
case $#:${2-} in
  2:--help | 2:-h)
    [ "$1" != demo ] || help demo
    if [ ! -e "$2" ] && grep -q "^    \"$1 " "$top/crates/ft_mistakes/src/forms.rt"; then
      say_help "$1"
      exit 3
    fi
    ;;
esac

. "$top/build/kit.sh" || exit 70
need_kit || exit 70
echo 'talft: running the unproved sources, which is slow: `make` proves and builds the program' >&2
work=$(mktemp -d) || exit 70
trap 'rm -rf "$work"' EXIT
words=("$@") data=() lacking=no script=/dev/null
# An assembly text may be twice as long.
[ "${1-}" != asm ] || most_bytes=134217729
declare -A names=([operand]=operand [faults]=faults)

# Like the program, ignores all arguments if one of them is not UTF-8.
case $* in
  *[![:ascii:]]*)
    python3 -X utf8 -c 'import sys; "".join(sys.argv[1:]).encode()' "$@" 2>/dev/null || words=()
    ;;
esac

# Passes on the file that argument $1 names, under the name $2: no answer depends on the name. To the program, a missing
# or unreadable file does not exist.
hand_over() {
  local file=${words[$1]}
  words[$1]=$2 names[$2]=$file
  if [ -f "$file" ] && [ -r "$file" ]; then
    head -c "$most_bytes" <"$file" >"$work/$2" || cannot "$file: cannot be copied"
    data+=(--data "$2=$work/$2")
  elif [ -e "$file" ] && [ ! -f "$file" ] && [ ! -d "$file" ]; then
    cannot "$file is a pipe or a device, which can be read only once"
  else
    lacking=yes
  fi
}

if [ "${#words[@]}" -gt 1 ] && [ "${words[0]}" = link ]; then
  cannot '`link` reads the files that its map names'
fi
if [ "${#words[@]}" -gt 1 ] && [ "${words[0]}" != demo ]; then
  operand=${words[1]}
  hand_over 1 operand
  for ((at = 2; at + 1 < ${#words[@]}; at += 2)); do
    if [ "${words[at]}" = --faults ] && [ "${words[at + 1]}" = "$operand" ]; then
      words[at + 1]=operand
    elif [ "${words[at]}" = --faults ]; then
      hand_over $((at + 1)) faults
    fi
  done
  # If there is no object, the program reads no script.
  if [ "${words[0]}" = debug ] && [ "$lacking" = no ]; then
    { [ ! -d /dev/fd/0 ] && : <&0; } 2>/dev/null || cannot 'standard input: cannot be read'
    script=$work/script
    head -c "$most_script" >"$script" || cannot 'standard input: cannot be read'
  fi
fi

cd "$top/crates/talft" || exit 70
# In a process group of its own, so that a signal also ends its children.
set -m
rt try --steps 1 --seconds "$most_seconds" ${data[@]+"${data[@]}"} -- ${words[@]+"${words[@]}"} \
  <"$script" >"$work/out" 2>"$work/said" &
tried=$!
set +m
stopped() {
  trap '' HUP INT TERM
  kill -TERM -- "-$tried" 2>/dev/null
  for ((turn = 0; turn < 30; turn++)); do
    kill -0 -- "-$tried" 2>/dev/null || break
    sleep 0.1
  done
  kill -KILL -- "-$tried" 2>/dev/null
  wait "$tried" 2>/dev/null
  exit "$1"
}
trap 'stopped 129' HUP
trap 'stopped 130' INT
trap 'stopped 143' TERM
{ wait "$tried"; } 2>/dev/null

status=$(sed -n '$s/^run=ended status=\([0-9]*\) .*$/\1/p' "$work/said")

# A line that the program wrote about a file that was passed under the name $2, with the file's own name put back. The program
# reports folders and unreadable files as missing.
said_of() {
  local said=${1#"$2"} file=${names[$2]}
  if [ "$said" = ': error: no such file' ] && [ -d "$file" ]; then
    said=': error: is a folder'
  elif [ "$said" = ': error: no such file' ] && [ -e "$file" ]; then
    said=': error: permission denied'
  fi
  printf '%s%s\n' "$file" "$said"
}

# Prints the program's own messages.
say() {
  local line
  while IFS= read -r line; do
    case $line in
      'interpreter: '* | 'checked: '* | 'run='*) ;;
      operand:*) said_of "$line" operand ;;
      faults:*) said_of "$line" faults ;;
      *) printf '%s\n' "$line" ;;
    esac
  done <"$work/said" >&2
}
case $status:$lacking in
  :*)
    if grep -q 'no-answer: the program wrote more than' "$work/said"; then
      cannot 'the output is more than 1 MiB'
    elif grep -q 'no-answer: the program did not end within' "$work/said"; then
      cannot "this takes more than $most_seconds seconds"
    fi
    cat "$work/said" >&2
    cannot 'the sources could not be compiled and run'
    ;;
  3:no) cannot 'a file could not be passed on' ;;
  5:*) cannot 'memory ran out' ;;
esac
if [ -s "$work/out" ]; then
  cat "$work/out" 2>/dev/null || exit 4
fi
[ "${TALFT_EXPLAIN-}" = 0 ] || say
exit "$status"
