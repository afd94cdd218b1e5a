# Files, pipes, folders and devices: each leads to the expected status, without a crash message.

expect 'a missing file' 3 '' trial "$work/missing"
expect 'a folder' 3 '' trial "$work"
expect 'a name with a line feed' 3 '' trial $'a\nb'
: >empty
expect 'an empty file' 7 'object 2 0\n' trial empty
head -c 67108865 /dev/zero >long
expect 'a file above the limit' 7 'object 2 67108864\n' trial long
head -c 67108864 /dev/zero >longest
expect 'a file at the limit' 7 'object 1 0\n' trial longest
cp "$top/examples/five.obj" ./-x
expect 'a relative name' 0 'out 5\n' trial -x

"$top/talft" trial "$top/examples/five.obj" >/dev/full 2>/dev/null
report 'standard output on a full device' 4 $?
"$top/talft" trial "$top/examples/five.obj" >&- 2>/dev/null
report 'standard output that is closed' 4 $?
mkfifo pipe
cat "$top/examples/five.obj" >pipe &
expect 'a file that is a pipe' 0 'out 5\n' trial pipe
wait

refused_at_open() {
  if [ "$(id -u)" -eq 0 ]; then
    # The superuser may read every file.
    expect 'an unreadable file' 0 'out 5\n' trial unreadable
  else
    expect 'an unreadable file' 3 '' trial unreadable
  fi
}
cp "$top/examples/five.obj" unreadable
chmod 000 unreadable
refused_at_open

got=$("$top/talft" debug "$top/examples/five.obj" <&- 2>errors; printf '/%d' $?)
report 'standard input that is closed' "$(printf '/3')" "$got"
report 'the message about standard input that is closed' 'error: standard input is closed' "$(cat errors)"
got=$("$top/talft" debug "$top/examples/five.obj" <"$work" 2>errors; printf '/%d' $?)
report 'a folder as standard input' "$(printf '/3')" "$got"
report 'the message about a folder as standard input' 'error: standard input is a folder' "$(cat errors)"
got=$("$top/talft" debug "$top/examples/five.obj" 0>written 2>errors; printf '/%d' $?)
report 'standard input that is open only for writing' "$(printf '/3')" "$got"
report 'the message about standard input that is open only for writing' 'error: standard input cannot be read' "$(cat errors)"

# A reader that closes the pipe after the first line.
"$top/talft" compile "$top/examples/endless.src" >endless.obj
set -o pipefail
"$top/talft" trial endless.obj --steps 10000000 2>errors | head -n 1 >first
report 'a pipe that is closed' 4 "${PIPESTATUS[0]}"
set +o pipefail
report 'the first line before the pipe is closed' 'out 1' "$(cat first)"
report 'no message after the pipe is closed' '' "$(cat errors)"

# A reader that is gone before the first line is written: the program writes only at its end.
{ sleep 0.3; "$top/talft" trial "$top/examples/five.obj" 2>errors; echo $? >closed.status; } | true
report 'a pipe that is closed before the first line' 4 "$(cat closed.status)"
report 'no message after the pipe is closed at once' '' "$(cat errors)"

# Interrupted and short writes are continued; a full disk is an error, whether during the output or at its end.
if has cc 'writes that are interrupted'; then
  cc -O1 -fPIC -shared -o halting_write.so "$top/tests/halting_write.c"
  "$top/talft" trial endless.obj --steps 1000000 >endless.text 2>errors
  halting() {
    local name=$1 status=$2 text=$3 got
    shift 3
    env LD_PRELOAD="$work/halting_write.so" "$@" >halted 2>errors
    got=$?
    cmp -s halted "$text" || got="$got and another text"
    report "$name" "$status" "$got"
  }
  halting_program=$top/crates/talft/out/talft
  printf 'out 5\n' >five.text
  printf 'out' >front.text
  head -c 70000 endless.text >long.front
  halting 'a write that is interrupted' 0 five.text "$halting_program" trial "$top/examples/five.obj"
  halting 'writes of one byte each' 0 five.text TAKES=1 "$halting_program" trial "$top/examples/five.obj"
  halting 'a disk that is full at the end' 4 front.text ROOM=3 "$halting_program" trial "$top/examples/five.obj"
  halting 'many writes that are interrupted' 9 endless.text TAKES=1000 "$halting_program" trial endless.obj --steps 1000000
  halting 'a disk that is full within' 4 long.front ROOM=70000 "$halting_program" trial endless.obj --steps 1000000
fi

# A terminal ends its lines with a carriage return and a line feed.
if has script 'a terminal as standard output'; then
  got=$(script -qec "$top/talft trial $top/examples/five.obj" typescript </dev/null | tr -d '\r'; printf '/%d' "${PIPESTATUS[0]}")
  report 'a terminal as standard output' "$(printf 'out 5\n/0')" "$got"
fi
