# Links: two modules in assembly text that jump to each other, linked, checked, run, struck, scheduled and tried in a
# campaign; compiled modules; and a map for each refusal.

# `module NAME LINES..` makes the object of an assembly text.
module() {
  local name=$1
  shift
  printf '%s\n' "$@" >"$name.asm"
  "$top/talft" asm "$name.asm" >"$name.obj" 2>errors
  report "the module $name" 0 $?
}

# `linked NAME LINES..` links by a map with these lines, and writes linked.obj.
linked() {
  local name=$1
  shift
  printf '%s\n' "$@" >some.map
  "$top/talft" link some.map >linked.obj 2>errors
  report "$name" 0 $?
}

# `unlinked NAME STATUS TEXT LINES..` links by a map with these lines, which is refused.
unlinked() {
  local name=$1 status=$2 text=$3
  shift 3
  printf '%s\n' "$@" >some.map
  expect "$name" "$status" "$text" link some.map
}

# THE EXAMPLE

for name in caller doubler; do
  "$top/talft" asm "$top/examples/$name.asm" >$name.obj
  expect "the check of $name" 0 'accepted\n' check $name.obj
  expect "the run of $name alone" 0 '' run $name.obj
done
"$top/talft" link "$top/examples/caller.map" >linked.obj 2>errors
report 'a link of two modules' 0 $?
report 'the version of the linked object' 2 "$(od -An -tu1 -j7 -N1 linked.obj | tr -d ' ')"
expect 'its check' 0 'accepted\n' check linked.obj
expect 'its run' 0 'out 10\n' run linked.obj --steps 34
expect 'its run, a step shorter' 9 'out 10\n' run linked.obj --steps 33
expect 'a fault in the other module that is detected' 1 '' run linked.obj --fault 14:r2:7
expect 'a fault in the other module that is masked' 0 'out 10\n' run linked.obj --fault 14:r1:7
expect 'a fault in an address that is sent to the other module' 1 '' run linked.obj --fault 8:r33:7
expect 'a recovery from a fault in the other module' 0 'out 10\nagain 0\n' recover linked.obj --fault 14:r2:7
"$top/talft" schedule linked.obj >scheduled.obj 2>errors
report 'the schedule of the linked object' 0 $?
expect 'the run of the schedule' 0 'out 10\n' run scheduled.obj
awk 'BEGIN { for (i = 0; i < 1000; i++) printf "%d:r%d:%d\n", i % 34, i * 7 % 64, i * i % 1000 }' >link.faults
for object in linked scheduled; do
  report "a campaign over $object.obj" 'faults 1000 corrupt 0' "$("$top/talft" campaign $object.obj --faults link.faults --steps 34 |
    sed -n 's/^\(faults [0-9]*\) .* \(corrupt [0-9]*\)$/\1 \2/p')"
done
"$top/talft" dis linked.obj >linked.asm
"$top/talft" asm linked.asm >again.obj
report 'the text of the linked object assembles to it' 0 "$(cmp linked.obj again.obj; echo $?)"

# ROWS

cp "$top/examples/five.obj" five.obj
cp "$top/examples/mixed.obj" mixed.obj
cp "$top/examples/reload.obj" reload.obj
module stub 'cell out int 0' 'node 0 memory' 'type 0 0' 'block 0' 'mov r1 G 5 code:0' 'mov r33 B 5 code:0' 'jmp_G r1' \
  'jmp_B r33 0' 'block 0' 'halt' 'entry 0'
linked 'a jump to a stub' 'module stub.obj' 'import go 1' 'module five.obj' 'export go 0'
report 'its instructions' 12 "$("$top/talft" dis linked.obj | sed '1,/^block/d; /^block/d; /^entry/d' | wc -l | tr -d ' ')"
expect 'the run of a jump to a stub' 0 'out 5\n' run linked.obj --steps 22
expect 'the same, a step shorter' 9 'out 5\n' run linked.obj --steps 21
module start 'cell out int 0' 'node 0 memory' 'type 0 0' 'block 0' 'halt' 'entry 0'
linked 'an entry block that is imported' 'module start.obj' 'import go 0' 'module five.obj' 'export go 0'
expect 'its run from the exported block' 0 'out 5\n' run linked.obj
"$top/talft" upgrade five.obj >second.obj
linked 'a module alone' 'module second.obj'
report 'a module linked alone does not change' 0 "$(cmp linked.obj second.obj; echo $?)"
printf 'module five.obj' >some.map
"$top/talft" link some.map >linked.obj 2>errors
report 'a map without its last line feed' 0 $?
for number in {1..64}; do echo 'module five.obj'; done >some.map
"$top/talft" link some.map >linked.obj 2>errors
report '64 modules' 0 $?
expect 'the run of 64 modules' 0 'out 5\n' run linked.obj

# COMPARED WITH ANOTHER LINKER

# `compared NAME LINES` links by examples/NAME.map, and compares the object with the one that tests/link.py makes from
# the modules' texts.
compared() {
  local name=$1 lines=$2
  cp "$top/examples/$name.map" .
  "$top/talft" link "$name.map" >"$name.linked" 2>errors
  report "the link of $name" 0 $?
  report "the text of $name" "$(python3 "$top/tests/link.py" "$name.map")" "$("$top/talft" dis "$name.linked")"
  expect "the check of $name" 0 'accepted\n' check "$name.linked"
  expect "the run of $name" 0 "$lines" run "$name.linked"
  report "a campaign over $name" 'faults 1000 corrupt 0' "$("$top/talft" campaign "$name.linked" --faults many.faults --steps 400 |
    sed -n 's/^\(faults [0-9]*\) .* \(corrupt [0-9]*\)$/\1 \2/p')"
  "$top/talft" schedule "$name.linked" >scheduled.obj
  expect "the schedule of $name" 0 "$lines" run scheduled.obj
}
awk 'BEGIN { for (i = 0; i < 1000; i++) printf "%d:r%d:%d\n", i % 300, i * 7 % 64, i * i % 1000 }' >many.faults
for name in count show; do "$top/talft" asm "$top/examples/$name.asm" >$name.obj; done
for name in up down; do "$top/talft" compile "$top/examples/$name.src" >$name.obj; done
for name in caller doubler count show up down; do "$top/talft" dis $name.obj >$name.asm; done
compared caller 'out 10\n'
compared count 'out 3\nout 2\nout 1\n'
compared updown 'out 1\nout 2\nout 3\nout 2\nout 1\nout 0\n'
expect 'a fault in the second turn' 1 'out 3\n' run count.linked --fault 40:r1:9
expect 'its recovery' 0 'out 3\nout 2\nout 1\nagain 1\n' recover count.linked --fault 40:r1:9

# Compiled objects never fail the walk. Linked alone, each becomes itself in version 2.
for program in "$top"/examples/*.src; do
  name=${program##*/}
  if "$top/talft" compile "$program" >alone.obj 2>errors; then
    linked "the link of $name alone" 'module alone.obj'
    report "the link of $name alone" '' "$("$top/talft" upgrade alone.obj | cmp - linked.obj 2>&1)"
  fi
done

# REFUSALS

unlinked 'refusal 1: an import before any module' 13 'link 1 1\n' 'import go 1'
: >some.map
expect 'refusal 1: no module' 13 'link 1 1\n' link some.map
unlinked 'refusal 1: an empty line' 13 'link 1 2\n' 'module five.obj' '' 'export go 0'
unlinked 'refusal 1: a line of another kind' 13 'link 1 2\n' 'module five.obj' 'modules five.obj'
unlinked 'refusal 1: two spaces' 13 'link 1 1\n' 'module  five.obj'
unlinked 'refusal 1: a number with a leading zero' 13 'link 1 2\n' 'module five.obj' 'export go 00'
unlinked 'refusal 1: a number of 2^32' 13 'link 1 2\n' 'module five.obj' 'export go 4294967296'
unlinked 'refusal 2: a name that is exported twice' 13 'link 2 3\n' 'module five.obj' 'export go 0' 'export go 0'
unlinked 'refusal 2: a block that is imported and exported' 13 'link 2 3\n' 'module stub.obj' 'import go 1' 'export back 1'
unlinked 'refusal 1 before refusal 2' 13 'link 1 4\n' 'module five.obj' 'export go 0' 'export go 0' 'end'
unlinked 'refusal 3: other cells' 13 'link 3 1\n' 'module five.obj' 'module reload.obj'
module code_cell 'cell out code:0 1' 'node 0 memory' 'type 0 0' 'block 0' 'halt' 'entry 0'
unlinked 'refusal 3: a cell with a code address' 13 'link 3 0\n' 'module code_cell.obj'
module code_row 'cell out int 0' 'node 0 memory' 'node 0 word 1' 'type 0 0' 'reg r2 G code:0 1' 'type 0 0' 'block 1' 'halt' 'entry 0'
unlinked 'refusal 4' 13 'link 4 1\n' 'module five.obj' 'module code_row.obj'
module stores 'cell out int 0' 'node 0 memory' 'type 0 0' 'block 0' 'mov r0 G 1048576 ref:int' 'mov r1 G 1 code:0' \
  'mov r32 B 1048576 ref:int' 'mov r33 B 1 code:0' 'st_G r0 r1' 'st_B r32 r33' 'halt' 'entry 0'
unlinked 'refusal 5' 13 'link 5 1 0 4\n' 'module five.obj' 'module stores.obj'
{
  printf '%s\n' 'cell out int 0' 'node 0 memory' 'type 0 0' 'block 0'
  for ((number = 0; number < 32768; number++)); do echo 'mov r0 G 1 int'; done
  printf '%s\n' 'halt' 'entry 0'
} >large.asm
"$top/talft" asm large.asm >large.obj
unlinked 'refusal 6' 13 'link 6 1\n' 'module large.obj' 'module large.obj'
unlinked 'refusal 7: of an export' 13 'link 7 2\n' 'module five.obj' 'export go 1'
unlinked 'refusal 7: of an import' 13 'link 7 4\n' 'module stub.obj' 'import go 1' 'module five.obj' 'import on 1'
unlinked 'refusal 8' 13 'link 8 2\n' 'module stub.obj' 'import go 0' 'module five.obj' 'export go 0'
unlinked 'refusal 9' 13 'link 9 2\n' 'module stub.obj' 'import go 1' 'module five.obj'
unlinked 'refusal 10' 13 'link 10 2\n' 'module stub.obj' 'import go 1' 'module doubler.obj' 'export go 1'
for number in {1..65}; do echo 'module five.obj'; done >some.map
expect 'refusal 1: a 65th module' 13 'link 1 65\n' link some.map
yes 'module five.obj' | head -c 65536 >some.map
expect 'a map at the limit' 13 'link 1 65\n' link some.map
yes 'module five.obj' | head -c 65537 >some.map
expect 'refusal 11' 13 'link 11 65536\n' link some.map

# FILES

expect 'a missing map' 3 '' link "$work/missing"
unlinked 'a missing module' 3 '' 'module five.obj' 'module missing.obj'
unlinked 'a missing module after a refused one' 13 'link 3 1\n' 'module five.obj' 'module reload.obj' 'module missing.obj'
unlinked 'a module whose bytes do not spell an object' 7 'object 1 0\n' 'module five.obj' 'module large.asm'
unlinked 'a module that is not accepted' 8 'check block 0 index 3 premise 2\n' 'module mixed.obj' 'module missing.obj'
expect 'no map' 2 'usage\n' link
expect 'two maps' 2 'usage\n' link some.map some.map
