# No call reports exhausted memory when there is enough: each table at its limit, with the inputs of limits.py. No
# clause distinguishes a body that gives up early from one whose allocation failed; these rows do.
mkdir room && cd room || exit

# `at_limit NAME [SIZE]` runs a row of limits.py at its largest size, or at SIZE. Status and last line must be as it
# says.
at_limit() {
  local status said
  mapfile -t room_row < <(python3 "$top/tests/limits.py" "$1" "${2:-full}")
  "$top/talft" "${room_row[@]:6}" <stdin >out 2>errors
  status=$?
  said=
  [ "${room_row[4]}" = '*' ] || said=$(tail -n 1 out | tr -d '\0')
  report "room for $1" "${room_row[3]} ${room_row[4]#\*}" "$status $said"
}

# Objects: 1,024 cells, 1,048,576 nodes, 4,096 code types, 262,144 register rows, 32,768 queue rows, 65,536 blocks, 65,536
# instructions, and 1,048,576 substitution rows, 128 for each jump.
for room_name in largest-second-check largest-trial largest-survey largest-debug largest-second-upgrade; do
  at_limit "$room_name"
done
at_limit largest-second-dis
mv out dis.text
"$top/talft" asm dis.text >again 2>errors
report 'room for the text of every table' 0 $?
cmp object again
report 'the object of the text of every table' 0 $?
for room_name in words-check typed-check names-check names-debug halts-check halts-run halts-campaign halts-recover halts-link \
  moves-check stores-run stores-debug indexes-run indexes-schedule crossing-schedule crossing-recover late-schedule; do
  at_limit "$room_name"
done
at_limit halts-schedule
mv out scheduled
"$top/talft" upgrade object >upgraded 2>errors
cmp upgraded scheduled
report 'the schedule of 65,536 blocks' 0 $?

# Plans, fault lists and scripts: 4,096 answers to wild loads, 65,536 faults, 1,048,576 bytes of a script, and 64
# breakpoints.
for room_name in wild-trial wild-survey wild-debug idle-campaign detected-survey script-step script-where; do
  at_limit "$room_name"
done
at_limit script-breaks 10
at_limit script-history 2

# Link maps: 64 modules, 4,096 lines of exports and of imports, and moves of 4,096 addresses.
for room_name in link-exports link-imports link-moves link-modules; do
  at_limit "$room_name"
done

# Sources: 1,048,576 bytes, 100 open brackets, braces and indices, 200 operators, 1,024 cells and a weight of 65,536.
for room_name in spaces brackets-100 braces-100 ifs-100 indices-100 weight bits nested-loads many-cells wide-choices; do
  for room_command in compile exec mean; do
    at_limit "source-$room_name-$room_command"
  done
done
for room_command in compile exec mean; do
  at_limit "source-operators-$room_command" 200
done
for room_number in {1..30}; do printf 'var v%d;' "$room_number"; done >variables.src
(cat variables.src && echo 'var v31;') >unused.src
echo 'cell out = 7; v30 = 1; out = v30;' >>variables.src
expect 'room for 30 variables and a word' 0 'out 1\n' exec variables.src
expect 'room for 31 variables' 0 '' exec unused.src
cd ..
