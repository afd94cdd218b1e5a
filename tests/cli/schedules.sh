# Schedules: for compiled objects, the order is the one that tests/schedule.py finds by exchanging neighbours. The
# object of fibonacci.src, before and after scheduling: its text, its run, and a campaign.

for object in five reload indexed; do
  "$top/talft" dis "$top/examples/$object.obj" >before.asm
  "$top/talft" schedule "$top/examples/$object.obj" >scheduled.obj 2>errors
  report "the order of $object.obj" "$(python3 "$top/tests/schedule.py" before.asm)" "$("$top/talft" dis scheduled.obj)"
done
for program in fibonacci sieve sort crc32 ring filter life; do
  "$top/talft" compile "$top/examples/$program.src" >before.obj
  "$top/talft" dis before.obj >before.asm
  "$top/talft" schedule before.obj >scheduled.obj 2>errors
  report "the schedule of $program" 0 $?
  report "the order of $program" "$(python3 "$top/tests/schedule.py" before.asm)" "$("$top/talft" dis scheduled.obj)"
  expect "the check of the schedule of $program" 0 'accepted\n' check scheduled.obj
  report "the run of the schedule of $program" "$("$top/talft" run before.obj)" "$("$top/talft" run scheduled.obj)"
done
expect 'no schedule of an object that is not accepted' 8 'check block 0 index 3 premise 2\n' schedule "$top/examples/mixed.obj"

# How many instructions lie between each green store and the blue store that commits its pair.
distances() {
  awk '/^block/ { at = green = blue = 0 } { at++ } /^st_G/ { placed[++green] = at } /^st_B/ { print at - placed[++blue] }' "$1"
}

awk 'BEGIN { for (i = 0; i < 1000; i++) printf "%d:r%d:%d\n", i % 900, i * 7 % 64, i * i % 1000 }' >schedule.faults
for text in fibonacci:1 scheduled:16; do
  name=${text%:*}
  report "the distance in $name.asm" "${text#*:}" "$(distances "$top/examples/$name.asm")"
  "$top/talft" asm "$top/examples/$name.asm" >numbers.obj
  report "the run of $name.asm" "$("$top/talft" mean "$top/examples/fibonacci.src")" "$("$top/talft" run numbers.obj)"
  report "a campaign over $name.asm" 'faults 1000 corrupt 0' "$("$top/talft" campaign numbers.obj --faults schedule.faults |
    sed -n 's/^\(faults [0-9]*\) .* \(corrupt [0-9]*\)$/\1 \2/p')"
done
"$top/talft" compile "$top/examples/fibonacci.src" >before.obj
report 'fibonacci.asm is the text of fibonacci.src' "$(sed '/^#/d; /^$/d' "$top/examples/fibonacci.asm")" "$("$top/talft" dis before.obj)"
"$top/talft" schedule before.obj >scheduled.obj
report 'scheduled.asm is its schedule' "$(sed '/^#/d; /^$/d' "$top/examples/scheduled.asm")" "$("$top/talft" dis scheduled.obj)"
