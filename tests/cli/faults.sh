# The fault lists of tools/faults.

five=$top/examples/five.obj
tool 'faults that write a word' 0 '4:r1:6\n10:r1:6\n' faults "$five" --steps 4:12:6 --sites r1 --values 6
tool 'faults that write words' 0 '0:pcb:0\n0:pcb:18446744073709551615\n' \
  faults "$five" --steps :1 --sites pcb --values 0,18446744073709551615
tool 'faults that flip the lowest bit' 0 '10:r0:1048577\n10:r1:4\n10:qa0:1048577\n10:qv0:4\n' \
  faults "$five" --steps 10:11 --sites r0-r1,qa0-qa7,qv0
tool 'faults that flip given bits' 0 '4:r1:4\n4:r1:7\n4:r1:9223372036854775813\n' \
  faults "$five" --steps 4:5 --sites r1 --flip 0-1,63
tool 'faults of d and of the counters' 0 '2:d:1\n2:pcg:3\n2:pcb:3\n' faults "$five" --steps 2:3 --sites d,pcg,pcb
# 14 steps with 67 sites each; before two of them, a pair is pending.
tool 'the number of faults' 0 '942\n' faults "$five" --count
tool 'no faults, before any pair is pending' 0 '' faults "$five" --sites qa0 --steps 0:2
report 'the note about them' 'talft-faults: note: no such store is pending before these steps' "$(head -n 1 said)"
tool 'the number of faults that flip each bit' 0 '60288\n' faults "$five" --count --flip all

"$top/tools/faults" "$five" --flip all >five.all 2>said
report 'the message before the list' 'talft-faults: 60288 of 60288, before steps 0 to 13 of 14' "$(cat said)"
report 'as many faults as counted' '60288 60288' "$(sort -u five.all | wc -l) $(wc -l <five.all)"
"$top/tools/faults" "$five" >five.list 2>said
report 'each of them strikes' 'faults 942 idle 0 corrupt 0' \
  "$("$top/talft" campaign "$five" --faults five.list --steps 14 | sed -n 's/^\(faults [0-9]*\) .* \(idle.*\)/\1 \2/p')"

"$top/tools/faults" "$five" --flip all --sample 1000 --seed 7 >sample 2>said
report 'the message about a sample' 'talft-faults: 1000 of 60288, before steps 0 to 13 of 14' "$(cat said)"
report 'a sample has no fault twice' 1000 "$(sort -u sample | wc -l)"
grep -Fxf sample five.all | cmp -s - sample
report 'a sample is part of the list, in its order' 0 $?
"$top/tools/faults" "$five" --flip all --sample 1000 --seed 7 2>said | cmp -s - sample
report 'the same arguments write the same sample' 0 $?
"$top/tools/faults" "$five" --flip all --sample 1000 --seed 8 2>said | cmp -s - sample
report 'another seed draws another sample' 1 $?

# The tool finds the run's length: the run has ended after this many steps, and not a step earlier.
for program in fibonacci sieve; do
  "$top/talft" compile "$top/examples/$program.src" >"$program.obj"
  "$top/tools/faults" "$program.obj" --sample 0 2>said
  length=$(sed -n 's/.* of \([0-9]*\)$/\1/p' said)
  "$top/talft" run "$program.obj" --steps "$length" >written 2>errors
  report "the length of the run of $program" 0 $?
  "$top/talft" run "$program.obj" --steps $((length - 1)) >written 2>errors
  report "the run of $program, a step shorter" 9 $?
done
tool 'a run that is cut' 0 '5:r0:1\n' faults "$five" --most 6 --steps 5: --sites r0 --values 1
report 'the message about a run that is cut' 'talft-faults: the run has not ended after 6 steps: raise --most to strike later ones' "$(head -n 1 said)"

misused 'an unknown site' \
  'talft-faults: --sites: unknown site `r64`: the sites are r0 to r63, d, pcg, pcb, qa0 to qa7 and qv0 to qv7' \
  faults "$five" --sites r0,r64
misused 'a range of sites across kinds' 'talft-faults: --sites: invalid site `d-r3`: expected a list such as r0-r3,d' \
  faults "$five" --sites d-r3
misused 'a descending range of sites' \
  'talft-faults: --sites: the range `r9-r2` is empty: write the smaller number first' faults "$five" --sites r9-r2
misused 'an invalid bit' 'talft-faults: --flip: invalid bit in `64`: the bits of a word are 0 to 63' \
  faults "$five" --flip 64
misused 'an invalid word' \
  'talft-faults: --values: invalid number `18446744073709551616`: expected decimal numbers below 2^64, separated by commas' \
  faults "$five" --values 18446744073709551616
misused '--values with --flip' 'talft-faults: --values and --flip cannot be combined' faults "$five" --values 1 --flip 1
misused 'an invalid range of steps' \
  'talft-faults: --steps: invalid range `3`: expected FIRST:LAST or FIRST:LAST:EVERY, such as 4:5 for step 4 alone' \
  faults "$five" --steps 3
refuses 'steps after the end' \
  'talft-faults: --steps: `14:` includes no step of the run, which takes 14 steps; LAST is excluded' \
  faults "$five" --steps 14:
refuses 'a missing object' 'talft-faults: missing.obj: no such file' faults missing.obj
head -c 1 "$five" >cut.obj
refuses 'a truncated object' 'talft-faults: cut.obj: status 7: object 2 1' faults cut.obj
TALFT=$work/none refuses 'a missing program' \
  "talft-faults: $work/none: not found; set \$TALFT to the program \`talft\`, or add its folder to PATH" faults "$five"
report 'the help' 'usage: talft-faults' "$("$top/tools/faults" --help | head -n 1 | cut -c1-19)"
"$top/tools/faults" "$five" >/dev/full 2>said
report 'a full disk' '1 talft-faults: standard output: no space left on the device' "$? $(tail -n 1 said)"
