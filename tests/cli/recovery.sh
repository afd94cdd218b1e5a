# Recoveries: whatever is struck, they write the whole output, and the number of outputs before a restart.

expect 'a recovery without a fault' 0 'out 5\n' recover "$top/examples/five.obj"
expect 'a recovery of the detected fault' 0 'out 5\nagain 0\n' recover "$top/examples/five.obj" --fault 4:r1:6
expect 'a recovery of a counter' 0 'out 5\nagain 0\n' recover "$top/examples/five.obj" --fault 0:pcg:3
expect 'a recovery of a pending store' 0 'out 5\nagain 0\n' recover "$top/examples/five.obj" --fault 10:qv0:6
expect 'a recovery of a masked fault' 0 'out 5\n' recover "$top/examples/five.obj" --fault 10:r1:6
expect 'a recovery that is cut' 9 '' recover "$top/examples/five.obj" --fault 4:r1:6 --steps 11
expect 'a recovery of a wild load' 0 'out 5\nagain 0\n' recover "$top/examples/reload.obj" --fault 2:r0:7
expect 'a recovery of an index' 0 'a[1] 9\nagain 0\n' recover "$top/examples/indexed.obj" --fault 2:r0:5
expect 'no recovery of an object that is not accepted' 8 'check block 0 index 3 premise 2\n' recover "$top/examples/mixed.obj"

"$top/talft" compile "$top/examples/fibonacci.src" >numbers.obj
wanted=$(python3 -c 'a, b = 0, 1
for _ in range(10):
    print("out", a)
    a, b = b, a + b')
expect 'a recovery of a compiled object' 0 "${wanted//$'\n'/\\n}\nagain 3\n" recover numbers.obj --fault 296:r32:7

# A list of 1,000 faults: the output is the same for each, except for the line about a restart, which appears exactly
# for those that a campaign finds detected.
awk 'BEGIN { for (i = 0; i < 1000; i++) printf "%d:r%d:%d\n", i % 700, i * 7 % 64, i * i % 1000 }' >recovery.faults
whole=0 again=0
while read -r fault; do
  got=$("$top/crates/talft/out/talft" recover numbers.obj --fault "$fault" 2>"$work/errors" </dev/null; printf '/%d' $?)
  case $got in
    "$wanted"$'\n/0') whole=$((whole + 1)) ;;
    "$wanted"$'\nagain '[0-9]*$'\n/0') whole=$((whole + 1)) again=$((again + 1)) ;;
  esac
done <recovery.faults
report 'the complete recoveries of 1,000 faults' 1000 "$whole"
"$top/talft" campaign numbers.obj --faults recovery.faults >verdicts
report 'the recoveries with a restart' "$(sed -n 's/^faults .* detected \([0-9]*\) .*/\1/p' verdicts)" "$again"
