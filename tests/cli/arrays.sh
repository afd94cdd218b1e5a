# The example programs with arrays: they write what ordinary Python computes, and no fault corrupts their output. Also
# the instructions of each kind of step.

# `ends_early NAME OBJECT FAULT` says whether the run with this fault is detected with a prefix of the lines in `wanted`.
ends_early() {
  local got status
  got=$("$top/talft" run "$2" --fault "$3" 2>"$work/errors")
  status=$?
  case $wanted in
    "$got"*) report "$1" 'a prefix, status 1' "a prefix, status $status" ;;
    *) report "$1" 'a prefix' "$got" ;;
  esac
}

awk 'BEGIN { for (i = 0; i < 1000; i++) printf "%d:r%d:%d\n", i * 13, i % 64, i * i % 1000 }' >array.faults
for program in sieve sort crc32 ring filter life; do
  wanted=$(python3 "$top/tests/examples.py" "$program")
  report "the meaning of $program" "$wanted/0" "$("$top/talft" mean "$top/examples/$program.src" 2>errors)/$?"
  "$top/talft" compile "$top/examples/$program.src" >"$program.obj"
  report "the compilation of $program" 0 $?
  expect "the check of $program" 0 'accepted\n' check "$program.obj"
  report "the run of $program" "$wanted/0" "$("$top/talft" run "$program.obj" 2>errors)/$?"
  "$top/talft" campaign "$program.obj" --faults array.faults --steps 100000 >verdicts
  report "a campaign over $program" 0 $?
  report "the faults of a campaign over $program" 'faults 1000 corrupt 0' "$(sed -n 's/^\(faults [0-9]*\) .* \(corrupt [0-9]*\)$/\1 \2/p' verdicts)"
  ends_early "a fault that is detected in $program" "$program.obj" "$(sed -n '/^faults/d; s/ detected .*//p' verdicts | tail -n 1)"
done

# The code types, and the instructions of each kind of step, worked out by hand from the tables of docs/COMPILER.md. The
# variable is pair 0, the spare pair 1. `a` is the four cells from cell 1 on, `c` is cell 5, at 1048581, and `d` is cell 6.
# Blocks begin at instructions 0, 6 and 44.
printf 'cell b = 0;\ncell a[4] = 1;\ncell c = 5;\ncell d = 0;\nvar i;\nwhile (i) { a[i] = c * a[i]; d = i; i = 7; }\n' >steps.src
"$top/talft" compile steps.src >steps.obj
cat >steps.asm <<END
type 0 0
type 1 0
reg r0 G int 1
reg r32 B int 1
block 0
mov r0 G 0 int
mov r32 B 0 int
mov r1 G 7 code:1
mov r33 B 7 code:1
jmp_G r1
jmp_B r33
block 1
add r2 r0 G 0
add r34 r32 B 0
mov r1 G 45 code:1
mov r33 B 45 code:1
bz_G r2 r1
bz_B r34 r33
add r2 r0 G 0
add r34 r32 B 0
mov r3 G 1048581 ref:int
mov r35 B 1048581 ref:int
ld_G r3 r3
ld_B r35 r35
add r4 r0 G 0
add r36 r32 B 0
idx r4 r4 1 4
idx r36 r36 1 4
ld_G r4 r4
ld_B r36 r36
mul r3 r3 r4
mul r35 r35 r36
idx r1 r2 1 4
idx r33 r34 1 4
st_G r1 r3
st_B r33 r35
add r2 r0 G 0
add r34 r32 B 0
mov r1 G 1048582 ref:int
mov r33 B 1048582 ref:int
st_G r1 r2
st_B r33 r34
mov r2 G 7 int
mov r34 B 7 int
add r0 r2 G 0
add r32 r34 B 0
mov r1 G 7 code:1
mov r33 B 7 code:1
jmp_G r1
jmp_B r33
block 1
halt
entry 0
END
report 'the instructions of each kind of step' "$(cat steps.asm)" \
  "$("$top/talft" dis steps.obj | sed -nE '/^type/,$ { s/^(jmp_B r[0-9]+|bz_B r[0-9]+ r[0-9]+) .*/\1/; p; }')"
