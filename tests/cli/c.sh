# Programs in C, from modules that clang 14 made of examples/c and tests/c/results.c: nothing here needs clang.
# tests/c/answers.py computes what they must write, and tests/c/refusals.py makes the modules that are refused.
#
#     clang --target=wasm32 -Oz -nostdlib -Wl,--no-entry -Wl,--export=run -Wl,--emit-relocs -Wl,-z,stack-size=512

answers() { python3 "$top/tests/c/answers.py" "$1"; }
made() {
  tool "the object of $1.wasm" 0 '' cc "$top/tests/c/$1.wasm" -o "$1.obj" --text "$1.asm"
  report "the message about $1.wasm" "$1.obj: accepted verified" \
    "$(sed -n 's/^talft-cc: \(.*: accepted\): .*; \(verified\): .*/\1 \2/p' said)"
  expect "the check of $1.wasm" 0 'accepted\n' check "$1.obj"
  TALFT=$top/talft python3 -B "$top/tests/c/places.py" "$top/tests/c/$1.wasm" --no-verify -o again.obj 2>said
  report "where the values of $1.wasm are" 'the same object' "$(cmp "$1.obj" again.obj && echo the same object)"
  tool "the text of $1.wasm" 0 '' wasm2asm "$top/tests/c/$1.wasm" --quiet -o again.asm
  report "the same text of $1.wasm" '' "$(diff <(tail -n +2 "$1.asm") <(tail -n +2 again.asm))"
  "$top/tools/faults" "$1.obj" --flip all --sample 300 --seed 5 >list 2>said
  "$top/talft" campaign "$1.obj" --faults list --steps 100000 >verdicts 2>errors
  report "faults of $1.wasm" 'faults 300 corrupt 0' "$(sed -n 's/^\(faults 300\) .* \(corrupt\)/\1 \2/p' verdicts)"
}
made crc32
report 'the lines of crc32.wasm' "$(answers crc32)" "$("$top/talft" run crc32.obj)"
made strings
report 'the lines of strings.wasm' "$(answers strings)" "$("$top/talft" run strings.obj)"
made results
report 'the lines of results.wasm' "$(answers results)" "$("$top/talft" run results.obj | grep -v '^spill')"
# Another polynomial, in both colours: accepted, but not what the module does. 2212294583 is the CRC-32 of "1".
report 'a wrong translation' "accepted; but crc 2212294583 in the module: the translation is wrong; report it" \
  "$(TALFT=$top/talft python3 "$top/tests/c/differs.py" "$top/tests/c/crc32.wasm" 3988292384 3988292385 |
    sed 's/; store 0 .* but/; but/')"
made control
mkdir cycles
cp control.obj cycles
cycles=$(TALFT=$top/talft bash "$top/examples/c/ten_cycles" cycles 2>said)
report 'ten cycles of control.wasm' "$(answers control)" "$(grep -v '^struck' <<<"$cycles")"
report 'the cycle that is struck' 'struck: status 1 after 2 of 3 lines' "$(grep '^struck' <<<"$cycles")"

# A variable with the name of the line that `recover` adds.
sed 's/force/again/g' "$top/tests/c/control.wasm" >named.wasm
refuses 'a variable called `again`' 'talft-cc: named.obj: a variable called `again` would have the name of the line that `talft recover` adds to '\
'those of the run: rename the variable' cc named.wasm -o named.obj

# The initial words of cells.
"$top/tools/set" control.obj goal=3 measured=-1 --list >before 2>said
report 'cells and their words' "$(printf 'goal 3\nmeasured 18446744073709551615')" "$(head -n 2 before)"
"$top/tools/set" control.obj --list >before 2>said
tool 'a word in hex' 0 '' set control.obj goal=0x10 -o sixteen.obj
report 'the cell that was set' "$(sed 's/^goal 0$/goal 16/' before)" "$("$top/tools/set" sixteen.obj --list)"
report 'only a byte of the word differs' '1' "$(cmp -l control.obj sixteen.obj | wc -l)"
printf 'force 7\nforce 8\nagain 1\n' >lines
tool 'the last words in the lines' 0 '' set control.obj --from lines goal=1 -o eight.obj
report 'the cells set from lines' "$(sed 's/^goal 0$/goal 1/; s/^force 0$/force 8/' before)" \
  "$("$top/tools/set" eight.obj --list)"
"$top/talft" compile <(echo 'cell low_high = 0; low_high = 1;') >shared.obj 2>said
refuses 'a part of a shared word' \
  'talft-set: shared.obj: unknown cell `low`; in an object made from C, `low_high` may be one word that several '\
'variables share: set the whole word, or give each variable 8 bytes (long long) in the C text; --list lists the cells' set shared.obj low=1
refuses 'an unknown cell' 'talft-set: control.obj: unknown cell `gaol`; did you mean `goal`?; --list lists the cells' \
  set control.obj gaol=1
misused 'an invalid word' 'talft-set: `goal`: invalid number `1x`: expected decimal digits, or hex after 0x' \
  set control.obj goal=1x
misused 'a word that is too large' 'talft-set: `goal`: `18446744073709551616` does not fit in 64 bits: expected -2^63 to 2^64 - 1' \
  set control.obj goal=18446744073709551616
misused 'a cell that is set twice' 'talft-set: the cell `goal` is given twice' set control.obj goal=1 goal=2
echo x >>lines
refuses 'an invalid line' 'talft-set: lines:4: unexpected `x`: expected NAME VALUE, as `talft run` writes it' \
  set control.obj --from lines
refuses 'a text instead of an object' 'talft-set: control.asm: is an assembly text; `talft asm` turns it into an object' \
  set control.asm goal=1
cp "$top/examples/mixed.obj" .
refuses 'an object that is not accepted' \
  'talft-set: mixed.obj: the object itself is not accepted: check block 0 index 3 premise 2' \
  set mixed.obj out=1
# The address of the first cell is 1048576.
sed 's/^cell out int 0$/&\ncell place ref:int 1048576/' "$top/examples/five.asm" >place.asm
"$top/talft" asm place.asm >place.obj
refuses 'a word that is not of the type of its cell' 'talft-set: place.obj: not accepted with these words: check cell 1' set place.obj place=7
echo 'goal=1' >equals
refuses 'a line with an equals sign' \
  'talft-set: equals:1: unexpected `goal=1`: expected NAME VALUE, as `talft run` writes it; write a space for `=`' set control.obj --from equals
: >nothing
tool 'lines of no run' 0 '' set control.obj --from nothing -o x.obj
report 'the note about them' 'talft-set: note: nothing: has no line of a cell, so no word is taken from it' "$(cat said)"
misused 'a list and an object' 'talft-set: --list and -o exclude each other: --list writes no object' set control.obj --list -o x.obj

# How runs end.
five=$top/examples/five.obj
tool 'a run that is done' 0 'done after 14 steps\n' ending "$five"
tool 'a run that continues' 1 'running after 11 steps\n' ending "$five" --steps 11
tool 'a run that is struck' 1 'detected after 12 steps\n' ending "$five" --fault 4:r1:6
refuses 'a fault that strikes nothing' 'talft-ending: nothing was struck: the run had ended, or the queue has no such entry at that step' \
  ending "$five" --fault 4:qv0:6
misused 'an invalid fault' \
  'talft-ending: --fault: invalid fault `4:r64:6`: expected STEP:SITE:WORD; the site `r64` is not one of '\
'r0 to r63, d, pcg, pcb, qa0 to qa7 and qv0 to qv7' \
  ending "$five" --fault 4:r64:6
cat >trap.asm <<'END'
node 0 memory
node 0 word 5
node 1 var 0
type 0 0
type 1 0
reg r0 G code:1 2
reg r32 B code:1 2
block 0
mov r0 G 5 code:1
mov r32 B 5 code:1
jmp_G r0
jmp_B r32 0 1
# trap 1: function run: offset 0x4b: division by zero
block 1
jmp_G r0
jmp_B r32 0 2
entry 0
END
"$top/talft" asm trap.asm >loop.obj
tool 'a loop on itself' 1 'running after 1000 steps: block 1 jumps to itself, as a trap does\n' \
  ending loop.obj --steps 1000
sed 's/^jmp_G r0$/mov r1 G 7 int\nmov r33 B 7 int\n&/' trap.asm | sed 's/ 5 code:1/ 7 code:1/; s/word 5/word 7/' >longer.asm
"$top/talft" asm longer.asm >longer.obj
"$top/tools/faults" loop.obj --most 1000 --sites r5 --steps 998:1000 >loop.list 2>said
report 'faults of a loop in place' 'talft-faults: the run is still running after 1000 steps, and for ever: it loops in place, as after a trap; '\
'`talft-ending` says where' "$(head -n 1 said)"
"$top/tools/campaign" loop.obj --faults loop.list --steps 1000 >loop.lines 2>said
report 'a campaign of a loop in place' 'talft-campaign: the run without a fault is still running after 1000 steps, and for ever: it loops in place, '\
'as after a trap; `talft-ending` says where
talft-campaign: 2 struck runs were still running after 1,000 steps: the run without a fault never ends' "$(sed '/of 2 faults/d' said)"
tool 'a trap of four instructions' 1 'trapped within 1000 steps: function run: offset 0x4b: division by zero\n' \
  ending longer.obj --text longer.asm --steps 1000
tool 'a trap' 1 'trapped within 1000 steps: function run: offset 0x4b: division by zero\n' \
  ending loop.obj --text trap.asm --steps 1000

# The lines of a run by the C types of its variables, which clang put into the debug information of tests/c/types.wasm.
tool 'the object of types.wasm' 0 '' cc "$top/tests/c/types.wasm" -o types.obj
report 'a note about words that variables share' 1 "$(grep -c '^talft-cc: note: types.obj: the word of inside, second and 5 more ' said)"
"$top/talft" run types.obj >types.lines
tool 'lines by type' 0 'inside = 0, second = 4
first = -1, ok = false, small = 0, middle = 0
first = -1, ok = true, small = 0, middle = 0
first = -1, ok = true, small = -3, middle = 0
first = -1, ok = true, small = -3, middle = -7
wide = 1.5
narrow = 2.5, letter = 0
narrow = 2.5, letter = 120 '"'x'"'
path[1].x = -2, path[1].y = 0
path[1].x = -2, path[1].y = 4000000000
path[1].z = 0.25
whole = -10
table[0][0] = 0, table[0][1] = 0, table[0][2] = 0, table[1][0] = 0, table[1][1] = 0, table[1][2] = 9
place = 0x408, colour = 0
place = 0x408, colour = -1
inside = 5, second = 4
' show types.obj types.lines
echo 'again 7' >>types.lines
report 'lines by type, as JSON' '{"cell": "wide", "word": 4609434218613702656, "values": {"wide": 1.5}}
{"cell": "again", "word": 7, "values": {}}' "$("$top/tools/show" types.obj types.lines --json | grep -e wide -e again)"
report 'a line without a type' '[again 7]' "$("$top/tools/show" types.obj types.lines | tail -n 1)"
refuses 'lines of another object' 'talft-show: lines:1: the object has no cell `force`; give the lines of a run of this object' \
  show types.obj lines
report 'what is given as --about' 'an object; the output of a run; an assembly text; ' "$(
  for other in "$top/examples/five.obj" types.lines "$top/examples/five.asm"; do
    "$top/tools/show" types.obj types.lines --about "$other" 2>&1 | sed -n 's/.*: this is \(.*\): expected a section, as `\[types\] SUM`$/\1/p'
  done | sed 's/$/; /' | tr -d '\n')"
tool 'another initial word' 0 '' set types.obj whole=5 -o types.set.obj
report 'no note about a variable of its own' '' "$(cat said)"
# 2.5 is 1.25 times 2, so its bits are 0x400 and a quarter.
tool 'a number for a variable of type double' 0 '' set types.obj wide=2.5 -o types.wide.obj
report 'its bits' "wide $((0x4004000000000000))" "$("$top/tools/set" types.wide.obj --list | grep wide)"
misused 'such a number for an integer' 'talft-set: `whole`: invalid number `2.5`: expected decimal digits, or hex after 0x' set types.obj whole=2.5
tool 'a word that two variables share' 0 '' set types.obj 'path[2]=5' -o types.path.obj
report 'the note about it' 'talft-set: note: the cell `path[2]` holds `path[1].x` and `path[1].y` of the C program' "$(cat said)"
refuses 'a variable that is half a word' 'talft-set: types.obj: unknown cell `path[1].y`; the cell `path[2]` holds `path[1].x` and `path[1].y` of '\
'the C program: set the whole word; --list lists the cells' set types.obj 'path[1].y=5'
tool 'its lines by type' 0 "$("$top/tools/show" types.obj types.lines)\n" show types.set.obj types.lines
"$top/talft" schedule types.obj >types.later.obj
cp types.about types.later.about
refuses 'types of another object' \
  'talft-show: types.later.about: is about another object than types.later.obj: make it again with `talft-cc`, or use '\
'--fits if the cells are the same, as after `talft schedule`' show types.later.obj types.lines
tool 'types of an object with the same cells' 0 "$("$top/tools/show" types.obj types.lines)\n" show types.later.obj types.lines --fits
refuses 'an object without types' \
  'talft-show: control.about: no such file: `talft-cc` writes it beside an object whose module names types; for a scheduled object, give '\
'that of the first with `--about FILE --fits`' show control.obj lines
cp "$top/tests/c/results.wasm" results
tool 'a module by its first bytes' 0 '' cc results -o again.obj
report 'its object' 'the same object' "$(cmp results.obj again.obj && echo the same object)"
report 'what is said if it names no types' \
  "talft-cc: note: again.obj: the module names no types, so \`talft-show\` has none; clang's -gdwarf-4 names them" "$(grep note: said)"

# Each kind of trap, in objects that trap as their modules do, and in objects that do not.
report 'each kind of trap' "$(while read -r kind; do
  echo "$kind: accepted, named; verified up to the trap; verified; refused; refused"
done <<'END'
an access outside the memory
an access outside the memory, at its end
an access outside the memory, of a fill
a misaligned access
the stack is full
an invalid indirect call
an invalid indirect call, to a function of another type
unreachable
division by zero
division overflow
a number that does not fit
END
)" "$(TALFT=$top/talft python3 -B "$top/tests/c/traps.py" 2>&1)"

# Each refusal of the translator.
mkdir refused
(cd "$top/tests/c" && python3 -B refusals.py "$work/refused")
cd refused || exit 2
said_of() {
  refuses "the module $1" "talft-wasm2asm: $1.wasm: $2" wasm2asm "$1.wasm"
}
said_of empty 'offset 0x0: is not a WebAssembly module of version 1; give the output of wasm-ld; `talft-cc` takes C'
said_of text 'offset 0x0: is not a WebAssembly module of version 1; give the output of wasm-ld; `talft-cc` takes C'
said_of cut 'offset 0x38: a part is longer than the section that it is in; link it again: the file is damaged'
said_of section \
  'offset 0x8: section 77 is unknown, repeated or out of order; link it again: the file is damaged'
said_of types 'function run: offset 0x3f: expects i32 but finds i64; the module is not valid: compile and link it again'
said_of stack \
  'function run: offset 0x3b: takes a value from an empty stack; the module is not valid: compile and link it again'
said_of float \
  'function run: offset 0x45: a floating-point instruction (f32.add); link __addsf3 and the other '\
'functions of compiler-rt, or use integers'
said_of floating 'function run: offset 0x3b: the entry'\''s result is a floating-point number; return an integer'
said_of vector 'function run: offset 0x3b: a vector or atomic instruction; compile without -msimd128 and -matomics'
said_of atomic 'function run: offset 0x3b: a vector or atomic instruction; compile without -msimd128 and -matomics'
said_of reference \
  'function run: offset 0x3b: an instruction on references (ref.null); compile without -mreference-types'
said_of element \
  'function run: offset 0x43: an instruction on references (table.get); compile without -mreference-types'
said_of import 'offset 0x11: imports the function env.reach; define it in C, and link without --allow-undefined'
said_of unlinked 'is not linked; use wasm-ld or `talft-cc`'
said_of full 'needs 1025 cells, 0 of them for spills, more than 1024; use less memory or a smaller -Wl,-z,stack-size=, or --exact'
# Two calls have two words and two return addresses.
said_of deep 'needs 1028 cells, 0 of them for spills and 4 for two nested calls, more than 1024; use less memory or a smaller '\
'-Wl,-z,stack-size=, or --exact'
said_of parameter 'exports no function without parameters; link with -Wl,--export=NAME'
said_of without 'exports no function without parameters; link with -Wl,--export=NAME'
said_of two 'exports 2 functions without parameters (run, step); use --entry NAME'
said_of endless 'does not say where its data ends; link with -Wl,--export=__data_end, or use --memory LO:HI'
said_of alignment 'function run: offset 0x3e: an alignment larger than the access; the module is not valid: compile and link it again'
said_of large \
  'the memory from 0x400 to 0x2408 takes 1025 cells, more than 1024; use less data, a smaller '\
'-Wl,-z,stack-size=, or use --memory LO:HI'
cd ..
report 'the module alignment, with 300 MB' 'an alignment larger than the access' \
  "$(ulimit -v 300000; "$top/tools/wasm2asm" refused/alignment.wasm 2>&1 | grep -o 'an alignment larger than the access')"
for module in places nested functions; do
  report "the module $module, with 1 GB and 8 s" 0 "$(ulimit -v 1000000 -t 8
    "$top/tools/cc" "refused/$module.wasm" -o "$module.obj" 2>said >&2; echo $?)"
done
refuses 'a module without the requested entry' \
  'talft-cc: refused/two.wasm: exports no function `walk`; use --entry with `run` or `step`' \
  cc refused/two.wasm --entry walk -o two.obj
refuses 'an entry in another case' 'talft-wasm2asm: refused/two.wasm: exports no function `Run`; did you mean `run`?' \
  wasm2asm refused/two.wasm --entry Run
refuses 'a module that is too large for the tool for C' 'talft-cc: refused/full.wasm: needs 1025 cells, 0 of them for spills, more than 1024; use '\
'less memory or a smaller -Wl,-z,stack-size=' cc refused/full.wasm -o x.obj
tool 'a module that loops for ever' 0 '' cc refused/looping.wasm -o looping.obj
report 'how far it is run' 'talft-cc: looping.obj: running after 10000 steps: block 1 jumps to itself' "$(tail -n 1 said)"
tool 'a module that traps' 0 '' cc refused/trapped.wasm -o trapped.obj
report 'its trap' 'talft-cc: trapped.obj: trapped within 10000 steps: function run: offset 0x3b: unreachable' "$(tail -n 1 said)"
CLANG=nowhere refuses 'C without clang' 'talft-cc: nowhere: not found; install clang and lld, or set $CLANG to the path of clang' \
  cc "$top/examples/c/pid.c" -o none.obj
report 'nothing is made' '' "$(ls two.obj none.obj 2>errors)"
