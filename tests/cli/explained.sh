# The explanations on standard error of calls that are refused, detected or cut: what they say, and that standard output
# and status are the same without them.

# `explained NAME STATUS TEXT SAID WORDS..`
explained() {
  local name=$1 wanted said=$4 got
  wanted=$(printf '%b/%d' "$3" "$2")
  shift 4
  got=$("$top/talft" "$@" 2>said </dev/null; printf '/%d' $?)
  report "$name, explained" "$wanted" "$got"
  report "the message about $name" "$(printf '%b' "$said")" "$(cat said)"
  got=$(TALFT_EXPLAIN=0 "$top/talft" "$@" 2>said </dev/null; printf '/%d' $?)
  report "$name, not explained" "$wanted" "$got"
  report "no message about $name" '' "$(cat said)"
}

# `said_of WORDS..` prints how the output with explanations differs from that without, and whether exactly the calls that
# were refused, detected or cut are explained.
said_of() {
  local without with is_said=no is_wanted=no
  TALFT_EXPLAIN=0 "$top/talft" "$@" >without 2>/dev/null </dev/null
  without=$?
  "$top/talft" "$@" >with 2>said </dev/null
  with=$?
  cmp -s without with && [ "$without" -eq "$with" ] || echo "$*: $without, and $with"
  case $without in 1 | 2 | 3 | 6 | 7 | 8 | 9 | 11 | 12 | 13) is_wanted=yes ;; esac
  [ -s said ] && is_said=yes
  [ "$is_said" = "$is_wanted" ] || echo "$*: said $is_said, wanted $is_wanted"
}

cp "$top/examples/five.obj" "$top/examples/mixed.obj" "$top/examples/unknown.src" "$top/examples/five.asm" .
explained 'a name that is not declared' 6 'source 7 20\n' \
  'unknown.src:2:7: error: `total` is not declared\n out = total;\n       ^~~~~\n' mean unknown.src
explained 'an object that mixes colours' 8 'check block 0 index 3 premise 2\n' \
  'mixed.obj: error: block 0, instruction 3: its two operands do not have the same colour (premise 2)\n  add r33 r1 B 0\n  r1: G int\n' \
  check mixed.obj
printf '4:r1:6\n4:r99:6\n' >wrong.faults
explained 'a fault at a register that does not exist' 11 'list 1 2\n' \
  'wrong.faults:2:5: error: invalid fault: expected STEP:SITE:WORD; invalid site `r99`: a site is r0 to r63, d, pcg, pcb, qa0 to qa7 or qv0 to qv7\n 4:r99:6\n     ^\n' \
  campaign five.obj --faults wrong.faults
explained 'a missing file' 3 '' 'missing: error: no such file\n' trial missing
mkdir -p folder
explained 'a folder' 3 '' 'folder: error: is a folder\n' compile folder
explained 'two missing files' 3 '' 'missing: error: no such file\nlacking: error: no such file\n' \
  campaign missing --faults lacking
printf 'cell out = 0;\nout = 7\nout = 8;\n' >lacks.src
explained 'a source in place of an object' 7 'object 2 31\n' \
  'lacks.src: error: this is a source, not an object: `talft compile FILE >OBJECT` makes an object\n' run lacks.src
explained 'an object in place of a source' 6 'source 2 5\n' 'five.obj: error: this is an object, not a source: `talft run FILE` runs it\n' compile five.obj
explained 'an object in place of an assembly text' 12 'asm 1 1\n' \
  'five.obj: error: this is an object, not an assembly text: `talft dis FILE` writes its assembly text\n' asm five.obj
explained 'a semicolon that is missing' 6 'source 4 22\n' \
  'lacks.src:2:8: error: expected `;` after `7`\n out = 7\n        ^\n' compile lacks.src
printf 'mov r64 G 5 int\n' >wrong.asm
printf 'cell out = 0;\nout = 8;\n' >eight.src
explained 'a register that does not exist' 12 'asm 1 1\n' \
  'wrong.asm:1:5: error: invalid `r64`: a register is r0 to r63\n mov r64 G 5 int\n     ^~~\n' asm wrong.asm
commands=$(awk -v of=rnu -f "$top/build/help.awk" "$top/crates/ft_mistakes/src/forms.rt" | tail -n +2)
explained 'a misspelled command' 2 'usage\n' "talft: error: unknown command \`rnu\`; did you mean \`run\`?\n$commands\n" rnu five.obj
explained 'an unknown command' 2 'usage\n' "talft: error: unknown command \`foo\`\n$commands\n" foo five.obj
explained 'a run that is done' 0 'out 5\n' '' run five.obj
explained 'a fault that is masked' 0 'out 5\n' '' run five.obj --fault 4:r1:5
detected='five.obj: detected at step 11: `st_B r32 r33`: r33 is 5, and the oldest store in the queue has the value 6\n'
explained 'a run that is detected' 1 '' "$detected" run five.obj --fault 4:r1:6
explained 'a recovery' 0 'out 5\nagain 0\n' "$detected" recover five.obj --fault 4:r1:6
explained 'a counter that was struck' 1 '' \
  'five.obj: detected at step 4: the green program counter is 9, but the blue one is 3\n' trial five.obj --fault 4:pcg:9
"$top/talft" compile "$top/examples/endless.src" >turning.obj
explained 'a run that goes on' 9 'out 1\nout 2\n' 'turning.obj: still running after 100 steps: raise `--steps`\n' run turning.obj --steps 100
explained 'a run that is cut' 9 '' 'five.obj: still running after 11 steps: raise `--steps`\n' run five.obj --steps 11
printf 'cell out = 0;\nout = 3;\nwhile (1) { }\n' >stays.src
"$top/talft" compile stays.src >stays.obj
explained 'a run that loops in place' 9 'out 3\n' \
  'stays.obj: still running after 500 steps, and for ever: it loops in place, as after a trap; `talft-ending` says where\n' run stays.obj --steps 500
explained 'a loop in place with a strike to come' 9 'out 3\n' \
  'stays.obj: the fault struck nothing: it comes at step 1000, and the run is limited to 500 steps (`--steps`)\nstays.obj: still running after 500 steps: raise `--steps`\n' run stays.obj --steps 500 --fault 1000:pcg:3
explained 'a run that is cut before it loops in place' 9 '' 'stays.obj: still running after 5 steps: raise `--steps`\n' run stays.obj --steps 5
explained 'a fault after the end' 0 'out 5\n' \
  'five.obj: the fault struck nothing: the run had ended after 14 steps, before step 4000\n' run five.obj --fault 4000:r1:6
explained 'a fault at a missing queue entry' 0 'out 5\n' \
  'five.obj: the fault struck nothing: at step 4 the queue has no entry 3\n' run five.obj --fault 4:qv3:6
printf 'cell out = 0;\nwhile (1) { out = 1; }\n' >endless.src
explained 'a meaning that is cut' 9 'out 1\nout 1\n' 'endless.src: still running after 2 turns: raise `--turns`\nendless.src:2:8: note: this test is never 0, so the loop never ends\n while (1) { out = 1; }\n        ^\n' mean endless.src --turns 2

# Help, also from the script that answers before the program is proved.
about_talft=$(. "$top/build/kit.sh"; . "$top/build/about.sh"; about)
report 'what the version names' "talft $(cat "$top/VERSION") (commit , $(rt version))" "$(sed 's/commit [0-9a-f]*+*,/commit ,/' <<<"$about_talft")"
explained 'the version' 2 'usage\n' "$about_talft\n" --version
help_of() {
  awk -v of="$1" -v version="$(cat "$top/VERSION")" -f "$top/build/help.awk" "$top/crates/ft_mistakes/src/forms.rt"
}
for word in help --help -h; do
  explained "help by $word" 2 'usage\n' "$(help_of '')\n" "$word"
done
explained 'no arguments' 2 'usage\n' "$(printf 'talft: error: missing command\n'; help_of '')\n"
while read -r command; do
  explained "help on $command" 2 'usage\n' "$(help_of "$command")\n" help "$command"
done < <(sed -n 's/^    talft \([a-z]*\) .*/\1/p' "$top/docs/COMMANDS.md")
while read -r option; do
  explained "help on $option" 2 'usage\n' "$(help_of "$option")\n" help "$option"
  explained "help on ${option#--}" 2 'usage\n' "$(help_of "$option")\n" help "${option#--}"
done < <(sed -n 's/^| `\(--[a-z]*\) .*/\1/p' "$top/docs/COMMANDS.md")
report 'the help on an option' "talft $(cat "$top/VERSION")|  --turns N                 run at most N loop iterations: \
0 to 1000000000 (default 1000000)||taken by \`mean\`||more: \`talft help COMMAND\`, \`man talft\`" "$(help_of --turns | paste -sd '|')"
report 'the commands of the help' "$(sed -n 's/^    talft /usage: talft /p' "$top/docs/COMMANDS.md")" \
  "$(sed -n 's/^    talft \([a-z]*\) .*/\1/p' "$top/docs/COMMANDS.md" | while read -r command; do help_of "$command" | sed -n 2p; done)"
mkdir -p bare/crates/ft_mistakes/src && cp "$top/talft" "$top/VERSION" "$top/crates.txt" "$top/HANDLES" bare && cp -r "$top/build" bare &&
  cp "$top/crates/ft_mistakes/src/forms.rt" bare/crates/ft_mistakes/src
while read -r wanted words; do
  "$top/talft" $words >with 2>with.said </dev/null
  status=$?
  bare/talft $words >without 2>without.said </dev/null
  report "\`talft $words\` before the proof" "$wanted $wanted " "$status $? $(cmp with without; cmp with.said without.said)"
done <<'END'
2
2 help
2 help run
2 demo --help
3 run --help
3 check -h
END

# Assembly texts whose tables break a rule: the message names the line and the word.
printf '# no such block\nnode 0 memory\ntype 0 0\nblock 0\nhalt\nentry 3\n' >entry.asm
explained 'an entry block that does not exist' 7 'object 9 44\n' \
  'entry.asm:6:7: error: there is no block 3: the text has 1 block, numbered from 0\n entry 3\n       ^\n' asm entry.asm
printf 'cell out int 0\nnode 0 memory\ncell out int 1\ntype 0 0\nblock 0\nhalt\nentry 0\n' >order.asm
explained 'a line out of order' 12 'asm 2 3\n' \
  'order.asm:3:1: error: this line is out of order: first come cells, then nodes, types (each with its `reg` and then `pend` lines), blocks (each with its instructions), and `entry`\n cell out int 1\n ^~~~\n' asm order.asm
printf 'cell out int 0\ncell out int 1\nnode 0 memory\ntype 0 0\nblock 0\nhalt\nentry 0\n' >twice.asm
explained 'a name given twice' 7 'object 8 139\n' \
  'twice.asm:2:6: error: invalid `out`: an earlier cell has this name\n cell out int 1\n      ^~~\n' asm twice.asm
printf 'node 0 memory\ntype 0 0\nblock 4\nhalt\nentry 0\n' >type.asm
explained 'a type that does not exist' 7 'object 6 84\n' \
  'type.asm:3:7: error: invalid `4`: there is no type 4: the text has 1 type, numbered from 0\n block 4\n       ^\n' asm type.asm
# A text that begins with the cell of an array is an assembly text, whatever is wrong with it.
cp "$top/examples/index.asm" .
explained 'an array in an assembly text, run' 7 'object 1 0\n' \
  'index.asm: error: this is an assembly text, not an object: `talft asm FILE >OBJECT` makes an object\n' run index.asm
sed 's/^ld_G r1 r0$/ld_G r1 64/' "$top/examples/index.asm" >slip.asm
explained 'a slip behind an array' 12 'asm 1 16\n' \
  'slip.asm:16:9: error: invalid `64`: a register is r0 to r63\n ld_G r1 64\n         ^~\n' asm slip.asm
printf 'cell a[0] int\n' >short.asm
explained 'a short line of an array' 12 'asm 1 1\n' \
  'short.asm:1:14: error: missing INIT, a number: `cell` is followed by NAME BASIC INIT\n cell a[0] int\n              ^\n' asm short.asm

# Links: the message names the module, its line or instruction, and what may be meant.
"$top/talft" asm "$top/examples/count.asm" >said-count.obj 2>errors
"$top/talft" asm "$top/examples/show.asm" >said-show.obj 2>errors
printf 'module said-count.obj\nexport next 9\n' >block.map
explained 'a block that a module does not have' 13 'link 7 2\n' \
  'block.map:2:1: error: the module has no such block\n export next 9\n ^~~~~~~~~~~~~\n  blocks of said-count.obj: 0 to 3\n' link block.map
printf 'module said-count.obj\nimport show 1\nmodule said-show.obj\nexport show 0\n' >stub.map
explained 'an import of a block that is not a stub' 13 'link 8 2\n' \
  'stub.map:2:1: error: the imported block is not a stub: a stub is a single `halt`\n import show 1\n ^~~~~~~~~~~~~\n  stubs of said-count.obj: 2 3\n' link stub.map
printf 'module said-count.obj\nexport next 1\nimport shwo 3\nmodule said-show.obj\nexport show 0\n' >name.map
explained 'a name that nothing exports' 13 'link 9 3\n' \
  'name.map:3:1: error: no line exports this name\n import shwo 3\n ^~~~~~~~~~~~~\n  exported names: `next` `show`\n' link name.map
printf 'module said-count.obj\nimport show 2\nmodule said-show.obj\nexport show 0\n' >unlike.map
explained 'blocks of unlike types' 13 'link 10 2\n' \
  'unlike.map:2:1: error: the imported block and the exported one do not have the same code type\n import show 2\n ^~~~~~~~~~~~~\n  line 4 exports it\n  integer variables: 0 in the import, 1 in the export\n' link unlike.map
printf 'module said-count.obj\nmodule unlike.obj\n' >cells.map
"$top/talft" dis five.obj | sed 's/^cell out int 0/cell other int 0/' >unlike.asm
"$top/talft" asm unlike.asm >unlike.obj 2>errors
explained 'a module with other cells' 13 'link 3 1\n' \
  'unlike.obj: error: its cells differ from those of the first module\n  cell 0, `other`, has a different name, type or initial word: declare the same cells, in the same order and with the same initial words, in each module\n' link cells.map
printf 'module said-count.obj\nexport a 1\nimport b 1\n' >named.map
explained 'a block named twice' 13 'link 2 3\n' \
  'named.map:3:1: error: this block is already exported or imported\n import b 1\n ^~~~~~~~~~\n  line 2 names this block\n' link named.map
printf 'module said-count.obj\nmodule mixed.obj\n' >mixed.map
explained 'a module that is not accepted' 8 'check block 0 index 3 premise 2\n' \
  'mixed.obj: error: block 0, instruction 3: its two operands do not have the same colour (premise 2)\n  add r33 r1 B 0\n  r1: G int\n' \
  link mixed.map
printf 'module said-count.obj\nmodule five.asm\n' >text.map
explained 'a text as a module' 7 'object 1 0\n' \
  'five.asm: error: this is an assembly text, not an object: `talft asm FILE >OBJECT` makes an object\n' link text.map
printf 'module said-count.obj\nmodule nosuch.obj\n' >missing.map
explained 'a module that is missing' 3 '' 'missing.map:2:8: error: `nosuch.obj`: no such file\n module nosuch.obj\n        ^~~~~~~~~~\n' link missing.map

# Quotations are short, and have no control characters.
long=$(head -c 200000 /dev/zero | tr '\0' 9)
for way in list map script assembly source word option name; do
  case $way in
    list) printf '4:r1:%s\n' "$long" >long.text; set -- campaign five.obj --faults long.text ;;
    map) printf 'module %s\n' "${long:0:60000}" >long.text; set -- link long.text ;;
    script) printf 'zap %s\n' "$long" >long.text; set -- debug five.obj ;;
    assembly) printf 'mov r1 G %s int\n' "$long" >long.text; set -- asm long.text ;;
    source) printf 'cell %s = 0;\n' "$long" >long.text; set -- compile long.text ;;
    word) set -- "${long:0:100000}" ;;
    option) set -- run five.obj --fault "4:r1:${long:0:100000}" ;;
    name) set -- run "${long:0:100000}" ;;
  esac
  "$top/talft" "$@" >with 2>said <long.text
  report "a long $way is cut" 'yes' "$([ "$(wc -c <said)" -lt 2200 ] && grep -q '\.\.' said && echo yes || wc -c <said)"
done
"$top/talft" $'r\e[2Jun' >with 2>said
report 'no control character is quoted' 'talft: error: unknown command `r?[2Jun`' "$(head -n 1 said)"

# Numbers, and the line ends of other systems.
printf 'mov r1 G 18446744073709551616 int\n' >large.asm
explained 'a number that is too large' 12 'asm 1 1\n' \
  'large.asm:1:10: error: invalid `18446744073709551616`: the largest number is 18446744073709551615 (2^64 - 1)\n mov r1 G 18446744073709551616 int\n          ^~~~~~~~~~~~~~~~~~~~\n' \
  asm large.asm
printf '4:r1:06\n' >zeros.faults
explained 'a leading zero' 11 'list 1 1\n' \
  'zeros.faults:1:7: error: invalid fault: expected STEP:SITE:WORD; invalid word `06`: numbers have no leading zeros\n 4:r1:06\n       ^\n' \
  campaign five.obj --faults zeros.faults
printf '4:r1:6 \n' >blank.faults
explained 'a trailing blank' 11 'list 1 1\n' 'blank.faults:1:7: error: the line ends with whitespace\n 4:r1:6 \n       ^\n' \
  campaign five.obj --faults blank.faults
printf '4:r1:6\r\n' >return.faults
explained 'a list with carriage returns' 11 'list 1 1\n' \
  'return.faults:1:7: error: the line ends with a carriage return: save the file with Unix line endings\n 4:r1:6?\n       ^\n' \
  campaign five.obj --faults return.faults
printf '\xef\xbb\xbf4:r1:6\n' >mark.faults
explained 'a list with a byte order mark' 11 'list 1 1\n' \
  'mark.faults:1:1: error: the file begins with a byte order mark: save it without one\n ?4:r1:6\n ^\n' \
  campaign five.obj --faults mark.faults
printf '4:r1:6\n\n' >empty.faults
explained 'an empty line in a list' 11 'list 1 2\n' 'empty.faults:2:1: error: empty lines are not allowed in this file\n \n ^\n' \
  campaign five.obj --faults empty.faults
printf '# faults\n4:r1:6\n' >comment.faults
explained 'a comment in a list' 11 'list 1 1\n' 'comment.faults:1:1: error: comments are not allowed in this file\n # faults\n ^\n' \
  campaign five.obj --faults comment.faults
printf 'module said-count.obj\r\n' >return.map
explained 'a map with carriage returns' 13 'link 1 1\n' \
  'return.map:1:22: error: the line ends with a carriage return: save the file with Unix line endings\n module said-count.obj?\n                      ^\n' \
  link return.map

# Files of the wrong kind.
explained 'an assembly text in place of an object' 7 'object 1 0\n' \
  'five.asm: error: this is an assembly text, not an object: `talft asm FILE >OBJECT` makes an object\n' run five.asm
explained 'an assembly text in place of a source' 6 'source 2 465\n' \
  'five.asm: error: this is an assembly text, not a source: `talft asm FILE >OBJECT` makes an object\n' compile five.asm
explained 'a source in place of an assembly text' 12 'asm 1 1\n' \
  'eight.src: error: this is a source, not an assembly text: `talft compile FILE >OBJECT` makes an object\n' asm eight.src
printf '4:r1:6\n' >said.list
explained 'a fault list in place of an object' 7 'object 2 7\n' \
  'said.list: error: this is a fault list, not an object: pass it with `--faults`\n' check said.list
explained 'an object in place of a fault list' 11 'list 1 1\n' \
  'five.obj: error: this is an object, not a fault list: a fault list has one STEP:SITE:WORD on each line; `talft-faults` writes one\n' campaign five.obj --faults five.obj
explained 'an object in place of a map' 13 'link 1 1\n' 'five.obj: error: this is an object, not a link map: a link map is a text with a line `module FILE` for each object\n' link five.obj
: >nothing
explained 'an empty file in place of an object' 7 'object 2 0\n' 'nothing: error: the file is empty\n' run nothing
explained 'a device in place of an object' 7 'object 2 0\n' '/dev/null: error: the file is empty\n' run /dev/null
explained 'a name that is empty' 3 '' 'talft: error: the name of the file is empty\n' run ''

# --help after a command, and options in place of an operand.
while read -r command; do
  for word in --help -h; do
    "$top/talft" "$command" "$word" >with 2>said </dev/null
    report "help on $command by $word" "$(help_of "$command")" "$(cat said)"
  done
done < <(sed -n 's/^    talft \([a-z]*\) .*/\1/p' "$top/docs/COMMANDS.md")
explained 'help after an operand' 2 'usage\n' "$(help_of run)\n" run five.obj --help
explained 'an option in place of the operand' 3 '' \
  'talft: error: missing OBJECT: it comes before options such as `--fault`\nusage: talft run OBJECT [--steps N] [--fault STEP:SITE:WORD] [--wild LIST]\n' \
  run --fault
explained 'an option that is misspelled' 2 'usage\n' \
  'talft: error: unknown option `--step` for `run`; did you mean `--steps`?\nusage: talft run OBJECT [--steps N] [--fault STEP:SITE:WORD] [--wild LIST]\n' \
  run five.obj --step 5

# Habits from other languages. Each is also a row in ft_explain_tests.
printf 'cell a[4];\n' >array.src
explained 'a declaration without a value' 6 'source 4 9\n' \
  'array.src:1:10: error: unexpected `;`: a cell needs an initial value, as in `cell a = 0;` or `cell a[4] = 0;`\n cell a[4];\n          ^\n' \
  compile array.src
printf 'cell out = 0;\nwhile (out < 3) {\n  out = out + 1;\n' >brace.src
explained 'a brace that is not closed' 6 'source 4 49\n' \
  'brace.src:3:17: error: expected `}` after `;`\n   out = out + 1;\n                 ^\nbrace.src:2:17: note: to match this `{`\n while (out < 3) {\n                 ^\n' \
  compile brace.src
printf 'main:\n' >label.asm
explained 'a label' 12 'asm 1 1\n' \
  'label.asm:1:1: error: unexpected `main:`: there are no labels: `block TYPE` begins a block, and blocks are numbered from 0\n main:\n ^~~~~\n' \
  asm label.asm
printf 'cell a[4] = 0;\na[5] = 2;\n' >beyond.src
explained 'a constant index beyond its array' 0 'a[1] 2\n' \
  'beyond.src:2:3: note: `a` has 4 cells: the index 5 selects cell 1\n a[5] = 2;\n   ^\n' mean beyond.src

# More habits, with the first line of the explanation: in sources, in an instruction of a text with the cell `out`, and
# in arguments.
habit_in() {
  "$top/talft" "$@" >with 2>said </dev/null
  head -n 1 said
}
while IFS='|' read -r text message; do
  printf '%b\n' "$text" >habit.src
  report "the message about \`$text\`" "habit.src:$message" "$(habit_in compile habit.src)"
done <<'END'
cell out = 0;\nout := 5;|2:5: error: unexpected character `:`: write `=` to assign
cell out = 0;\nout = 2 ** 3;|2:10: error: unexpected `*`: there is no power operator: multiply
cell a[3] = 0;\nvar i;\na[i++] = 3;|3:5: error: unexpected `+`: write it as a separate statement, as in `a = a + 1;`
cell a[3] = {1, 2};|1:15: error: unexpected character `,`: all cells of an array have the same initial value: write `= 0`, and assign the others, as in `a[1] = 3;`
cell a = 0, b = 0;|1:11: error: unexpected character `,`: there are no lists: each name has its own declaration, as in `var a; var b;`
cell out = 0;\nout = out + 1);|2:14: error: unexpected `)`: no matching `(`
cell out = 0;\nout = 5;;|2:9: error: unexpected `;`: there are no empty statements
cell out = 0;\n{ out = 5; }|2:1: error: unexpected `{`: a block follows `while (..)`, `if (..)` or `else`
cell out = 1 + 2;|1:14: error: unexpected `+`: a cell's initial value is a number: compute it in a statement
cell a[n] = 0;|1:8: error: unexpected `n`: expected a number
cell out = -1;|1:12: error: unexpected `-`: numbers have no sign: -1 is 18446744073709551615 (2^64 - 1)
cell out = 0;\nif (out <= 3) { out = 1; }|2:10: error: unexpected `=`: write `(b < a) == 0` for `a <= b`
cell out = 0;\ncell b = 0\nb = 1;|2:11: error: expected `;` after `0`
cell out = 0;\nout = f(3);|2:8: error: unexpected `(`: there are no calls or macros
cell out = 0;\nf(3);|2:2: error: unexpected `(`: there are no calls or macros, and the only loop is `while`
cell out = 0;\nprintln!("{}", 3);|2:8: error: unexpected character `!`: there are no calls or macros: an assignment to a cell is the output
cell out = 0;\nassert!(out);|2:7: error: unexpected character `!`: there are no calls or macros
cell out = 0;\nif (out !=(3)) { out = 1; }|2:9: error: unexpected character `!`: write `(a == b) == 0` for `a != b`
cell out\xc2\xa0= 0;|1:9: error: unexpected U+00A0, a no-break space, which looks like a space: write a space
cell out = 0;\nout =\xe3\x80\x805;|2:6: error: unexpected U+3000, an ideographic space, which looks like a space: write a space
cell out\xe2\x80\x8b = 0;|1:9: error: unexpected U+200B, a zero width space, which is invisible: remove it
END
while IFS='|' read -r line message; do
  printf 'cell out int 0\nnode 0 memory\ntype 0 0\nblock 0\n%b\nhalt\nentry 0\n' "$line" >habit.asm
  report "the message about \`$line\`" "habit.asm:5:$message" "$(habit_in asm habit.asm)"
done <<'END'
mov r1 G out ref:int|10: error: invalid `out`: numbers consist of decimal digits, as in `42`; the address of this cell is 1048576
st_G out r1|6: error: invalid `out`: a register is r0 to r63; put the address of this cell, 1048576, into a register with `mov`
mov r1 G r2 int|10: error: invalid `r2`: numbers consist of decimal digits, as in `42`; to copy a register, add 0 to it, as in `add r1 r2 G 0`
mov r1 G #5 int|10: error: invalid `#5`: numbers are written without `#`
add r1 r2 5|11: error: invalid `5`: a register is r0 to r63, and a number comes after its colour, as in `G 5`
li r1 5|1: error: unknown instruction `li`: write `mov`, as in `mov r1 G 5 int`
la r1 out|1: error: unknown instruction `la`: write `mov` with the address of the cell, as in `mov r1 G 1048576 ref:int`
ret|1: error: unknown instruction `ret`: there are no calls: `jmp_G` and `jmp_B` jump to an address in a register
CALL main|1: error: unknown instruction `CALL`: there are no calls: `jmp_G` and `jmp_B` jump to an address in a register
jal main|1: error: unknown instruction `jal`: there are no calls: `jmp_G` and `jmp_B` jump to an address in a register
nop|1: error: unknown instruction `nop`: delete the line
hlt|1: error: unknown instruction `hlt`: write `halt`
push r1|1: error: unknown instruction `push`: there is no stack: `st_G` and `st_B` store, and `ld_G` and `ld_B` load
cmp r1 r2|1: error: unknown instruction `cmp`: there are no flags: `eq` and `ltu` write 1 or 0 into a register
beq r1 r2 4|1: error: unknown instruction `beq`: `eq` and `ltu` compare, and `bz_G` and `bz_B` branch if a register is 0
lw r1 0(r2)|1: error: unknown instruction `lw`: write `ld_G` for green or `ld_B` for blue
sw r1 0(r2)|1: error: unknown instruction `sw`: write `st_G` for green or `st_B` for blue
rem r1 r2 r3|1: error: unknown instruction `rem`: there is no division; `idx` takes a number modulo the length of an array
not r1|1: error: unknown instruction `not`: write `xor` with 18446744073709551615 (2^64 - 1), as in `xor r1 r1 G 18446744073709551615`
adc r1 r2 r3|1: error: unknown instruction `adc`; did you mean `add`?
rep|1: error: unknown instruction `rep`: `man talft-assembly` lists the instructions
HALT|1: error: unknown instruction `HALT`; did you mean `halt`?
st r1 r2|1: error: unknown instruction `st`: write `st_G` for green or `st_B` for blue
idx r1 r2 0|12: error: missing LENGTH: `idx` is followed by R R FIRST LENGTH
jmp_B r1|9: error: missing MEMORY, the number of a node: `jmp_B` is followed by R MEMORY ROW ..
bz_B r1 r2 0 r3|14: error: invalid `r3`: numbers consist of decimal digits, as in `42`
node 0 mem|8: error: invalid `mem`: a node is `word`, `var`, `sel`, `memory`, `upd`, `rem` or an operation; did you mean `memory`?
node 0 foo 1 2|8: error: invalid `foo`: a node is `word`, `var`, `sel`, `memory`, `upd`, `rem` or an operation
node 0 var 256|12: error: invalid `256`: the largest number here is 255
node 0 rem 1|13: error: missing LENGTH: `node` is followed by SCOPE, a kind and its operands, as in `node 0 word 5`
node 0 xor 1 2 3|16: error: unexpected `3`: nothing may follow on this line
mov\xc2\xa0r1 G 5 int|4: error: unexpected U+00A0, a no-break space, which looks like a space: write a space
mov r1 G 5 int\xe2\x80\x89|15: error: unexpected U+2009, a thin space, which looks like a space: write a space
mov r1 G 5 int \xe9|16: error: this line is not UTF-8: write it in ASCII
END
printf 'int main() { return 0; }\n' >program.c
printf '#include <stdio.h>\nint main() { return 0; }\n' >program
printf '4:r1:6 detected 11\n' >verdicts.faults
printf '4: r1:6\n' >blanks.faults
mkdir -p maps && printf 'module five.obj\nmodule nosuch.obj\n' >maps/two.map
printf 'module five.obj/x\n' >maps/front.map
printf 'module\tfive.obj\n' >tab.map
printf 'module five.obj\nexport  next 1\n' >wide.map
printf '4:r1:6\tdetected 11\n' >tab.faults
printf '4:\tr1:6\n' >site.faults
printf '4\tr1\t6\n' >columns.faults
printf '4:r1:6 10:r1:6\n' >pair.faults
printf '4:r1:6,10:r1:6\n' >comma.faults
printf '4:r1:6\n4:\xe91:6\n' >latin.faults
printf 'module five.obj\nexport n\xe9xt 1\n' >latin.map
printf 'module five.obj\nimport then -> 2\nexport n\xe9xt 1\n' >arrow.map
printf 'module five.obj\nexport next 1 first\n' >extra.map
printf 'module "five.obj"\n' >quoted.map
printf '4:r1:6\xc2\xa0\n' >space.faults
head -c 100 five.obj >cut.obj
head -c 20 five.obj >head.obj
while IFS='|' read -r words message; do
  # shellcheck disable=SC2086
  report "the message about \`$words\`" "$message" "$(habit_in $words)"
done <<'END'
compile five.src -o five.obj|talft: error: unknown option `-o` for `compile`: it writes to standard output: add `>FILE`
check five.obj mixed.obj|talft: error: unexpected argument `mixed.obj` after OBJECT: give only one OBJECT
link five.obj mixed.obj|talft: error: unexpected argument `mixed.obj` after MAP: `link` takes one MAP, a text with a line `module FILE` for each object, and writes to standard output
campaign five.obj five.faults|talft: error: unexpected argument `five.faults` after OBJECT: the fault list comes after `--faults`
debug five.obj step 4|talft: error: unexpected argument `step` after OBJECT: commands come from standard input: put `<` before the script's name
run -- five.obj|talft: error: unexpected `--`: OBJECT comes right after the command
version|talft: error: unknown command `version`; did you mean `--version`?
compile program.c|program.c: error: this is a C program, not a source: `talft-cc FILE -o OBJECT` makes an object
run program|program: error: this is a C program, not an object: `talft-cc FILE -o OBJECT` makes an object
campaign five.obj --faults verdicts.faults|verdicts.faults:1:7: error: this line has a verdict after the fault; a fault list has only STEP:SITE:WORD
campaign five.obj --faults blanks.faults|blanks.faults:1:3: error: invalid fault: expected STEP:SITE:WORD; invalid site ` r1`: it contains whitespace
link maps/two.map|maps/two.map:2:8: error: `nosuch.obj`: no such file; names are relative to the current folder, not to the map's
run five.obj –fault 4:r1:6|talft: error: `–fault` begins with a typographic dash: write `--fault`
run five.obj —steps 5|talft: error: `—steps` begins with a typographic dash: write `--steps`
run five.obj −steps=5|talft: error: `−steps=5` begins with a typographic dash: write `--steps`
run five.obj --steps 5 ––fault 4:r1:6|talft: error: `––fault` begins with a typographic dash: write `--fault`
run –fault 4:r1:6|talft: error: `–fault` begins with a typographic dash: write `--fault`
run –fault|talft: error: `–fault` begins with a typographic dash: write `--fault`
check –help|talft: error: `–help` begins with a typographic dash: write `--help`
check five.obj –h|talft: error: `–h` begins with a typographic dash: write `-h`
—version|talft: error: `—version` begins with a typographic dash: write `--version`
check –five.obj|–five.obj: error: no such file
run five.obj --steps –5|talft: error: invalid number `–5` for `--steps`: expected 0 to 1000000000; numbers have no sign
check five.obj/x|five.obj/x: error: `five.obj` is not a folder
check five.obj/|five.obj/: error: `five.obj` is not a folder
check five.obj/x/y|five.obj/x/y: error: `five.obj` is not a folder
campaign five.obj --faults five.obj/x|five.obj/x: error: `five.obj` is not a folder
link maps/front.map|maps/front.map:1:8: error: `five.obj/x`: `five.obj` is not a folder; names are relative to the current folder, not to the map's
check nofolder/x/five.obj|nofolder/x/five.obj: error: there is no folder `nofolder`
check maps/nofolder/five.obj|maps/nofolder/five.obj: error: there is no folder `maps/nofolder`
check maps/five.obj|maps/five.obj: error: no such file
check maps/|maps/: error: is a folder
link tab.map|tab.map:1:7: error: words are separated by one space, not by a tab
link wide.map|wide.map:2:8: error: words are separated by one space
campaign five.obj --faults tab.faults|tab.faults:1:7: error: this line has a verdict after the fault; a fault list has only STEP:SITE:WORD
campaign five.obj --faults site.faults|site.faults:1:3: error: invalid fault: expected STEP:SITE:WORD; invalid site `	r1`: it contains a tab
campaign five.obj --faults pair.faults|pair.faults:1:8: error: only one fault per line
campaign five.obj --faults comma.faults|comma.faults:1:8: error: only one fault per line
campaign five.obj --faults latin.faults|latin.faults:2:3: error: this line is not UTF-8: write it in ASCII
campaign five.obj --faults space.faults|space.faults:1:7: error: unexpected U+00A0, a no-break space, which looks like a space: write a space
campaign five.obj --faults 4:r1:6|4:r1:6: error: this is a fault; `--faults` takes a FILE with one fault per line
campaign five.obj --faults -|-: error: no such file; for standard input write `/dev/stdin`
campaign five.obj --faults --steps 5|talft: error: missing FILE after `--faults`
trial five.obj --fault --steps 5|talft: error: missing STEP:SITE:WORD after `--fault`
run five.obj --steps --fault 4:r1:6|talft: error: missing N after `--steps`
check -|-: error: no such file; for standard input write `/dev/stdin`
check cut.obj|cut.obj: error: the object has 100 bytes, but its header requires 219: it is cut off; copy it again
check head.obj|head.obj: error: the object has 20 bytes, fewer than the 48 of its header: it is cut off; copy it again
link latin.map|latin.map:2:9: error: this line is not UTF-8: write it in ASCII
link arrow.map|arrow.map:2:13: error: unexpected `->`: expected `import NAME B`
link extra.map|extra.map:2:15: error: unexpected `first`: expected `export NAME B`
link quoted.map|quoted.map:1:8: error: `"five.obj"`: no such file; names are written without quotes
campaign five.obj --faults columns.faults|columns.faults:1:2: error: invalid fault: expected STEP:SITE:WORD; invalid step `4	r1	6`: it contains a tab
END
"$top/talft" trial five.obj '--fault 4:r1:6' >with 2>said
report 'the message about an option and its value in one word' \
  'talft: error: `--fault 4:r1:6` is one word: write two words' "$(head -n 1 said)"

# Standard output that is one of the call's files: a refused call writes its line there, other calls their output.
cp five.asm own.asm && cp five.obj own.obj && cp five.obj module.obj
printf 'cell a = 0;\na = 1;\n' | tee own.src >read.src
printf '4:r1:6\n' >own.faults
printf 'module five.obj\n' >own.map
printf 'module module.obj\n' >module.map
while IFS='|' read -r file called words; do
  # shellcheck disable=SC2086
  "$top/talft" $words >"$file" 2>said </dev/null
  report "the message about \`$words >$file\`" \
    "$file: $called: standard output is this file, which the shell emptied: give the output another name" "$(cat said)"
done <<'END'
own.src|note|compile own.src
read.src|note|mean read.src
own.faults|note|campaign five.obj --faults own.faults
own.asm|error|asm own.asm
own.obj|error|run own.obj
own.map|error|link own.map
module.obj|error|link module.map
END
cp mixed.obj own.obj
"$top/talft" check own.obj >>own.obj 2>said
report 'the message when standard output appends to a file of the call' 'own.obj: error: the object is not accepted' "$(cat said)"

# An object with bytes of value 10, copied as a text: each of these bytes gets a carriage return before it.
printf 'cell a = 10;\na = 10;\n' >ten.src
"$top/talft" compile ten.src >ten.obj 2>errors
python3 -c 'import sys; sys.stdout.buffer.write(open("ten.obj", "rb").read().replace(b"\n", b"\r\n"))' >text.obj
report 'the message about an object that was copied as a text' \
  "$(printf '%s\n' "text.obj: error: the object has $(wc -c <text.obj) bytes, but its header requires $(wc -c <ten.obj)" \
    '  each line feed has a carriage return before it, as after a copy in text mode: copy the object in binary mode')" \
  "$("$top/talft" check text.obj 2>&1 >with)"

# A debugger script in a file is read again; one from a pipe is not.
printf 'step 1\nstpe 2\n\nreg r64\n' >wrong.script
said_of_script='standard input:2:1: error: unknown command `stpe`; did you mean `step`?
 stpe 2
 ^
standard input:3:1: error: empty lines are not allowed in this file
 
 ^
standard input:4:1: error: invalid command: expected `reg R`
 reg r64
 ^'
"$top/talft" debug five.obj >with 2>said <wrong.script
report 'the message about a script' "0 $said_of_script" "$? $(cat said)"
report 'what it writes' "$(printf 'at 1 running\nbad command\nbad command\nbad command')" "$(cat with)"
cat wrong.script | "$top/talft" debug five.obj >with 2>said
report 'the message about a script from a pipe' '0 standard input: error: a line is not a command: the commands are' \
  "$? $(cut -d '`' -f 1 said | sed 's/ $//')"

# Commands of other debuggers, and words separated by a tab or two spaces.
while IFS='|' read -r line message; do
  printf '%b\n' "$line" >habit.script
  "$top/talft" debug five.obj >with 2>said <habit.script
  report "the message about the command \`$line\`" "standard input:1:$message/bad command" "$(head -n 1 said)/$(cat with)"
done <<'END'
print r1|1: error: unknown command `print`: `reg R` and `cell NAME` show a word; `talft-debugger` has `print`
p r1|1: error: unknown command `p`: `reg R` and `cell NAME` show a word; `talft-debugger` has `print`
quit|1: error: unknown command `quit`: a session ends when its input ends
q|1: error: unknown command `q`: a session ends when its input ends
info registers|1: error: unknown command `info`: `where`, `reg R`, `cell NAME` and `queue` show the state; `talft-debugger` has `info`
list|1: error: unknown command `list`: `talft dis OBJECT` writes the instructions; `talft-debugger` has `disassemble`
x/4 out|1: error: unknown command `x/4`: `cell NAME` shows the word of a cell; `talft-debugger` has `x`
backtrace|1: error: unknown command `backtrace`: `where` shows the place: there are no calls
continue|1: error: unknown command `continue`: `go N` takes N steps, up to a breakpoint
next|1: error: unknown command `next`: `step N` takes N steps, and an instruction takes two
help|1: error: unknown command `help`: a script has `step`, `go`, `back`, `zap`, `reg`, `queue`, `cell`, `where` and `break`
undo|1: error: unknown command `undo`: `talft-debugger` has this command
regs|1: error: unknown command `regs`; did you mean `reg`?
step\t1|5: error: words are separated by one space, not by a tab
zap  r1 6|5: error: words are separated by one space
zap r99 6|5: error: invalid command: expected `zap SITE WORD`; invalid site `r99`: a site is r0 to r63, d, pcg, pcb, qa0 to qa7 or qv0 to qv7
zap r1 0x6|8: error: invalid command: expected `zap SITE WORD`; invalid word `0x6`: numbers are decimal
zap r1|1: error: invalid command: expected `zap SITE WORD`; the word is missing
zap r\xe9 6|6: error: this line is not UTF-8: write it in ASCII
END

# A kit that is missing, or of another version.
mkdir -p bare/docs bare/.ci another-kit && cp "$top/docs/PROMISES.md" bare/docs
report 'the version before the proof, and without a repository' "usage/2/talft $(cat "$top/VERSION") (commit unknown, $(rt version))" \
  "$(bare/talft --version 2>without.said)/$?/$(cat without.said)"
cp "$top/.ci/run" bare/.ci
printf '#!/bin/sh\necho another kit\n' >another-kit/rt && chmod +x another-kit/rt
kit=$(sed -n 's/.*`rt version`: \([^)]*\)).*/\1/p' "$top/docs/PROMISES.md")
if PATH=/usr/bin:/bin command -v rt >rt.path; then
  skip 'the message without the kit' 'it is in /usr/bin'
else
  for call in 'talft trial five.obj' build/prove.sh .ci/run; do
    PATH=/usr/bin:/bin bash bare/$call >with 2>said
    report "\`$call\` without the kit" \
      "talft: error: the Rattle kit is missing: \`rt\` is not on PATH. Add the kit's folder bin/ to PATH; the proofs need $kit" "$(cat said)"
    TMPDIR=$PWD PATH=$PWD/another-kit:/usr/bin:/bin bash bare/$call >with 2>said
    report "\`$call\` with another kit" \
      "talft: note: this kit is another kit, but the proofs were made with $kit: they may fail" "$(grep 'note: this kit' said)"
  done
fi

for object in "$top"/tests/objects/*.obj "$top"/examples/*.obj; do
  report "the message about $(basename "$object")" '' "$(said_of check "$object"; said_of trial "$object" --steps 1000; said_of dis "$object")"
done
for source in "$top"/examples/*.src "$top"/tests/sources/*.src; do
  report "the message about $(basename "$source")" '' "$(said_of mean "$source" --turns 100; said_of compile "$source"; said_of asm "$source")"
done
report 'the messages about truncated objects' '' "$(
  for length in 0 7 8 47 48 63 100 218; do
    head -c "$length" five.obj >short
    said_of check short
    said_of asm short
  done)"
report 'the messages about objects with a flipped bit' '' "$(
  for place in $(seq 0 218); do
    python3 -c 'import sys; b = bytearray(open("five.obj", "rb").read()); b[int(sys.argv[1])] ^= 2; open("turned", "wb").write(b)' "$place"
    said_of check turned
  done)"

# A pipe, which can be read only once, is not read again.
mkfifo once
head -c 100 five.obj >once &
got=$(timeout 60 "$top/talft" check once 2>said; printf '/%d' $?)
report 'a refused pipe' "$(printf 'object 2 100\n/7')" "$got"
report 'the message about a refused pipe' \
  "once: error: the object's size does not match its header: the smaller of the two is 100 bytes" "$(cat said)"
wait
rm -f once

"$top/talft" trial five.obj >/dev/full 2>said
report 'a full device, explained' "4 talft: error: the output could not be written: no space is left on the device" "$? $(cat said)"
"$top/talft" trial five.obj >&- 2>said
report 'a closed standard output, explained' '4 talft: error: the output could not be written: standard output is closed' "$? $(cat said)"
"$top/talft" check missing >/dev/null 2>&-
report 'standard error that is closed' 3 $?
report 'standard error that is a pipe' 'absent: error: no such file' "$("$top/talft" check absent 2>&1 | cat)"

explained 'an argument that is not UTF-8' 2 'usage\n' 'talft: error: an argument is not UTF-8 text\n' check $'\xff'

# An unreadable file, as an ordinary user.
cp five.obj secret.obj && chmod 000 secret.obj
if [ -r secret.obj ]; then
  skip 'the message about an unreadable file' 'this user may read all'
else
  explained 'an unreadable file' 3 '' 'secret.obj: error: permission denied\n' check secret.obj
fi

if has script 'explanations under a terminal'; then
  printf 'module five.obj\n' >one.map
  got=$(script -qec "$top/talft check mixed.obj" typescript </dev/null | tr -d '\r'; printf '/%d' "${PIPESTATUS[0]}")
  report 'a terminal as standard error' "$(printf 'check block 0 index 3 premise 2\nmixed.obj: error: block 0, instruction 3: its two operands do not have the same colour (premise 2)\n  add r33 r1 B 0\n  r1: G int\n/8')" "$got"
  got=$(script -qec "env TALFT_EXPLAIN=0 $top/talft check mixed.obj" typescript </dev/null | tr -d '\r'; printf '/%d' "${PIPESTATUS[0]}")
  report 'a terminal, and no explanation' "$(printf 'check block 0 index 3 premise 2\n/8')" "$got"
  while IFS='|' read -r form words; do
    binary="talft: note: an object is binary: redirect it to a file, as in \`talft $form >FILE.obj\`"
    script -qec "$top/talft $words 2>said" typescript </dev/null >/dev/null
    report "the message about \`$words\` on a terminal" "$binary" "$(cat said)"
    # shellcheck disable=SC2086
    "$top/talft" $words >written 2>said </dev/null
    report "the message about \`$words\` into a file" '' "$(cat said)"
  done <<'END'
compile SOURCE|compile eight.src
asm TEXT|asm five.asm
link MAP|link one.map
schedule OBJECT|schedule five.obj
upgrade OBJECT|upgrade five.obj
END
  script -qec "$top/talft upgrade five.obj" typescript </dev/null >with
  report 'the message about an object comes before it' "$binary" "$(head -n 1 with | tr -d '\r')"
  report 'what follows an object begins a new line' '' "$(tail -c 1 with | tr -d '\n')"
  script -qec "$top/talft debug five.obj 2>said" typescript </dev/null >/dev/null
  report 'the message about a session on a terminal' \
    'talft: note: debugger commands are read from the terminal up to Ctrl-D; `talft-debugger OBJECT` has a prompt and help' "$(cat said)"
  script -qec "$top/talft debug five.obj step 4 2>said" typescript </dev/null >/dev/null
  report 'the message about an extra argument on a terminal' 1 "$(grep -c 'unexpected argument `step`' said)"
  report 'no note about commands from the terminal' 0 "$(grep -c 'are read from the terminal' said)"
  script -qec "env TALFT_EXPLAIN=0 $top/talft upgrade five.obj 2>said" typescript </dev/null >/dev/null
  report 'an object on a terminal, and no explanation' '' "$(cat said)"
fi
