# The debugger, its screen, its adapter for editors, and the tools explain and lines. tests/long.sh has the longer
# tests: more walks, random sources, Emacs, and times.
debugging=$top/tests/debugging fibonacci=$top/examples/fibonacci.src
five=$top/examples/five.obj five_text=$top/examples/five.asm
export XDG_STATE_HOME=$work/state
python3 "$top/tests/assembly.py" asm "$debugging/endless.asm" >endless.obj

# These run in the background for some seconds; their results are tested below.
python3 -B "$debugging/walks.py" "$top/examples/loop.asm" 1 25 2 >walks.said 2>&1 &
walks=$!
python3 -B "$debugging/facts.py" 1 8 60 "$top"/examples/{five,loop,stores,index}.asm >facts.said 2>&1 &
facts=$!
python3 -B "$debugging/adapter.py" >adapter.said 2>&1 &
adapter=$!
python3 -B "$debugging/screens.py" "$top/tools/debugger" "$fibonacci" >terminal.said 2>&1 &
terminal=$!

# `session PROGRAM COMMAND..` prints what the prompt writes for these commands.
session() {
  local program=$1
  shift
  printf '%s\n' "$@" | "$top/tools/debugger" "$program" 2>&1
}
# `kept PATTERN` joins the lines that match.
kept() { grep -E "$1" | paste -sd '|'; }

commands=('step 4' 'zap r1 6' 'step 8' queue 'back 8' 'reg r1' 'back 4' 'step 14')
session "$five_text" "record $work/script" "${commands[@]}" >said
report 'a session' \
  'zapped at 4: r1 was 5, is 6|at 12 detected|  0  1048576 out          6   oldest|r1 G 6|at 14 done' \
  "$(kept '^(at 1|zapped|r1 G|  0 )' <said)"
report 'a recorded session is a plain script' "$(printf '%s\n' "${commands[@]}")" "$(cat script)"
report 'which anybody can run again' 'at 14 done' "$("$top/talft" debug "$five" <script | tail -n 1)"
report 'a plain script is a source of commands' 'at 12 detected|at 14 done' \
  "$(session "$five" "source $work/script" | kept '^at 1')"
report 'a recording overwrites no file' "line 1: $work/script: exists already, and is kept; give another file" \
  "$(session "$five_text" "record $work/script" step | grep script)"
report 'the file is unchanged' 8 "$(wc -l <script)"
report 'the status reports a refused command' 1 "$(session "$five_text" nonsense >said; echo $?)"
report 'the line of a refused command' 'line 3: unknown command `regg`; `help` lists the commands|'\
'line 6: missing site or word: write it as in `zap r1 6`' "$(session "$five_text" 'step 4' 'reg r1' 'regg r2' '' '# words' zap 'step 4' |
  kept '^line')"
report 'the status before quit' '1 1 0 0' "$(for words in 'layout asm|q' 'step|foo|quit' 'step|quit' quit; do
  tr '|' '\n' <<<"$words" | "$top/tools/debugger" "$five_text" >said; printf '%d ' $?
done | sed 's/ $//')"
report 'the status with quit after -c' '1 1 0' "$(for words in 'bogus|quit' 'step|bogus' 'step|quit'; do
  "$top/tools/debugger" "$five_text" -c "${words%|*}" -c "${words#*|}" </dev/null >said; printf '%d ' $?
done | sed 's/ $//')"
report 'one pair of registers' '  green                   blue|~ r1  G 5                 r33 G 0|~ differs anyway|r1 G 5|d G 0|pcg G 3' \
  "$(session "$five_text" 'step 4' 'info reg r33' 'reg r1' 'registers d pcg' | grep -E '^(  green|~|r1 |d |pcg)' | paste -sd '|')"
report 'a refused command after -c has no line' 'unknown command `regg`; `help` lists the commands' \
  "$("$top/tools/debugger" "$five_text" -c 'regg r2' </dev/null | tail -n 1)"
report 'no refused command' 0 "$(session "$five_text" step >said; echo $?)"
report 'no colours in a pipe' 0 "$(session "$five_text" 'info registers' 'zap r1 9' explain | grep -c $'\e')"
report 'reverse-next, reverse-continue and undo' 'at 12 running|at 10 running|at 4 running|at 10 running' \
  "$(session "$five_text" 'break 0 2' 'goto 12' rn rc undo | kept '^at [1-9]')"
# A turn of the loop has 44 instructions, and the first turn begins at step 32.
report 'conditions, hits, until and finish' \
  'at 296 running|  a: r0 G 2, r32 B 2|at 120 running|at 120 running|at 208 running|3 hits so far' \
  "$(session "$fibonacci" 'break 1:0 if a == 2' 'display a' c undisplay delete 'break b1 hit 2' 'goto 0' c delete \
    'back 20' 'until 1:0' finish 'break b1' 'info breaks' |
    grep -oE '^(at (296|120|208).*|  a: r0 G 2,.*)|3 hits so far' | paste -sd '|')"
report 'lines of a source' '5 6 8 9 10 13 14 15' "$(session "$debugging/lines.src" line line line line line line line |
  sed -n 's/.*, lines.src:\([0-9]*\))$/\1/p' | paste -sd ' ')"
report 'a variable is struck in one colour' 'line 1: `i` is a variable: strike its green word in r3, or its blue one in r35' \
  "$(session "$fibonacci" 'zap i 1' | tail -n 1)"

refuses 'a missing object of the debugger' 'talft-debugger: /nowhere: no such file' debugger /nowhere
head -c 1 "$five" >cut.obj
TALFT_EXPLAIN=1 "$top/talft" dis cut.obj >written 2>said
refuses 'an object that is refused' "talft-debugger: $(tail -n 1 said)" debugger cut.obj
tool 'a source that does not compile' 1 '' debugger "$top/examples/unknown.src"
report 'the message about it' 'talft-debugger: unknown.src:2:7: error: `total` is not declared' \
  "$(head -n 1 said | sed 's|/.*/||')"
TALFT=$work/none refuses 'a missing program of the debugger' \
  "talft-debugger: $work/none: not found; set \$TALFT to the program \`talft\`, or add its folder to PATH" debugger "$five"
mkdir bare
cp -r "$top"/{talft,build,tools,crates.txt,HANDLES} bare
bare/tools/debugger "$five" </dev/null >written 2>said
report 'a program that is not proved yet' "1 talft-debugger: $work/bare/talft: the program is not proved yet" \
  "$? $(cat written said | sed 's/, so each answer would take most of a minute: run `make` first$//')"
python3 -m json.tool "$top/editors/vscode/package.json" >written 2>said
report 'the configuration for VS Code' '0 0' "$? $(python3 "$top/editors/vscode/dap" </dev/null 2>said; echo $?)"
cp "$five_text" replaced.asm
replace() {
  local n
  echo step
  for ((n = 0; n < 300; n++)); do ! grep -q '^at 1' said || break; sleep 0.1; done
  sed -i 's/G 5/G 6/' replaced.asm
  echo step
}
report 'a program that is replaced' 'replaced.asm was replaced: this session keeps what it read at its start' \
  "$(>said; replace | "$top/tools/debugger" replaced.asm >said; grep was.replaced said)"
report 'a position that is too far' \
  'line 1: the position 99999999999999999999 is too far: a session ends at 3000000000' \
  "$(session "$five_text" 'goto 99999999999999999999' | tail -n 1)"
report 'a fault that is too far ahead' 'at 14 done' \
  "$(echo c | "$top/tools/debugger" "$five_text" --fault 99999999999999999999:r1:6 | grep '^at 1')"
# Killing a tool also ends its call, here one that would run for seconds.
printf 'var i;\ni = 0;\nwhile (i < 1) { i = 0; }\n' >quiet.src
mkfifo typed
"$top/tools/debugger" quiet.src <typed >written 2>&1 &
killed=$!
exec 7>typed
echo goto 3000000000 >&7
sleep 2
for ((n = 0; n < 100; n++)); do call=$(child "$killed" talft) && [ -n "$call" ] && break; sleep 0.1; done
kill -KILL "$killed"
{ wait "$killed"; } 2>/dev/null
exec 7>&-
sleep 0.5
report 'a killed tool leaves nothing running' 'found ' "${call:+found} $(state "${call:-0}" | grep -v '^Z')"
report 'ten million steps' 'at 10000000 running' "$(session endless.obj 'goto 10000000' | grep '^at 1')"

# `says NAME COMMANDS SAID` runs commands over $program, and compares the last line that the prompt writes. The line
# number of a refused command is left out.
says() {
  local name=$1 commands=$2 said=$3
  report "$name" "$said" "$(printf '%b\n' "$commands" | "$top/tools/debugger" "$program" 2>&1 | tail -n 1 | sed 's/^line [0-9]*: //')"
}
program=$five_text
says 'no number' 'goto abc' 'invalid number `abc`: expected decimal digits, or hex as 0x10'
says 'a position before the start' 'goto -1' 'invalid number `-1`: expected at least 0'
says 'a negative count' 'step -3' 'invalid number `-3`: expected at least 0'
says 'an argument too many' 'step 1 2' 'unexpected argument `2`'
says 'a command that takes no argument' 'finish 3' 'unexpected argument `3`: `finish` takes none'
says 'no cell' 'x foo' 'unknown name `foo`: expected a cell, an array or the address of a cell'
says 'no cells' 'x/0 out' 'invalid count in `x/0`: expected at least 1 cell'
says 'an empty queue' 'zap qa0 5' 'nothing there: `qa0` is a part of the queue, which is empty'
says 'a short queue' 'goto 10\nzap qv1 5' 'nothing there: `qv1` is a part of the queue, which ends with qa0 and qv0'
says 'a stopped machine' 'goto 14\nzap r1 5' 'nothing there: the machine has stopped'
says 'no register' 'print r64' 'unknown name `r64`: expected a register (r0 to r63, d, pcg, pcb), a part of the queue '\
'(qa0 to qv7) or a cell'
says 'no base' 'print/q r1' 'unknown format `/q`: expected /x, /b, /o or /d'
says 'a negative word' 'zap r1 -1' '`-1` is out of range: expected 0 to 18446744073709551615'
says 'a strike of a cell' 'zap out 3' '`out` is a cell, and no fault strikes a cell (docs/PROMISES.md)'
says 'no line' 'break 99' \
  '`99`: there is no instruction on this line or after it: instructions are on lines 13 to 21'
says 'no index' 'break 0:9' '`0:9`: unknown index 9: block 0 has the indices 0 to 6'
says 'no block' 'break 7:0' '`7:0`: unknown block 7: the blocks are 0 to 0'
says 'a line without an instruction' 'break 15' 'no instruction is on line 15: this is the next one, on line 16'
says 'a breakpoint twice' 'break 0:2\nbreak 0:2' '`0:2` is breakpoint 1 already'
says 'a watch twice' 'watch r1\nwatch r1' '`r1` is already watched, by watch 1'
says 'a plan twice' 'plan 4:r1:6\nplan 4:r1:6' '`4:r1:6` is already planned'
says 'half a condition' 'break 0:1 if r1 == 5 and' \
  '`r1 == 5 and`: missing comparison: expected WORD OP WORD, where OP is one of == != <= >= < >, and WORD a register, '\
'a cell, or a number'
says 'a breakpoint at no place' tbreak 'missing place: write it as in `tbreak 1:0`'
says 'no topic' 'info foo' \
  'unknown topic `foo`: expected info registers|queue|cells|breaks|strikes|position|outputs|names'
says 'a position after the end' 'goto 1000000000' 'the run ended at 14, before 1000000000'
says 'explain before the strike' 'plan 4:r1:6\nexplain' 'the strike 4:r1:6 is still ahead: `continue` first, then `explain`'
says 'at the strike' 'plan 4:r1:6\ngoto 4' 'the strike 4:r1:6 is made here'
says 'back past a planned strike' 'plan 4:r1:6\ngoto 9\nback 6' 'the strike 4:r1:6 is ahead again'
says 'back past a strike' 'goto 4\nzap r1 6\nback' 'the strike 4:r1:6 is forgotten: `undo` brings it back'
says 'a recording that cannot be written' 'record /nowhere/script' \
  '/nowhere/script: cannot be written: there is no folder `/nowhere`'
says 'a recording in place of a folder' "record $work" "$work: is a folder; give a file"
says 'an empty line of a script' 'print r1\n' 'r1 G 0'
program=$top/examples/sieve.src
says 'a variable is watched in both colours' 'watch j\ninfo breaks' '  1  watch r1 r33'
says 'a watched variable' 'watch j' 'watch 1: j: r1 G 0, r33 G 0'
# In sieve.src, the first word that j gets is 2 * 2. Before that, r33 turns blue.
says 'its green register' 'watch j\ncontinue\ncontinue' 'watch 1: r1 G 0 -> r1 G 4'
says 'its blue register' 'watch j\ncontinue\ncontinue\ncontinue' 'watch 1: r33 B 0 -> r33 B 4'
array='`composite` is an array of 30 cells: use composite[0] to composite[29], or `x/30 composite`'
says 'an array is not a word' 'print composite' "$array"
says 'an array is not watched' 'watch composite' "$array"
says 'a cell of an array' 'watch composite[4]\ncontinue' 'watch 1: composite[4] 0 -> composite[4] 1'
report 'cells of an array' 'composite[0] 0|composite[1] 0|composite[2] 0' \
  "$(session "$program" 'x/3 composite' | kept '^composite')"
says 'a cell past the end of an array is not watched' 'watch composite[40]' '`composite[40]`: composite has 30 cells: 0 to 29'
says 'a cell past the end of an array' 'print composite[30]' '`composite[30]`: composite has 30 cells: 0 to 29'
report 'an array ends' 'composite[28] 0|composite[29] 0|composite has 30 cells: 0 to 29' \
  "$(session "$program" 'x/99 composite[28]' | kept '^composite')"
# Line 11 is entered at 1:38, and tested at 2:0. The first test comes after 54 instructions, at 108. A turn has 30
# instructions, so the fifth test is at 348.
says 'a line as the answers write it' 'break sieve.src:12' \
  'breakpoint 1: add r3 r1 G 0  (block 2 index 10, sieve.src:12)'
says 'a line with its entry and its test' 'break sieve.src:11' \
  'breakpoint 1: mov r2 G 55 code:1  (block 1 index 38, sieve.src:11)  and 2:0'
report 'which halts at both' 'block 1 index 38, sieve.src:11|block 2 index 0, sieve.src:11|block 2 index 0, sieve.src:11' \
  "$(session "$program" 'break 11' c c c | sed -n '/breakpoint 1:/d; s/^the next .*(\(block.*11\))$/\1/p' | paste -sd '|')"
says 'until a line' 'until sieve.src:12' 'the next step fetches add r3 r1 G 0  (block 2 index 10, sieve.src:12)'
says 'goto does not take a line' 'goto sieve.src:12' \
  '`sieve.src:12` is a place, and `goto` takes a position: `until sieve.src:12` goes to a place or a line'
says 'a line of another file' 'break other.src:12' '`other.src:12`: unknown file: only the lines of sieve.src are known'
says 'until a place that is never reached' 'goto 4000\nuntil sieve.src:5' \
  'the run ended at 4106 without reaching 0:2'
three=('break 2:0' 'break 2:0 hit 5' 'break 2:0 if i == 77')
report 'only breakpoints whose conditions hold are named' \
  'breakpoint 1|breakpoint 1|breakpoint 1|breakpoint 1|breakpoint 1|breakpoint 2  from hit 5 on' \
  "$(session "$program" "${three[@]}" c c c c c | kept '^breakpoint [0-9](  from.*)?$')"
report 'likewise when going back' 'at 348 running|breakpoint 1|breakpoint 2  from hit 5 on|at 288 running|breakpoint 1' \
  "$(session "$program" "${three[@]}" 'goto 360' rc rc | kept '^(at 348.*|at 288.*|breakpoint [0-9](  from.*)?)$')"
report '`line` passes a breakpoint whose condition does not hold' '12|13|14' "$(session "$program" 'until 2:0' 'break 2:12 if j == 5' \
  line line line | sed -n 's/^the next .*sieve.src:\(1[1-4]\))$/\1/p' | tail -n +2 | paste -sd '|')"
says 'only `and` joins' 'break 11 if i == 3 or j == 4' '`i == 3 or j == 4`: comparisons can be joined only by `and`'
says 'a single equals sign' 'break 11 if i = 3' '`i = 3`: write `==` for `=`'
says 'parentheses' 'break 11 if (i == 3)' \
  '`(i == 3)`: parentheses are not supported: join comparisons by `and`'
says 'a condition without a place' 'break if i == 3' 'missing place before `if i == 3`: write it as in `break 1:0 if i == 3`'
says 'a condition over an unknown name' 'break 11 if k == 3' \
  'unknown name `k`: expected a register, a cell, a variable, or a number'
says 'no comparison' 'break 11 if i' 'invalid comparison `i`: expected WORD OP WORD, where OP is one of == != <= >= < >, '\
'and WORD a register, a cell, a variable, or a number'
says 'a planned strike after the end' 'plan 9000:r1:7\nend' \
  'the strike 9000:r1:7 is not made: the run ended at 4106, before it'
says 'a strike in hexadecimal' 'plan 700:r0:0x10\ninfo strikes' '  700:r0:16 planned, not made yet'
says 'a planned strike is forgotten' 'plan 700:r0:16\nplan 9:r1:7\nunplan 700:r0:0x10\ninfo strikes' \
  '  9:r1:7 planned, not made yet'
says 'no such strike' 'unplan 9:r1:7' '`9:r1:7` is not planned: `info strikes` lists the strikes'
says 'a sum is not printed' 'print i + 1' '`i + 1`: `print` takes names, as in `print r1 out`, not expressions'
says 'names have no dollar sign' 'print $r1' '`$r1`: names have no `$` here: write `r1`'
says 'a command of other debuggers' 'frame' 'unknown command `frame`: `where` shows the place; there are no calls'
# `list` shows the lines around the place, then the next ones, or those around a line or a place.
report 'the line of the place' "=>    4  $(sed -n 4p "$fibonacci")" "$(session "$fibonacci" 'goto 40' list | grep '^=>')"
numbers() { sed -n 's/^\(=>\|  \) *\([0-9][0-9]*\)\(  .*\|\)$/\2/p' | paste -sd ' '; }
report 'the lines around the place, and the next ones' "$(seq 22 41 | paste -sd ' ')" "$(session "$top/examples/loop.asm" list l | numbers)"
report 'the lines around a line' "$(seq 3 12 | paste -sd ' ')" "$(session "$top/examples/loop.asm" 'list 8' | numbers)"
report 'the lines of an object are those of dis' "$("$top/talft" dis "$five" | grep -n '^st_G' | sed 's/:/  /')" \
  "$(session "$five" 'list 0:4' | sed -n 's/^ *\([0-9]*  st_G.*\)/\1/p')"
printf '# \e[2J\n' | cat - "$five_text" >escape.asm
report 'a text has no control characters' 0 "$(session escape.asm list 'list 1' | grep -c $'\e')"
says 'a line after the last' 'list 99' 'unknown line 99: the lines are 1 to 17'
says 'a topic of other debuggers' 'info locals' \
  'unknown topic `locals`: `info names` says where names are kept, `print` and `display` write their words'
says 'the displayed words' 'display i prime\nundisplay i\ndisplay' '  prime 0'
printf 'step\nnonsense\nstep\n' >broken
says 'a script ends at a refused command' "source $work/broken" \
  "$work/broken:2: unknown command \`nonsense\`; \`help\` lists the commands; the script ends here"
report 'a file with a blank' 'zap r0 1|step 2' \
  "$(session "$program" "record $work/a b" 'flip r0 0' 'step 2' >said; paste -sd '|' "$work/a b")"
report 'each instruction has its help' '' "$(for name in add sub mul ltu eq and or xor shl shr mov idx ld_G ld_B st_G st_B \
  jmp_G jmp_B bz_G bz_B halt sites d faults; do echo "help $name"; done | "$top/tools/debugger" "$program" 2>&1 |
  grep 'unknown command')"
says 'the meaning of d' 'help d' \
  'the machine stops itself: detected. So a strike that changes d is detected by the next jump or branch.'
program=endless.obj
says 'a run without an end' end 'the run has not ended after 1,000,000 more steps: `end` continues'
goes_on='nothing halts the run in 1,000,000 more steps: the same command goes on'
says 'continue stops after as many steps' continue "$goes_on"
says 'and goes on' 'continue\nbreak 0:0\ncontinue' "$goes_on"
says 'likewise until' 'until 0:0' "$goes_on"
report 'where it stops' 'at 1000000 running|at 2000000 running' "$(session endless.obj c c | kept '^at [1-9]')"
says 'no lines of an object alone' line \
  'no source lines are known: `next` executes an instruction; `talft-debugger OBJECT --source SOURCE` names the source of an '\
'object'
# A turn has four instructions. Once both registers are set, at 4, each turn is as the one before.
printf '%s\n' 'node 0 memory' 'type 0 0' 'block 0' 'mov r2 G 1 code:0' 'mov r34 B 1 code:0' 'jmp_G r2' 'jmp_B r34 0' 'entry 0' \
  >trap.asm
loop='the run is in an endless loop: every 8 steps all is as before, and nothing is stored (a trap is such a loop: '\
'`talft-ending` names it)'
program=trap.asm
report 'continue stops where an endless loop begins' "at 4 running|$loop" "$(session trap.asm 'break 0:0' 'goto 3' 'delete' c |
  kept '^(at 4|the run is)')"
says 'end says so' end "$loop"
program=quiet.src
says 'a line that never ends' 'goto 100\nline' "${loop/every 8/every 36}"
program=$five
says 'a strike that was not made' 'plan 4:qa0:6\nend' 'the strike 4:qa0:6 was not made: nothing was there'
says 'explain says so' 'plan 4:qa0:6\nend\nexplain' 'the strike 4:qa0:6 was not made: nothing was there'
says 'a variable of an object alone' 'print a' 'unknown name `a`: expected a register (r0 to r63, d, pcg, pcb), a part of '\
'the queue (qa0 to qv7) or a cell; a variable needs `--source SOURCE`'
says 'two commands at once' 'next 3; step 2' 'one command at a time: give each its own line, or its own `-c`'
program=$fibonacci
says 'two strikes' 'goto 296\nzap r0 9\nzap r32 9\nend\nexplain' '2 strikes were made: the promise covers one'
program=$top/examples/sieve.src
# The command that a recording prints replays it.
again=$(cd "$top/examples" && session sieve.src "record $work/recorded" 'goto 50' 'zap r1 7' |
  sed -n 's/.*; this runs it again: //p')
report 'the command of a recording' "talft debug <(talft compile sieve.src) <$work/recorded" "$again"
report 'it works' zapped "$(talft() { "$top/talft" "$@"; }; cd "$top/examples" && eval "$again" | tail -n 1)"
report 'the command of a recording over an object' "talft debug $five <$work/recorded-object" \
  "$(session "$five" "record $work/recorded-object" | sed -n 's/.*; this runs it again: //p')"
report 'each command has an example' '' "$(session "$five" help | sed '1,3d; /^`/,$d' | while read -r line; do
  [[ $line =~ ' '[[:space:]] ]] || echo "$line"; done)"
# What a terminal would obey in a comment is a question mark, as in the program's messages.
printf 'cell out = 0; # \e[2J\xc2\x9b2J\xe2\x80\xae\nout = 5; # \e]0;x\a\n' >escape.src
report 'invisible characters of a source' '1: cell out = 0; # ?[2J?2J?|2: out = 5; # ?]0;x?' \
  "$("$top/tools/lines" escape.src | grep '^[12]: ' | paste -sd '|')"
"$top/tools/explain" escape.src --fault 4:r1:4 >explained
report 'invisible characters in an explanation' '0 1' "$(grep -c $'\e' explained) $(grep -c '2: out = 5; # ?]0;x?' explained)"
session escape.src disassemble 'goto 4' 'zap r1 4' finish explain >explained
report 'invisible characters at the prompt' '0 2' "$(grep -c $'[\e\a]' explained) $(grep -cF '2: out = 5; # ?]0;x?' explained)"
report 'no lines of an object' 'at 12 running|the next step fetches st_B r32 r33  (block 0 index 5)' \
  "$(session "$five" 'zap r1 9' 'goto 10' | tail -n 2 | sed 's/^at 10/at 12/' | paste -sd '|')"
report 'pairs that differ by a strike, and without one' '~ r0 G 1048576 out r32 G 0|* r0 G 7 r32 G 0' \
  "$(session "$five_text" 'goto 4' registers 'zap r0 7' registers | tr -s ' ' | kept '^. r0 ')"
refuses 'the lines of an object' \
  "talft-lines: $five: is an object, not a source; give the source, and the object with --object" lines "$five"

tool 'the path of a fault, and its cause' 0 "$(cat <<END
done after 14 steps: 1 output, nothing was detected
the path of the fault (what differs from the run without it):
  at 4        r1 6, not 5                                   the strike 4:r1:6
  at 8        r33 6, not 5                                  add r33 r1 B 0
  at 10       qv0 6, not 5                                  st_G r0 r1
  at 12       cell out 6, not 5; correct again: qv0         st_B r32 r33
    st_B compared r33 = 6 with qv0 = 6: equal, so it passed
the first wrong output: out 6, not out 5; committed at 12: st_B r32 r33  (block 0 index 5)
at 14: 3 words differ; the OUTPUTS DIFFER, so the run is corrupt
the cause: green and blue are mixed, so the fault is on both sides:
  at 8        add r33 r1 B 0  (block 0 index 3): r1 is green, the number 0 is blue
  at 12       st_B r32 r33  (block 0 index 5): r33 is green, the instruction is blue
the checker refuses this object (check block 0 index 3 premise 2), so nothing is promised about its runs:
  $top/examples/mixed.obj: error: block 0, instruction 3: its two operands do not have the same colour (premise 2)
    add r33 r1 B 0
    r1: G int
END
)\n" explain "$top/examples/mixed.obj" --fault 4:r1:6
refuses 'a fault that strikes nothing' \
  'talft-explain: --fault 4:qa0:6: nothing was struck: at step 4 the queue has no entry 0' explain "$five" --fault 4:qa0:6
refuses 'a fault after the end' \
  'talft-explain: --fault 14:r1:6: nothing was struck: the run ended after 14 steps' explain "$five" --fault 14:r1:6
misused 'a fault at an unknown site' \
  'talft-explain: invalid fault `4:r64:6`: expected STEP:SITE:WORD; the site `r64` is not one of '\
'r0 to r63, d, pcg, pcb, qa0 to qa7 and qv0 to qv7' \
  explain "$five" --fault 4:r64:6
misused 'a negative step' \
  'talft-explain: invalid fault `-1:r0:3`: expected STEP:SITE:WORD; invalid number `-1`: expected at least 0' \
  explain "$five" --fault -1:r0:3
misused 'a negative word' \
  'talft-explain: invalid fault `4:r0:-1`: expected STEP:SITE:WORD; `-1` is out of range: expected 0 to 18446744073709551615' \
  explain "$five" --fault 4:r0:-1
# The struck i first matters where it is added to j: then j < 30 holds for one colour only, as 24 + 16 is 40 and 24 + 2
# is 26.
report 'a branch that only one colour takes' 'r35 = 1: blue does not jump, so d must be 0; d = 85 (block 3 index 0)' \
  "$("$top/tools/explain" "$top/examples/sieve.src" --fault 700:r0:0x10 | sed -n '4s/^ *//p')"
# The next instruction of line 14 overwrites r2, and nothing reads it before that.
report 'a fault that is gone' \
  'gone at 702: from there on no word differs|at 4106: no word and no output differs: the fault is gone' \
  "$("$top/tools/explain" "$top/examples/sieve.src" --fault 690:r2:3 | tail -n 2 | paste -sd '|')"
misused 'an invalid fault' 'talft-explain: invalid fault `4`: expected STEP:SITE:WORD, such as 4:r1:6' explain "$five" --fault 4
# `talft-explain` writes what README shows.
report 'the path of a fault in README' '' "$(sed -n '/^\$ tools\/bin\/talft-explain/,/^```/p' "$top/README.md" | sed '1d; $d' |
  diff - <("$top/tools/explain" "$fibonacci" --fault 296:r32:7))"

# Step 327 detects this fault, so the run has taken 328 steps where the debugger shows it.
"$top/talft" compile "$fibonacci" >fibonacci.obj
TALFT_EXPLAIN=1 "$top/talft" run fibonacci.obj --fault 296:r32:7 >written 2>said
report 'the step that detects, and the position after it' \
  'detected at step 327|detected at step 327|at 328 detected|296:r32:7 detected 327' \
  "$( (cat said; "$top/tools/explain" fibonacci.obj --fault 296:r32:7; session fibonacci.obj 'plan 296:r32:7' end
    echo 296:r32:7 >one.faults; "$top/talft" campaign fibonacci.obj --faults one.faults) |
    grep -oE 'detected at step [0-9]+|^at [0-9]+ detected|^296:.* detected [0-9]+' | paste -sd '|')"
"$top/talft" schedule fibonacci.obj >scheduled.obj
refuses 'the lines of a scheduled object' "talft-debugger: scheduled.obj: is scheduled, so its instructions have no lines in \
$fibonacci; debug the object that \`talft compile\` wrote" debugger scheduled.obj --source "$fibonacci"
"$top/tools/set" "$five" out=3 -o set.obj >written 2>&1
report 'the text of an object with other initial words' 'at 10 running|out 3' \
  "$("$top/tools/debugger" set.obj --text "$five_text" -c 'goto 10' -c 'print out' </dev/null | kept '^(at 10|out)')"
report 'a path in its lines' 'five.asm:20' \
  "$("$top/tools/explain" set.obj --text "$five_text" --fault 4:r1:6 | grep -om1 'five.asm:20')"
misused 'a source of a source' "talft-explain: --source: $fibonacci is a source itself; leave --source out" \
  explain "$fibonacci" --source "$debugging/lines.src" --fault 4:r1:6
echo 'long long out;' >one.c
refuses 'C as a source' \
  'talft-debugger: one.c: is a C program; expected a source; `--text` takes the text that `talft-cc --text` wrote' \
  debugger "$five" --source one.c

# The lines of each example. The tool compares the words with the object's before it writes any line.
for source in "$top"/examples/*.src; do
  "$top/talft" compile "$source" >one.obj 2>said || continue
  report "a line for each instruction of ${source##*/}" "$("$top/talft" dis one.obj |
    grep -vcE '^(cell|node|type|reg|pend|block|entry) ')" "$("$top/tools/lines" "$source" --brief | wc -l)"
done
report 'the names of a source' 'a    registers r0 and r32' "$("$top/tools/lines" "$fibonacci" | sed -n 2p)"
"$top/talft" compile "$top/examples/sum.src" >sum.obj
refuses 'lines of another object' \
  "talft-lines: $fibonacci: is not the source of sum.obj: the instructions differ" \
  lines "$fibonacci" --object sum.obj

wait "$walks"
report 'random walks' '2 walks: 0 failed' "$(cat walks.said)"
wait "$facts"
report 'what the tools know about the machine' '0 wrong' "$(tail -n 1 facts.said | sed 's/.*: //')"
wait "$terminal"
report 'the screen in pseudo-terminals of 80x24 and 100x30' '0 failed' "$(tail -n 1 terminal.said | sed 's/.*: //')"
wait "$adapter"
report 'the adapter for editors' '0 failed' "$(sed 's/.* passed, \(.*\);.*/\1/' adapter.said)"

refuses 'a screen without a terminal' 'talft-debugger: --tui needs a terminal for standard input and output' \
  debugger "$five_text" --tui
if has script 'terminals that cannot show the screen'; then
  for term in dumb '' unheard-of; do
    report "a screen on the terminal <$term>" \
      "talft-debugger: --tui: the terminal \`$term\` cannot show it: set TERM, or leave --tui out|status 1" \
      "$(TERM=$term timeout 60 script -qec "$top/tools/debugger $five_text --tui; echo status \$?" /dev/null </dev/null |
        tr -d '\r' | paste -sd '|')"
  done
fi
if has tmux 'the screen and the prompt in a terminal'; then
  # `on LINE..` prints what keys.sh writes for these lines.
  on() { printf '%s\n' "$@" | bash "$debugging/keys.sh" 100 30 "$keyed"; }
  keyed="$top/tools/debugger $five_text --tui"
  screen=$(on 'await lists the keys' n n n n z 'text:r1 6' Enter 'await ! 4:r1:6' shot c 'await detected' shot \
    'size 40 8' shot 'size 9 3' shot Home n 'size 120 40' 'await o at 1 running' shot q)
  report 'the screen has the strike' 1 "$(grep -c 'o at 4 running   ! 4:r1:6' <<<"$screen")"
  report 'the screen marks the pair' yes "$(grep -q '\* r1  G 6' <<<"$screen" && echo yes)"
  report 'the screen says that it is detected' 1 \
    "$(grep -c 'at 12 detected   the machine has stopped itself' <<<"$screen")"
  report 'the screen at other sizes' 1 "$(grep -c '^o at 1 running' <<<"$screen")"
  screen=$(on 'await lists the keys' 'size 80 24' shot l 'await no source lines' shot a a 'await o here' shot \
    'size 60 24' 'await blue: ' shot q)
  report 'the screen at 80 columns, and at 60' \
    '14 steps|7 instructions, 1 block, 1 cell; ? lists the keys|: command  ? help  q quit|'\
'no source lines are known: one instruction|o here  ! strike  @ both|green  blue: 75 columns' \
    "$(grep -oE -e '[0-9]+ steps$' -e '^7 instructions, .* keys' -e '^: command  \? help  q quit' -e '^no source lines .*' \
      -e '^o here  ! strike  @ both' -e 'green  blue: .*' <<<"$screen" | awk '!seen[$0]++' | paste -sd '|')"
  # If 80 columns are too few, cell names are dropped and columns stay apart. The last move stays on the screen.
  keyed="$top/tools/debugger $top/examples/sieve.src --tui"
  screen=$(on 'await lists the keys' 'size 80 24' g text:700 Enter 'await o at 700' : 'text:display prime' Enter : \
    'text:watch composite[4]' Enter 'await watch 1' shot x 'await does nothing' shot q)
  report 'words in 80 columns' '| r2 G 1048598 r34 B 1048598' \
    "$(grep -o '|   r2 .*' <<<"$screen" | head -n 1 | tr -s ' ' | sed 's/ $//')"
  report 'cells that are displayed and watched' '  prime 2|  prime 2|  composite[4] 1' \
    "$(sed -n '/-----/q; s/.*| \(  prime .*\|  composite.4. .*\)/\1/p' <<<"$screen" | sed 's/ *$//' | paste -sd '|')"
  report 'an unknown key' 1 "$(grep -c '^x: this key does nothing; ? lists the keys' <<<"$screen")"
  keyed="$top/tools/debugger $top/examples/sieve.src --tui --fault 700:r0:16"
  screen=$(on 'await lists the keys' 'size 80 24' c 'await detected' e 'await any key' shot Enter End \
    'await o at 788' q)
  report 'the page of a path has its lines' '  at 754  r3 40, not 26  add r3 r3 r4  (sieve.src:13)' \
    "$(grep 'at 754' <<<"$screen")"
  keyed="$top/tools/debugger $work/trap.asm --tui"
  report 'an endless loop on the screen' 1 "$(on 'await lists the keys' c 'await endless loop' shot q | grep -c 'o at 4 running')"
  # If the screen is killed, the terminal is restored.
  keyed="bash -c '$top/tools/debugger $five_text --tui; echo status \$?; stty -a; sleep 60'"
  screen=$(on 'await o at 0 running' terminate 'await status' shot)
  report 'a screen that is killed' 'status 143|icanon|echo' \
    "$(grep -oE 'status [0-9]+|(^| )(icanon|echo)( |$)' <<<"$screen" | sed 's/^ *//; s/ *$//' | paste -sd '|')"
  keyed="$top/tools/debugger $five_text"
  screen=$(on 'await (talft)' 'text:pri' Tab 'text:r3' Tab Tab 'await r39' shot C-u 'text:s' Enter Enter \
    'await at 2 running' shot)
  report 'completion of registers' 1 "$(grep '^r3 .*r39' <<<"$screen" | sort -u | wc -l)"
  report 'an empty line steps again' yes "$(grep -q '^at 2 running' <<<"$screen" && echo yes)"
  # Ctrl-C ends an endless run; closing the terminal during one leaves nothing running.
  keyed="$top/tools/debugger $work/endless.obj"
  screen=$(on 'await (talft)' text:c Enter 'await steps so far; Ctrl-C interrupts' C-c 'await interrupted' text:where \
    Enter 'await pcb' shot text:c Enter kill)
  report 'a run that is interrupted' \
    'at P running|interrupted: the run stays at P; `continue` resumes it|at P running' \
    "$(position=$(sed -n 's/.*the run stays at \([1-9][0-9]*\);.*/\1/p' <<<"$screen"); sed "s/^^C//; s/ pcg.*//
      s/\<$position\>/P/" <<<"$screen" | kept '^(interrupted|at P running)')"
  for ((n = 0; n < 50; n++)); do [ -n "$(running "$work/endless.obj")" ] || break; sleep 0.1; done
  report 'nothing is left running' '' "$(running "$work/endless.obj")"
fi
