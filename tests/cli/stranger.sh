# What a newcomer meets besides the program's answers: objects built in place, campaigns that are cut, and one
# notation for strikes.

cp "$top/examples/five.asm" built.asm
tool 'an object is built' 0 '' build built.asm
expect 'the object that was built' 0 'out 5\n' run built.obj
cp built.obj old.obj
echo 'cell out = 0; out = x;' >built.src
refuses 'a source that is refused' 'talft-build: built.src: refused by `talft compile`: source 7 20' build built.src
report 'the old object stays' '' "$(cmp built.obj old.obj 2>&1)"
cp "$top/examples/mixed.obj" wrong.obj
"$top/talft" dis wrong.obj >wrong.asm
refuses 'an object that is not accepted' \
  "talft-build: wrong.asm:$(grep -n '^add r33 r1 B 0$' wrong.asm | cut -d : -f 1): refused by \`talft check\`: check block 0 index 3 premise 2" \
  build wrong.asm
report 'nothing is left over' '' "$(ls ./*.new 2>&1 | grep -v 'No such file')"
cp built.src built.txt
refuses 'a file of an unknown kind' \
  'talft-build: built.txt: unknown kind of file; expected a name that ends in .src, .asm or .map' build built.txt

# five.obj takes 14 steps, so a run of 12 steps is cut. Both faults strike, and the second is detected in step 11.
printf '0:r9:1\n4:r1:6\n' >cut.faults
tool 'a campaign that is cut' 0 '0:r9:1 masked\n4:r1:6 detected 11\nfaults 2 masked 1 detected 1 idle 0 corrupt 0\n' \
  campaign "$top/examples/five.obj" --faults cut.faults --steps 12 --dir cut.kept
report 'how many struck runs were cut' 'talft-campaign: 1 struck run was still running after 12 steps: raise --steps' \
  "$(tail -n 1 said)"
tool 'a campaign that is not cut' 0 '0:r9:1 masked\n4:r1:6 detected 11\nfaults 2 masked 1 detected 1 idle 0 corrupt 0\n' \
  campaign "$top/examples/five.obj" --faults cut.faults --steps 14 --dir whole.kept
report 'no message about it' 0 "$(grep -c 'still running' said)"

report 'one notation of strikes' '' "$(grep -rlI 'K:SITE:V\|STEP:SITE:V\b' "$top"/docs "$top/README.md" "$top/editors" "$top/examples" \
  "$top/man" $(find "$top/tools" -maxdepth 1 -type f ! -name debugger) 2>/dev/null)"

# The manual is self-contained: it names no file of the repository and no term of the proofs, and each page that it names exists.
for page in "$top"/man/talft*.[157]; do
  report "what ${page##*/} cannot explain" '' \
    "$(tail -n +4 "$page" | grep -E 'crates/|tests/|\.antt|\.md\b|\b([Cc]lauses?|[Ss]hel(f|ves)|[Ss]inks?|puts?)\b')"
done
report 'the pages that are named' '' "$(grep -ohE 'talft(\\?-[a-z0-9]+)?(\\f[A-Z])? ?\([157]\)' "$top"/man/talft*.[157] |
  sed 's/\\f[A-Z]//; s/\\//g; s/ //; s/(\(.\))/.\1/' | sort -u | while read -r page; do [ -f "$top/man/$page" ] || echo "$page"; done)"
for script in $(grep -lE '^#!' "$top"/tools/* 2>/dev/null); do
  report "the page of ${script##*/}" 1 "$(grep -c "^.SH SYNOPSIS" "$top/man/talft-${script##*/}.1" 2>&1)"
done
# Each premise has an entry that says what fails and what to do about it.
report 'the premises and what to do' 18 "$(sed -n '/^.SH PREMISES/,/^.SH RULES/p' "$top/man/talft-typing.7" |
  grep -c 'what to do:')"
for part in STRIKES CAMPAIGNS 'SESSIONS OF THE DEBUGGER'; do
  report "$part in talft-faults(5)" 1 "$(grep -c "^.SH $part" "$top/man/talft-faults.5")"
done
for part in SYNOPSIS EXAMPLES ENVIRONMENT 'EXIT STATUS'; do
  report "$part in talft(1)" 1 "$(grep -c "^.SH $part" "$top/man/talft.1")"
done

# Vim recognizes a file by its text, not by its name alone.
kind_in_vim() {
  timeout 60 vim -es -u NONE -N -i NONE -c "set rtp^=$top/editors/vim" -c 'filetype on' -c "edit $1" \
    -c "call writefile([&filetype], 'kind') | qall!" </dev/null >errors 2>&1
  cat kind
}
if has vim 'the kinds of files in Vim' && vim --version | grep -q '+syntax'; then
  echo 'some other language' >other.src
  echo 'mov eax, 1' >other.asm
  report 'a source in Vim' talft "$(kind_in_vim "$top/examples/sum.src")"
  report 'an assembly text in Vim' talftasm "$(kind_in_vim "$top/examples/five.asm")"
  report 'another source in Vim' no "$(kind_in_vim other.src | grep -q talft && echo yes || echo no)"
  report 'another assembly text in Vim' no "$(kind_in_vim other.asm | grep -q talft && echo yes || echo no)"
fi

# Ctrl-C before the proof. A stand-in for the kit starts another process, as the kit starts compilers.
mkdir -p unproved/crates/talft/src kit left
cp -r "$top/build" "$top/talft" "$top/crates.txt" "$top/VERSION" unproved
mkdir unproved/docs && cp "$top/docs/PROMISES.md" unproved/docs
cat >kit/rt <<END
#!/usr/bin/env bash
[ "\$1" != version ] || exec "$(command -v rt)" version
sleep 1000 &
echo \$! >"$work/left/one"
sleep 1000
END
chmod +x kit/rt
cat >ctrl_c.py <<'END'
import os, signal, subprocess, sys, time

def own():
    # Jobs of a non-interactive shell ignore Ctrl-C.
    signal.signal(signal.SIGINT, signal.SIG_DFL)

call = subprocess.Popen(sys.argv[2:], start_new_session=True, preexec_fn=own, stderr=subprocess.DEVNULL)
for turn in range(200):
    if os.path.exists(sys.argv[1]) and os.path.getsize(sys.argv[1]):
        break
    time.sleep(0.05)
os.killpg(call.pid, signal.SIGINT)
status = call.wait(timeout=30)
time.sleep(0.2)
with open(sys.argv[1]) as left:
    number = left.read().strip()
alive = os.path.exists(f"/proc/{number}") and "Z" not in open(f"/proc/{number}/stat").read().split()[2]
print(status, "still runs" if alive else "nothing runs")
END
report 'Ctrl-C before the proof' '130 nothing runs' \
  "$(TMPDIR=$work/left PATH=$work/kit:$PATH timeout 60 python3 ctrl_c.py left/one unproved/talft run "$top/examples/five.obj" 2>&1)"
report 'the files that the call left' one "$(ls left)"

# An input file is never overwritten, whatever its name.
cp "$top/tests/c/control.wasm" read.wasm
cp "$top/examples/five.asm" read.asm
ln -s read.asm text-again.asm
touch read.lines read.svg
refuses 'an object written over its module' 'talft-cc: read.wasm: is an input; give the output another name' \
  cc read.wasm -o read.wasm
refuses 'a text written over its module' 'talft-wasm2asm: ./read.wasm: is an input; give the output another name' \
  wasm2asm read.wasm -o ./read.wasm
refuses 'an object written over its text' 'talft-build: text-again.asm: is an input; give the output another name' \
  build read.asm -o text-again.asm
refuses 'a page written over its lines' 'talft-report: read.lines: is an input; give the output another name' \
  report read.lines --dir cut.kept --out read.lines
refuses 'a picture written over its lines' 'talft-plot: read.svg: is an input; give the output another name' \
  plot read.svg --out read.svg
report 'the module' '' "$(cmp read.wasm "$top/tests/c/control.wasm" 2>&1)"
report 'the text' '' "$(cmp read.asm "$top/examples/five.asm" 2>&1)"

# Closed streams.
for words in "explain $top/examples/five.obj --fault 4:r1:6" "debugger $top/examples/five.obj" "lines $top/examples/sieve.src" \
  "faults $top/examples/five.obj --steps 4 --sites r1 --values 6" "set $top/examples/five.obj --list"; do
  # shellcheck disable=SC2086
  report "standard output that is closed: ${words%% *}" "talft-${words%% *}: standard output is closed" \
    "$(timeout 20 "$top/tools/"$words 2>&1 >&- </dev/null)"
done
report 'standard input that is closed' 'at 0 running' "$("$top/tools/debugger" "$top/examples/five.obj" <&- 2>&1 | head -n 1)"

# What strangers write. Each row has the status, the arguments, the text of the file `got`, and the first line of the message.
mkdir stranger && cd stranger || exit 2
cp "$top/examples/five.obj" "$top/examples/five.faults" "$top/examples/fibonacci.src" .
first_said() {
  "$top/talft" "$@" >answer 2>said </dev/null
  printf '%d: %s' $? "$(head -n 1 said)"
}
while IFS='^' read -r status words text message; do
  printf '%b' "$text" >got
  # shellcheck disable=SC2086
  report "the message about $words: ${text:0:60}" "$status: $message" "$(first_said $words)"
done <<'END'
6^compile got^cell a = 0;\nvar b;\nif (a && b) { a = 3; }\n^got:3:8: error: unexpected `&`: there is no `&&`: nest `if`, or write `(a < b) & (c == d)`; a comparison is 0 or 1
6^compile got^cell a = 0;\nwhile (a || 1) { a = 3; }\n^got:2:11: error: unexpected `|`: there is no `||`: write `(a < b) | (c == d)`
6^compile got^cell a = 0;\nif (!a) { a = 3; }\n^got:2:5: error: unexpected character `!`: write `(a == 0)` for `!a`
6^compile got^cell a = 0;\nif (a != 3) { a = 3; }\n^got:2:7: error: unexpected character `!`: write `(a == b) == 0` for `a != b`
6^compile got^cell a = 0;\nfor i in 0..3 { a = i; }\n^got:2:11: error: unexpected character `.`: loops are written `while (..) { .. }`
6^compile got^cell a = 0;\nfor (i = 0; i < 3; i++) { a = i; }\n^got:2:5: error: unexpected `(`: loops are written `while (..) { .. }`
6^compile got^var a; var b;\na = b = 3;\n^got:2:7: error: unexpected `=`: write one assignment per statement, as in `b = 3; a = b;`
6^compile got^cell a-b = 0;\n^got:1:7: error: unexpected `-`: a name has only letters, digits and `_`
6^compile got^cell a = 0;\na-b = 3;\n^got:2:2: error: unexpected `-`: a name has only letters, digits and `_`
6^compile got^cell a.b = 0;\n^got:1:7: error: unexpected character `.`: a name has only letters, digits and `_`
6^compile got^var a: int;\n^got:1:6: error: unexpected character `:`: a declaration is `var a;` or `cell a = 0;`, without a type
6^compile got^cell a := 0;\n^got:1:8: error: unexpected character `:`: write `=` to assign
6^compile got^cell a = 0;\na = 3;\n\x1a^got:3:1: error: unexpected Ctrl-Z (byte 0x1A), which old editors put at the end of a file: remove it
6^compile got^cell a = 0;\nreturn;\n^got:2:7: error: unexpected `;`: there is no `return`: a program ends after its last statement
6^compile got^cell a = 0;\nprint a;\n^got:2:7: error: unexpected `a`: there are no calls or macros: an assignment to a cell is the output
6^compile got^cell a = 0;\nprint "hello";\n^got:2:7: error: unexpected character `"`: there are no calls or macros: an assignment to a cell is the output
6^compile got^cell a = 0;\n++a;\n^got:2:1: error: unexpected `+`: write the assignment in full, as in `a = a + 1;`
6^compile got^cell a = 0;\na = ++a;\n^got:2:5: error: unexpected `+`: write it as a separate statement, as in `a = a + 1;`
6^compile got^cell a = 0;\na = +3;\n^got:2:5: error: unexpected `+`: numbers have no sign
6^compile got^cell a = 0;\na = a * -3;\n^got:2:9: error: unexpected `-`: numbers have no sign: write `0 - 1` for `-1`
0^exec got^var a;\na = 3;\n^got: note: no statement assigns to a cell, so there is no output
0^mean got^cell a = 3;\n^got: note: no statement assigns to a cell, so there is no output
0^exec got^cell a = 0;\na = 3;\n^
6^compile got^```\ncell a = 0;\n```\n^got:1:1: error: this line is a Markdown code fence: remove both fences
6^compile got^PK\x03\x04\x14^got: error: this is a zip archive, not a source: `unzip` unpacks it
7^run got^\x1f\x8b\x08^got: error: this is a gzip file, not an object: `gunzip` unpacks it
7^run got^\x7fELF\x02^got: error: this is an ELF file (code for a processor), not an object: `talft-cc` makes an object from C files
11^campaign five.obj --faults got^\x7fELF\x02^got: error: this is an ELF file (code for a processor), not a fault list
7^check got^TALFT\x02\x01\x01\x01\x05^got: error: the object has no zero bytes, because a text tool removed or replaced them: copy it in binary mode
2^run five.obj --fault 4:r1:6,10:r1:6^^talft: error: invalid fault `4:r1:6,10:r1:6`: expected STEP:SITE:WORD; a run takes one fault; `talft campaign OBJECT --faults FILE` tries each fault of a list
2^run five.obj --fault 4:r1:6 --fault 6:r0:7^^talft: error: `--fault` is given twice: a run takes one fault; `talft campaign OBJECT --faults FILE` tries each fault of a list
2^run five.obj --fault 4:R1:6^^talft: error: invalid fault `4:R1:6`: expected STEP:SITE:WORD; invalid site `R1`: write sites in lower case, as in `r1`
2^run five.obj --fault 4:PCG:6^^talft: error: invalid fault `4:PCG:6`: expected STEP:SITE:WORD; invalid site `PCG`: write sites in lower case, as in `r1`
2^run five.obj --fault 4:out:6^^talft: error: invalid fault `4:out:6`: expected STEP:SITE:WORD; invalid site `out`: a site is r0 to r63, d, pcg, pcb, qa0 to qa7 or qv0 to qv7
2^run five.obj --wild 1, 2^^talft: error: invalid list `1,` for `--wild`: expected at most 4096 answers separated by commas, each a number or `stop`; write it without spaces, as in `1,2`
2^run five.obj --wild 1 2^^talft: error: unexpected argument `2` after the list of `--wild`: write the list without spaces, as in `1,2`
2^mean fibonacci.src --steps 4^^talft: error: unknown option `--steps` for `mean`: it is an option of `run`, `recover`, `exec`, `trial`, `campaign` and `survey`; `mean` takes `--turns`
2^run five.obj --turns 4^^talft: error: unknown option `--turns` for `run`: it is an option of `mean`; `run` takes `--steps`, `--fault` and `--wild`
2^campaign five.obj --fault 4:r1:6^^talft: error: unknown option `--fault` for `campaign`: it is an option of `run`, `recover` and `trial`; `campaign` takes `--steps`, `--wild` and `--faults`
2^compile fibonacci.src fibonacci.obj^^talft: error: unexpected argument `fibonacci.obj` after SOURCE: give only one SOURCE; to write to a file, add `>FILE`
2^dis five.obj five.asm^^talft: error: unexpected argument `five.asm` after OBJECT: give only one OBJECT; to write to a file, add `>FILE`
2^check five.obj mixed.obj^^talft: error: unexpected argument `mixed.obj` after OBJECT: give only one OBJECT
2^run five.obj 4:r1:6^^talft: error: unexpected argument `4:r1:6` after OBJECT: put `--fault` before a fault
2^run five.obj 100^^talft: error: unexpected argument `100` after OBJECT: put `--steps` before the number of steps
2^exec five.src 100^^talft: error: unexpected argument `100` after SOURCE: put `--steps` before the number of steps
2^mean fibonacci.src 100^^talft: error: unexpected argument `100` after SOURCE: put `--turns` before the number of turns
2^check five.obj 100^^talft: error: unexpected argument `100` after OBJECT: give only one OBJECT
2^trial five.obj five.faults^^talft: error: unexpected argument `five.faults` after OBJECT: `talft campaign OBJECT --faults FILE` tries each fault of a list
2^survey five.obj 4:r1:6^^talft: error: unexpected argument `4:r1:6` after OBJECT: `--faults` takes a FILE with one fault per line
6^mean got^3\n4\n^got:1:1: error: unexpected `3`: a source has declarations, such as `cell a = 0;`, and then statements, such as `a = 1;`
6^compile got^var x;\nx = 1;\n3 + 4;\n^got:3:1: error: unexpected `3`: a statement is an assignment, a `while`, or an `if` with or without `else`
0^exec got^cell a = 0;\nvar x;\nx = 50;\nif (10 < x & x < 20) { a = 1; }\n^got:4:16: note: `&`, `|` and `^` bind more tightly than `<` and `==`: write `(a < b) & (c == d)` to test both
0^exec got^cell a = 0;\nvar x;\nif (x == 1 & a == 2) { a = 7; } else { a = 8; }\n^got:3:16: note: `&`, `|` and `^` bind more tightly than `<` and `==`: write `(a < b) & (c == d)` to test both
0^mean got^cell a = 0;\na = a < 1 | a == 2;\n^got:2:15: note: `&`, `|` and `^` bind more tightly than `<` and `==`: write `(a < b) & (c == d)` to test both
0^exec got^cell a = 0;\na = a == 0 == 1;\n^got:2:12: note: this compares the result of the `==` before it, which is 0 or 1; write `(a == b) & (b == c)` to test both
0^exec got^cell a = 0;\na = 1 < 2 < 3;\n^got:2:11: note: this compares the result of the `<` before it, which is 0 or 1; write `(a < b) & (b < c)` to test both
0^mean got^cell a = 0;\nvar x;\nx = 3;\nif (x < 0) { a = 1; } else { a = 2; }\n^got:4:7: note: this comparison is always 0: words have no sign, so none is below 0; compare before you subtract
0^exec got^cell b[3] = 0;\ncell a = 0;\na = b[0 - 1];\n^got:3:7: note: `b` has 3 cells: the index 18446744073709551615 selects cell 0
0^exec got^cell b[3] = 0;\nb[0 - 0] = 1;\nb[1 - 1] = 1;\n^
0^exec got^cell a = 0;\nvar x;\na = (1 < x) & (x < 3) == (0 < x);\na = 1 < x == x < 3;\n^
12^asm got^entry 0\ncell a int 0\n^got:2:1: error: nothing may follow `entry`, which is line 1: move that line to the end
12^asm got^node 0 memory\ntype 0 0\nblock 0\nhalt\nentry 0\nentry 0\n^got:6:1: error: `entry` is there twice: delete this line or line 5
7^asm got^cell a int 0\nnode 0 memory\ntype 0 0\nblock 0\nidx r2 r1 0 5\nhalt\nentry 0\n^got:5:13: error: invalid `5`: cells 0 to 4 are named, but the text has 1 cell
6^compile got^cell a = 0;\na = 1,000;\n^got:2:6: error: unexpected character `,`: numbers have no separators
6^compile got^cell a = 0;\na = max(1,2);\n^got:2:10: error: unexpected character `,`
6^compile got^cell a = 0;\nwhile (a < 1,000) { }\n^got:2:13: error: unexpected character `,`
6^compile got^cell a = 0;\na = 1 >>> 1;\n^got:2:9: error: unexpected character `>`: write `>>`
6^compile got^cell a = 0;\na = 1 and 2;\n^got:2:7: error: unexpected `and`: nest `if`, or write `(a < b) & (c == d)`
6^compile got^cell a = 0;\nif (a < 1 or a == 2) { }\n^got:2:11: error: unexpected `or`: write `(a < b) | (c == d)`
6^compile got^cell a = 0;\na = 1\nand = 2;\n^got:2:6: error: expected `;` after `1`
6^compile got^cell a = 0;\na.x = 3;\n^got:2:2: error: unexpected character `.`
6^compile got^cell a = 0;\na = .5;\n^got:2:5: error: unexpected character `.`: numbers are integers
6^compile got^cell a = 0;\nwhile (a < 3) { break; }\n^got:2:22: error: unexpected `;`: there is no `break` or `continue`: a loop ends when its test is 0
6^compile got^cell a = 0;\nwhile (a < 3) { continue; }\n^got:2:25: error: unexpected `;`: there is no `break` or `continue`: a loop ends when its test is 0
6^compile got^cell a = 0;\nif (a) { } elif (1) { }\n^got:2:17: error: unexpected `(`: write `else { if (..) { .. } }`
2^numbers.src^^talft: error: unknown command `numbers.src`; did you mean `talft exec numbers.src`?
2^five.obj run^^talft: error: unknown command `five.obj`; did you mean `talft run five.obj`?
2^five.asm^^talft: error: unknown command `five.asm`; did you mean `talft asm five.asm`?
0^run five.obj --fault 2000000:r1:1^^five.obj: the fault struck nothing: the run had ended after 14 steps, before step 2000000
0^run five.obj --fault 2000000:r1:1 --steps 3000000^^five.obj: the fault struck nothing: the run had ended after 14 steps, before step 2000000
0^run five.obj --fault 20:r1:1 --steps 20^^five.obj: the fault struck nothing: the run had ended after 14 steps, before step 20
9^run five.obj --fault 12:r1:1 --steps 12^^five.obj: the fault struck nothing: it comes at step 12, and the run is limited to 12 steps (`--steps`)
7^run got^source 7 20\na.src:2:7: error: `totl` is not declared\n out = totl;\n^got: error: this is output of `talft`, not an object: the call that wrote it was refused, or writes no object
3^compile fibonacci^^fibonacci: error: no such file; there is `fibonacci.src`
2^debug five.obj five.script^^talft: error: unexpected argument `five.script` after OBJECT: commands come from standard input: put `<` before the script's name
2^link got out.obj^^talft: error: unexpected argument `out.obj` after MAP: `link` takes one MAP, a text with a line `module FILE` for each object, and writes to standard output
6^mean got^out 5\nout 8\n^got: error: this is output of `talft`, not a source
7^check got^accepted\n^got: error: this is output of `talft`, not an object: the call that wrote it was refused, or writes no object
7^run got^check block 0 index 3 premise 5\n^got: error: this is output of `talft`, not an object: the call that wrote it was refused, or writes no object
11^campaign five.obj --faults got^out 5\n^got: error: this is output of `talft`, not a fault list
2^check five.obj -o x^^talft: error: unknown option `-o` for `check`: it writes to standard output: add `>FILE`
2^check^^talft: error: missing OBJECT after `check`; for standard input write `/dev/stdin`
2^debug^^talft: error: missing OBJECT after `debug`
11^campaign five.obj --faults got^4:r1:6\n\x1a^got:2:1: error: unexpected Ctrl-Z (byte 0x1A), which old editors put at the end of a file: remove it
11^campaign five.obj --faults got^```\n4:r1:6\n```\n^got:1:1: error: this line is a Markdown code fence: remove both fences
0^campaign five.obj --faults five.faults --steps 12^^five.obj: note: the run without a fault was cut after 12 steps: raise `--steps`
0^campaign five.obj --faults five.faults --steps 14^^
3^link got^module a\\b.obj\n^got:1:8: error: `a\b.obj`: no such file; `/` separates folders
3^link got^module ~/b.obj\n^got:1:8: error: `~/b.obj`: there is no folder `~`; `~` is not expanded here: write the whole path
3^link got^module *.obj\n^got:1:8: error: `*.obj`: no such file; `*` and `?` are not expanded here: write the name of each file
13^link got^module five.obj\nentry main\n^got:2:1: error: unexpected `entry`: a run begins at the entry of the first module; leave this line out
12^asm got^     1\tcell out int 0\n^got:1:6: error: unexpected `1`: lines are not numbered: remove the numbers
12^asm got^1: cell out int 0\n^got:1:1: error: unexpected `1:`: lines are not numbered: remove the numbers
12^asm got^$ cell out int 0\n^got:1:1: error: unexpected `$`: this is the prompt of a shell: remove it
12^asm got^> cell out int 0\n^got:1:1: error: unexpected `>`: this marks a prompt or a quotation: remove it
12^asm got^```text\ncell out int 0\n```\n^got:1:1: error: this line is a Markdown code fence: remove both fences
END
for tool in $(ls "$top/tools/bin" | sed "s/^talft-//" | grep -vx campaign); do
  report "the message about $tool as a command" \
    "2: talft: error: unknown command \`$tool\`: that is a separate script, \`talft-$tool\`; see \`man talft-$tool\`" \
    "$(first_said "$tool")"
  report "the script $tool" '' "$(ls "$top/tools/$tool" "$top/man/talft-$tool.1" 2>&1 >/dev/null)"
done

# Where the cells and blocks of an object begin.
sed 's/1048576 ref:int/1048584 ref:int/' "$top/examples/five.asm" >got
"$top/talft" asm got >got.obj 2>said
report 'an address without a cell' '  no cell has the address 1048584: the only cell is at 1048576' \
  "$("$top/talft" check got.obj 2>&1 >answer | tail -n 1)"
{ echo 'cell more int 0'; cat got; } >got.two
"$top/talft" asm got.two >got.obj 2>said
report 'an address without one of two cells' '  no cell has the address 1048584: the cells are at 1048576 to 1048577, one address each' \
  "$("$top/talft" check got.obj 2>&1 >answer | tail -n 1)"
sed 's/ 7 code:1/ 8 code:1/' "$top/examples/loop.asm" >got
"$top/talft" asm got >got.obj 2>said
report 'a code address without a block' '  no block begins at the code address 8; block 1, of code type 1, begins at 7' \
  "$("$top/talft" check got.obj 2>&1 >answer | tail -n 1)"
sed 's/^sub r1 r1 G 1/&\nadd r5 r1 G 0/' "$top/examples/loop.asm" >got
"$top/talft" asm got >got.obj 2>said
report 'a code address just before a block' '  no block begins at the code address 21; block 2, of code type 0, begins at 22' \
  "$("$top/talft" check got.obj 2>&1 >answer | tail -n 1)"
sed 's/ 7 code:1/ 7 code:0/' "$top/examples/loop.asm" >got
"$top/talft" asm got >got.obj 2>said
report 'a block of another code type' '  block 1, at 7, has code type 1' "$("$top/talft" check got.obj 2>&1 >answer | tail -n 1)"
cat five.obj five.obj >got
report 'two objects in one file' '  another object follows its end: `talft link MAP` joins objects, and `cat` does not' \
  "$("$top/talft" check got 2>&1 >answer | tail -n 1)"
{ cat five.obj; echo 'five.src:1:1: note: text'; } >got
report 'text after an object' '  text follows its end: messages belong elsewhere, so redirect only standard output (no `2>&1`)' \
  "$("$top/talft" check got 2>&1 >answer | tail -n 1)"
report 'what a command does' '  write an object in version 2 of the format' "$("$top/talft" upgrade 2>&1 >answer | tail -n 1)"

# An object that a text tool has changed, and a list that is too long.
{ cat five.obj; echo; } >got
first_said run got >answer
report 'an object with a line feed at its end' \
  '  a line feed follows its end; an editor or a text tool may have added it: copy the object in binary mode' "$(sed -n 2p said)"
yes 4:r1:6 | head -n 65537 >got
report 'a list that is too long' \
  '11: got: error: the fault list is too long: at most 65536 lines and 4194304 bytes are allowed; `talft-campaign` splits longer lists' \
  "$(first_said campaign five.obj --faults got)"

# Scripts of the debugger: a file can be read again, and a pipe cannot.
forms='`step N`, `go N`, `back N`, `zap SITE WORD`, `reg R`, `queue`, `cell NAME`, `where`, `break B I`'
echo foo >got
report 'an unknown command in a script' "standard input:1:1: error: unknown command \`foo\`: the commands are $forms" \
  "$("$top/talft" debug five.obj 2>&1 >answer <got | head -n 1)"
report 'an unknown command in a pipe' "standard input: error: a line is not a command: the commands are $forms; \
put the script into a file and add \`<FILE\` to see what is wrong with each line" \
  "$(echo foo | "$top/talft" debug five.obj 2>&1 >answer)"
report 'an unknown command in a pipe, before one that is known' 'standard input: error: a line is not a command' \
  "$(printf 'foo\nstep 4\n' | "$top/talft" debug five.obj 2>&1 >answer | cut -d : -f 1-3)"
report 'what the session writes' 'bad command|at 4 running' "$(paste -sd '|' answer)"
report 'known commands in a pipe' '' "$(echo 'step 4' | "$top/talft" debug five.obj 2>&1 >answer)"
echo 'step 2000000' >got
report 'a number of steps that is too large' \
  'standard input:1:1: error: invalid command: expected `step N`; the largest number here is 1000000' \
  "$("$top/talft" debug five.obj 2>&1 >answer <got | head -n 1)"
report 'a fault list as a script' \
  'standard input: error: this is a fault list, not a debugger script: pass it with `--faults`' \
  "$("$top/talft" debug five.obj 2>&1 >answer <five.faults)"
cd "$work" || exit 2

# Inputs of the wrong kind: pipes, folders, `-` for standard input, and a list that is for another object.
printf '4:r1:6 detected 11\nfaults 1 masked 0 detected 1 idle 0 corrupt 0\n' >stranger.lines
mkdir stranger.folder
piped() { "$top/tools/$1" <(cat "$top/examples/five.obj") "${@:2}" 2>&1 | sed 's,/dev/fd/[0-9]*,PIPE,'; }
for script in faults ending; do
  report "an object from a pipe: $script" \
    "talft-$script: PIPE: is a pipe, but an object is read more than once: give a file" "$(piped $script)"
done
report 'an object from a pipe: campaign' \
  'talft-campaign: PIPE: is a pipe, but an object is read more than once: give a file' \
  "$(piped campaign --faults cut.faults --dir piped.kept)"
report 'an object from a pipe, read once' 'out 0' "$(piped set --list)"
for script in plot report; do
  words=(); [ $script = plot ] || words=(--object "$top/examples/five.obj")
  refuses "a folder for the lines of $script" \
    "talft-$script: stranger.folder: is a folder; give a file with the standard output of \`talft-campaign\`" \
    $script stranger.folder "${words[@]}"
done
of='lines are read more than once: give a file'
report 'lines from a pipe: report' "talft-report: /dev/stdin: is a pipe, but the $of" \
  "$(cat stranger.lines | "$top/tools/report" /dev/stdin --object "$top/examples/five.obj" --out stranger.html 2>&1)"
report 'lines from a pipe: plot' "talft-plot: /dev/stdin: is a pipe, but with --dir the $of" \
  "$(cat stranger.lines | "$top/tools/plot" /dev/stdin --dir cut.kept 2>&1)"
if has gnuplot 'a picture of lines from a pipe'; then
  report 'a picture of lines from a pipe' 'talft-plot: wrote piped.svg
0 piped.svg' \
    "$(cat stranger.lines | "$top/tools/plot" /dev/stdin --out piped.svg 2>&1; echo $? piped.svg)"
fi
misused 'a page without a name' 'talft-report: /dev/stdin: give the page a name with `--out FILE`' \
  report /dev/stdin --object "$top/examples/five.obj"
refuses 'a dash for standard input' \
  'talft-plot: -: no such file; `-` does not mean standard input here: give a file name' plot -
refuses 'a dash for the list' \
  'talft-campaign: -: no such file; `-` does not mean standard input here: give a file name' \
  campaign "$top/examples/five.obj" --faults - --dir dash.kept
refuses 'lines of another object' "talft-report: stranger.lines:1: \`4:r1:6 detected 11\`: on $top/examples/reload.obj this fault is \
masked; give the object of this campaign, and the same --wild" report stranger.lines --object "$top/examples/reload.obj"
echo 999:r1:6 >idle.faults
tool 'a list for another object' 0 '999:r1:6 idle\nfaults 1 masked 0 detected 0 idle 1 corrupt 0\n' \
  campaign "$top/examples/five.obj" --faults idle.faults --steps 100 --dir idle.kept
report 'the note about it' 'talft-campaign: note: idle.faults: no fault of the list struck anything: is it for another object, or '\
'are its steps at or beyond --steps?' "$(tail -n 1 said)"
cp "$top/examples/five.obj" "$top/examples/sieve.src" "$top/tests/c/control.wasm" .
refuses 'an object in place of the lines' \
  'talft-report: five.obj: is an object; give the lines of its campaign first, as in `talft-report LINES --object five.obj`' \
  report five.obj

# `-` is a name like any other; an adapter reads standard input anyway.
no_dash='-: no such file; `-` does not mean standard input here: give a file name'
for words in 'build -' 'cc - -o dash.obj' 'debugger -' 'explain - --fault 4:r1:6' 'lines -' 'wasm2asm -' 'faults -' 'ending -' \
  'set - --list'; do
  # shellcheck disable=SC2086
  refuses "a dash: ${words%% *}" "talft-${words%% *}: $no_dash" $words
done
report 'a dash: dap' \
  'talft-dap: unexpected argument `-`: the editor names the program in its `launch` request; without --port, `talft-dap` '\
'reads standard input anyway' "$("$top/tools/dap" - 2>&1 </dev/null | head -n 1)"

# A full disk: each tool that writes to standard output says so, without a traceback.
full() {
  timeout 60 "$top/tools/$1" "${@:2}" 2>said >/dev/full </dev/null
  printf '%d %s' $? "$(tail -n 1 said)"
}
for words in 'explain five.obj --fault 4:r1:6' 'debugger five.obj' 'lines sieve.src' 'faults five.obj' 'faults five.obj --count' \
  'set five.obj --list' 'set five.obj out=3' 'ending five.obj' 'wasm2asm control.wasm --quiet' \
  'campaign five.obj --faults cut.faults --dir full.kept'; do
  # shellcheck disable=SC2086
  report "standard output to a full disk: ${words:0:20}" "1 talft-${words%% *}: standard output: no space left on the device" \
    "$(full $words)"
done
asked='{"seq":1,"type":"request","command":"threads"}'
report 'standard output to a full disk: dap' '1 talft-dap: standard output: no space left on the device' \
  "$(printf 'Content-Length: %d\r\n\r\n%s' ${#asked} "$asked" | "$top/tools/dap" 2>said >/dev/full
    printf '%d %s' $? "$(tail -n 1 said)")"
# Python may write at once, or when the tool ends.
for script in build campaign cc dap debugger ending explain faults lines plot report set wasm2asm; do
  for unbuffered in '' 1; do
    report "the help of $script to a full disk" "1 talft-$script: standard output: no space left on the device" \
      "$(PYTHONUNBUFFERED=$unbuffered full "$script" --help)"
  done
done

# A cell with the name of the line that `recover` adds: `talft-set --from` cannot tell them apart.
printf 'cell again = 7; cell other = 0; other = other + 1; again = again + 1;\n' >again.src
tool 'a cell called `again` is built' 0 '' build again.src
report 'the note about it' 'talft-build: note: again.obj: the cell `again` has the name of the line that `talft recover` adds to those of '\
'the run: rename the cell' "$(cat said)"
"$top/talft" recover again.obj --fault 4:pcg:0 >again.lines 2>/dev/null
refuses 'lines of `recover` for it' "talft-set: again.lines:$(grep -n '^again' again.lines | head -n 1 | cut -d : -f 1): "\
'`again` is a cell of this object, but also the line that `talft recover` adds: give the lines of `talft run` instead, with --from-run' \
  set again.obj --from again.lines -o next.obj
"$top/talft" run again.obj >again.lines
tool 'lines of `run` for it' 0 '' set again.obj --from-run again.lines -o next.obj
expect 'the next run of it' 0 'other 2\nagain 9\n' run next.obj
misused 'both kinds of lines' 'talft-set: --from and --from-run exclude each other' set again.obj --from again.lines --from-run again.lines
"$top/talft" recover "$top/examples/five.obj" --fault 4:r1:6 >again.lines 2>/dev/null
tool 'the line of `recover` for another object' 0 '' set "$top/examples/five.obj" --from again.lines -o next.obj

# A terminal that is too small for the screen.
if has script 'a small terminal'; then
  report 'a screen on a small terminal' 'talft-debugger: --tui: the terminal has 20 columns and 5 rows, but the screen needs at least '\
'50 columns and 12 rows: enlarge it, or leave --tui out' \
    "$(TERM=xterm timeout 60 script -qec "stty cols 20 rows 5; $top/tools/debugger five.obj --tui 2>small.said" /dev/null \
      </dev/null >answer; cat small.said)"
fi

# What newcomers to the debugger and to campaigns expect of other programs.
report '`run` at the start' 'the run is at its start: `continue` runs it' \
  "$(echo run | "$top/tools/debugger" "$top/examples/five.obj" 2>&1 | tail -n 1)"
report '`r` for registers' '`r` is short for `registers`; `run` goes to the start, and `continue` runs on from here' \
  "$(printf 'r\nr\n' | "$top/tools/debugger" "$top/examples/five.obj" 2>&1 | grep 'short for')"
if has gnuplot 'no note about runs that `talft-report` repeats'; then
  printf '4:r1:6\n' >once.list
  "$top/talft" campaign "$top/examples/five.obj" --faults once.list >once.lines
  report 'no note about runs that `talft-report` repeats' 'talft-report: wrote once.html' \
    "$("$top/tools/report" once.lines --object "$top/examples/five.obj" --out once.html 2>&1)"
fi

# What newcomers give to the tools in a wrong place, of a wrong kind, or not at all. Each row has the status, the arguments and the
# message.
mkdir places && cd places || exit 2
cp "$top/examples/five.obj" "$top/examples/five.asm" "$top/examples/fibonacci.src" "$top/tests/c/control.wasm" .
echo 4:r1:6 >list
printf '4:r1:6 detected 11\nfaults 1 masked 0 detected 1 idle 0 corrupt 0\n' >lines
echo 'module five.obj' >modules
printf 'step 4\nzap r1 6\n' >script
echo 'out 5' >outputs
echo accepted >answer
printf 'some\0bytes\n' >binary
echo 'hello, world' >words
echo 'int x; void run(void) { x = 1; }' >one.c
printf '(module (memory 1))\n' >five.wat
printf '\177ELF\2\1\1' >elf.o
{ echo 'talft-campaign: 0 of 1 faults'; cat lines; } >both
{ cat lines; echo 'talft-campaign: note'; } >noted
: >nothing
mkdir folder damaged
echo '[]' >damaged/campaign.json
while IFS='|' read -r status words message; do
  eval "words=($words)"
  tool "the status of $status: ${words[*]}" "$status" '' "${words[@]}"
  report "the message about ${words[*]}" "talft-${words[0]}: $message" \
    "$(if [ "$status" = 2 ]; then head -n 1 said; else tail -n 1 said; fi)"
done <<'END'
2|explain five.obj 4:r1:6|`4:r1:6` is a fault: put `--fault` before it
2|explain 4:r1:6 five.obj|`4:r1:6` is a fault: put `--fault` before it
2|explain five.obj five.asm --fault 4:r1:6|`five.asm` is an assembly text: put `--text` before it
2|explain five.obj fibonacci.src --fault 4:r1:6|`fibonacci.src` is a source: put `--source` before it
2|ending five.obj 4:r1:6|`4:r1:6` is a fault: put `--fault` before it
2|debugger five.obj 4:r1:6|`4:r1:6` is a fault: put `--fault` before it
2|campaign five.obj list|`list` is a fault list: put `--faults` before it
2|campaign list five.obj|`list` is a fault list: put `--faults` before it
2|campaign five.obj nosuch.faults|`nosuch.faults` is a fault list: put `--faults` before it
2|campaign five.obj nosuch|missing `--faults` before `nosuch`
2|campaign five.obj --faults list folder|`folder` is a folder: put `--dir` before it
2|campaign five.obj --faults 4:r1:6|--faults: `4:r1:6` is a fault; give a file with one fault on each line
2|faults five.obj r1|`r1` is a site: put `--sites` before it
2|faults five.obj list|unexpected argument `list`: the list is written to standard output: add `>FILE`
2|lines fibonacci.src five.obj|`five.obj` is an object: put `--object` before it
2|report lines five.obj|`five.obj` is an object: put `--object` before it
2|report lines folder|`folder` is a folder: put `--dir` before it
2|report lines|missing object: give `--dir DIR`, the folder that `talft-campaign` made, or `--object OBJECT`
2|set five.obj outputs|`outputs` is the output of a run: put `--from` before it
2|wasm2asm control.wasm x.asm|unexpected argument `x.asm`: the text's name comes after `-o`
2|build one.src two.src|unexpected argument `two.src`: give one file at a time; to put modules together, build each, and give a link map
2|build one.src two|unexpected argument `two`: the object's name comes after `-o`
2|set five.obj out = 5|invalid argument `out`: expected NAME=WORD, without spaces
2|set five.obj out= 5|invalid argument `out=`: expected NAME=WORD, without spaces
2|explain five.obj --fault r1:4:6|invalid fault `r1:4:6`: expected STEP:SITE:WORD; the step comes first, then the site
2|debugger five.obj --fault r1:4:6|invalid fault `r1:4:6`: expected STEP:SITE:WORD; the step comes first, then the site
2|debugger --batch five.obj|unknown option `--batch`: without a terminal the debugger ends after the commands
2|debugger --args five.obj|unknown option `--args`: a program has no arguments: `talft-set` changes its inputs
2|debugger -q five.obj|unknown option `-q`: leave it out: there is no banner
2|debugger -x script five.obj|unknown option `-x`: commands come after `-c`, or from standard input
2|cc one.c -ltalft -o x|unknown option `-ltalft`: there are no libraries; `talft-cc` makes talft objects; for a program of this machine use gcc or cc
2|cc one.c -L. -o x|unknown option `-L.`: there are no libraries; `talft-cc` makes talft objects; for a program of this machine use gcc or cc
1|cc one.c nosuch/libtalft.a -o x|nosuch/libtalft.a: `talft-cc` makes talft objects; for a program of this machine use gcc or cc; `make library` makes libtalft.a
1|cc one.c elf.o -o x|elf.o: `talft-cc` makes talft objects; for a program of this machine use gcc or cc
1|cc one.c nosuch.so.1 -o x|nosuch.so.1: `talft-cc` makes talft objects; for a program of this machine use gcc or cc
1|lines lines|lines: is the output of a campaign; expected a source
1|lines list|list: is a fault list; expected a source
1|debugger lines|lines: is the output of a campaign; expected an object, an assembly text or a source
1|explain outputs --fault 4:r1:6|outputs: is the output of a run; expected an object, an assembly text or a source
1|debugger modules|modules: is a link map; expected an object, an assembly text or a source
1|wasm2asm five.wat|five.wat: offset 0x0: is not a WebAssembly module of version 1; this is its text: make a module with wat2wasm
1|plot both|both:1: `talft-campaign: 0 of 1 faults`: this is what `talft-campaign` writes to standard error: redirect only standard output, without `2>&1`
1|report both --object five.obj|both:1: `talft-campaign: 0 of 1 faults`: this is what `talft-campaign` writes to standard error: redirect only standard output, without `2>&1`
1|plot noted|noted:3: `talft-campaign: note`: this is what `talft-campaign` writes to standard error: redirect only standard output, without `2>&1`
2|cc one.c x.obj|missing `-o` before `x.obj`
2|cc one.c -o x.obj two.c|unexpected argument `two.c`: put all files next to each other
1|faults list|list: is a fault list; expected an object
1|faults fibonacci.src|fibonacci.src: is a source; `talft compile` turns it into an object
1|faults five.asm|five.asm: is an assembly text; `talft asm` turns it into an object
1|ending modules|modules: is a link map; `talft link` turns it into an object
1|ending script|script: is a debugger script; expected an object
1|set answer out=1|answer: is an answer of `talft`; expected an object
1|set outputs out=1|outputs: is the output of a run; expected an object
1|campaign lines --faults list|lines: is the output of a campaign; expected an object
1|campaign list --faults five.obj|list: is a fault list; expected an object
1|campaign binary --faults list|binary: is a binary file; expected an object
1|campaign words --faults list|words: is not an object; `talft compile`, `talft asm` and `talft-cc` make objects
1|plot lines --object control.wasm|control.wasm: is a WebAssembly module; `talft-cc` turns it into an object
1|report lines --object one.c|one.c: is a C program; `talft-cc` turns it into an object
1|report lines --object five.obj --source list|list: is a fault list; expected a source
1|report answer --object five.obj|answer:1: this is an answer of `talft`: expected the lines that a campaign writes
1|plot fibonacci.src|fibonacci.src:1: this is a source: expected the lines that a campaign writes
1|lines fibonacci.src --object list|list: is a fault list; expected an object
1|set five.obj --from five.obj|five.obj:1: this is an object: expected NAME VALUE, as `talft run` writes it
1|build list|list: is a fault list; expected a .src, .asm or .map file
1|cc list -o x.obj|list: is a fault list; expected C files, or one .wasm module
1|wasm2asm control.wasm --map list|--map: list: is not a map of wasm-ld; link with -Wl,-Map=FILE
1|campaign five.obj --faults five.obj --dir list|five.obj: is an object; expected a fault list
1|campaign five.obj --faults fibonacci.src --dir damaged|fibonacci.src: is a source; expected a fault list
1|campaign five.obj --faults nosuch --dir list|nosuch: no such file
1|campaign five.obj --faults list --dir damaged|damaged/campaign.json: is damaged: remove the folder
1|report lines --dir damaged|damaged/campaign.json: is damaged, or was not written by `talft-campaign`
2|campaign five.obj --faults list --dir ''|`--dir` needs a value, DIR
2|ending five.obj --fault ''|`--fault` needs a value, STEP:SITE:WORD
2|ending five.obj --fault -1:r1:6|--fault: invalid fault `-1:r1:6`: expected STEP:SITE:WORD; the step `-1` is not a decimal number below 2^64
2|cc control.wasm -o x.obj --entry ''|`--entry` needs a value, NAME
2|wasm2asm control.wasm -o ''|`-o` needs a value, TEXT
2|faults five.obj --flip 0-99999999999999999999|--flip: invalid bit in `0-99999999999999999999`: the bits of a word are 0 to 63
2|faults five.obj --sample 999999999999999999999|`--sample`: invalid number `999999999999999999999`: expected at most 20 digits
2|set five.obj out=x|`out`: invalid number `x`: expected decimal digits, or hex after 0x
2|plot lines lines --dir folder|give --dir or --object once for each file of lines, or not at all
2|plot lines --title a --title b|more titles than files of lines: give --title at most once for each file
2|plot --version|unknown option `--version`: `talft --version` gives the version
END
report 'no folder is made for a list that is refused' 'damaged folder' \
  "$(find . -mindepth 1 -type d | sed 's,./,,' | sort | paste -sd ' ')"
report 'wrong use has two lines' '`talft-set --help` lists the arguments and options' "$("$top/tools/set" five.obj out=x 2>&1 | sed 1d)"

# An input that is also the standard output: the shell has emptied it, or appends to it.
written_over() {
  local name=$1 message=$2 file=$3
  shift 3
  cp "$file" over
  "$top/tools/$1" "${@:2}" >over 2>said </dev/null
  report "$name" "1 talft-$1: over: is empty: it is also the standard output, and the shell emptied it; make it again, and $message" \
    "$? $(cat said)"
}
written_over 'a list written over' 'write the lines to another file' list campaign five.obj --faults over --dir over.kept
written_over 'an object written over by set' 'write `-o over`' five.obj set over out=5
written_over 'lines written over by set' 'write to another file' outputs set five.obj --from over
written_over 'an object written over by faults' 'write to another file' five.obj faults over
written_over 'an object written over by ending' 'write to another file' five.obj ending over
written_over 'a source written over by lines' 'write to another file' fibonacci.src lines over
written_over 'a program written over by explain' 'write to another file' five.obj explain over --fault 4:r1:6
written_over 'a module written over by wasm2asm' 'write to another file' control.wasm wasm2asm over
cp list over
report 'a list that the lines would follow' '1 talft-campaign: over: is also the standard output; write the lines to another file' \
  "$("$top/tools/campaign" five.obj --faults over --dir over.kept 2>said >>over; echo "$? $(cat said)")"
report 'the list after that' 4:r1:6 "$(cat over)"
report 'no folder of such a campaign' '' "$(ls -d over.kept 2>/dev/null)"

# Another campaign in the same folder: what differs.
"$top/tools/campaign" five.obj --faults list --steps 20 --dir same >answer 2>said
while IFS='|' read -r words differs; do
  # shellcheck disable=SC2086
  refuses "a campaign with $words" "talft-campaign: same: holds a campaign with $differs: give another --dir, or, if its verdicts are no \
longer needed, remove the folder" campaign five.obj --faults list --dir same $words
done <<'END'
--steps 30|another --steps (20)
--steps 20 --wild 5|another --wild (none)
--steps 30 --survey|another command (campaign) and another --steps (20)
END

# Targets and variables of other projects. They are refused before anything is proved.
mkdir no_kit && printf '#!/bin/sh\nexit 1\n' >no_kit/rt && chmod +x no_kit/rt
made_wrong() { PATH=$PWD/no_kit:$PATH timeout 20 env -u MAKEFLAGS -u MAKELEVEL make -C "$top" --no-print-directory "$@" 2>&1 </dev/null | sed 's/^Makefile:[0-9]*: //'; echo "${PIPESTATUS[0]}"; }
while IFS='|' read -r words message; do
  # shellcheck disable=SC2086
  report "make $words" "$(printf '*** %s.  Stop.\n2' "$message")" "$(made_wrong $words)"
done <<'END'
test|unknown target `test`: `make check` runs the tests
instal|unknown target `instal`: expected all, program, program-aarch64, check, wrong-bodies, library, install, install-program, install-library, uninstall, dist, deb, evidence, same-bytes, site, clean, help
install prefix=/tmp/x|unknown variable `prefix`: write PREFIX=DIR
uninstall prefix=/tmp/x|unknown variable `prefix`: write PREFIX=DIR
install libdir=/tmp/x|unknown variable `libdir`: write PREFIX=DIR
ARCH=arm64|unknown processor `arm64`: expected x86_64 or aarch64
library ARCH=arm64|unknown processor `arm64`: expected x86_64 or aarch64
library HEAP=Arena|unknown HEAP `Arena`: expected heap or arena
END
report 'an unknown HEAP of the script' '2 talft: error: unknown HEAP `Arena`: expected heap or arena' \
  "$(PATH=$PWD/no_kit:$PATH HEAP=Arena bash "$top/build/library.sh" >said 2>&1; echo "$? $(cat said)")"
report 'the targets that make help names' '' "$(made_wrong help >said
  for target in $(sed -n '/^targets = /,/[^\]$/p' "$top/Makefile" | sed 's/^targets = //; s/\\$//'); do
    grep -qw -e "$target" said || [ "$target" = help ] || [ "$target" = program-aarch64 ] || echo "$target"
  done)"
report 'both are made before anything is installed' 'build/prove.sh build/library.sh install' \
  "$(made_wrong -n install DESTDIR=/tmp/x | grep -oE '^(install|bash build/prove.sh|HEAP=heap bash build/library.sh)' |
    sed 's/.*bash //' | uniq | paste -sd ' ')"

# What the tools wrote, and an answer that was changed.
if has gnuplot 'what the tools wrote'; then
  "$top/tools/plot" lines 2>said
  report 'the pictures that are written' 'talft-plot: wrote picture.png and picture.svg' "$(cat said)"
fi
"$top/tools/campaign" five.obj --faults list --dir changed >answer 2>said
echo changed >changed/000000.answer
refuses 'an answer that was changed' \
  'talft-campaign: changed/000000.answer: is damaged: remove it, and run the same command again' \
  campaign five.obj --faults list --dir changed

# Programs that are not `talft`.
printf '#!/bin/sh\nexit 70\n' >unproved
printf '#!/bin/sh\necho some words\n' >another
chmod +x unproved another
TALFT=$PWD/unproved refuses 'a program that is not proved' 'talft-plot: five.obj: status 70, not proved yet' plot lines --object five.obj
TALFT=$PWD/another refuses 'another program' 'talft-build: x.obj: `talft check`: status 0' build five.asm -o x.obj
report 'no object of another program' '' "$(ls x.obj 2>/dev/null)"
report 'another program that explains' \
  "talft-explain: unexpected IndexError in listing.py: if $PWD/another is not the \`talft\` of these tools, \
set \$TALFT; otherwise report it" \
  "$(TALFT=$PWD/another "$top/tools/explain" five.obj --fault 4:r1:6 2>&1 | sed 's/ line [0-9]*:/:/')"

# On a terminal, a tool that reads standard input says so.
if has script 'tools that read from a terminal'; then
  report 'the lines of a run from a terminal' 'talft-set: reading the lines of a run from standard input, until Ctrl-D' \
    "$(timeout 60 script -qec "$top/tools/set five.obj --from - --list" /dev/null </dev/null | tr -d '\r' | grep -m 1 '^talft-set')"
  report 'the adapter on a terminal' "talft-dap: waiting for an editor's requests on standard input; Ctrl-C ends it" \
    "$(timeout 60 script -qec "timeout 2 $top/tools/dap" /dev/null </dev/null | tr -d '\r' | grep '^talft-dap: waiting')"
fi

# Ctrl-C while the adapter waits for an editor.
report 'Ctrl-C in the adapter' '1 talft-dap: interrupted' \
  "$(timeout --preserve-status -k 5 -s INT 2 env --default-signal=INT "$top/tools/dap" 2>said < <(sleep 10)
    echo "$? $(cat said)")"
cd "$work" || exit 2
