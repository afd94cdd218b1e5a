# What the tools say about mistakes that people make: each message says what is wrong, where, and what to do about it.

mkdir mistakes && cd mistakes || exit 2
cp "$top/examples/five.obj" five.obj
cp "$top/examples/five.asm" five.asm
cp "$top/examples/unknown.src" unknown.src
cp "$top/examples/indexed.obj" other.obj
cp "$top/examples/count.asm" other.asm
echo 'var a; a = 1;' >one.src
printf '4:r1:6\n' >list
printf '4:r1:6\n4:r64:6\n' >bad
printf '4:r1:6 detected 11\nfaults 1 masked 0 detected 1 idle 0 corrupt 0\n' >lines
echo 'faults 0 masked 0 detected 0 idle 0 corrupt 0' >none
cat lines lines >twice
head -n 1 lines >cut
: >empty
echo 'int x; void run(void) { x = 1; }' >one.c
"$top/tools/faults" five.obj --sample 1 --about list.about >one.list 2>said
printf '# Facts.\n[types] %064d\n' 0 >types.about
mkdir folder kept
echo '{' >kept/campaign.json
five_sites='r0 to r63, d, pcg, pcb, qa0 to qa7 and qv0 to qv7'

# Each row has the status, the arguments and the message: for status 2 it is the first line, for status 1 the last.
while IFS='|' read -r status words message; do
  # shellcheck disable=SC2086
  tool "the status of $words" "$status" '' $words
  report "the message about $words" "$message" "$(if [ "$status" = 2 ]; then head -n 1 said; else tail -n 1 said; fi)"
done <<END
2|build|talft-build: missing FILE
2|build five.asm --uncheked|talft-build: unknown option \`--uncheked\`; did you mean \`--unchecked\`?
2|build five.asm one.src|talft-build: unexpected argument \`one.src\`: give one file at a time; to put modules together, build each, and give a link map
2|debugger five.obj list|talft-debugger: unexpected argument \`list\`: commands come after \`-c\`, or from standard input
2|debugger five.asm -x e1|talft-debugger: unknown option \`-x\`: commands come after \`-c\`, or from standard input
2|debugger -ex run five.asm|talft-debugger: unknown option \`-ex\`: commands come after \`-c\`, or from standard input
2|campaign five.obj -j4 --faults list|talft-campaign: unknown option \`-j4\`; did you mean \`--jobs 4\`?
2|campaign five.obj -j 4 --faults list|talft-campaign: unknown option \`-j\`; did you mean \`--jobs\`?
2|campaign five.obj -x4 --faults list|talft-campaign: unknown option \`-x4\`
2|plot lines --out p --format jpg|talft-plot: unknown option \`--format\`: --out NAME.png or NAME.svg chooses the format
2|cc one.c -o x.obj -s|talft-cc: unknown option \`-s\`; only \`-O\`, \`-I\`, \`-D\`, \`-U\`, \`-W\`, \`-f\`, \`-g\`, \`-m\`, \`-std=\` and \`-w\` are passed on
2|build five.asm -o a.obj -o b.obj|talft-build: \`-o\` is given twice
2|build five.asm -o|talft-build: \`-o\` needs a value, OBJECT
2|build five.asm —unchecked|talft-build: \`—unchecked\` begins with a typographic dash: write \`--unchecked\`
1|build nosuch.src|talft-build: nosuch.src: no such file
1|build nofolder/a.src|talft-build: nofolder/a.src: there is no folder \`nofolder\`
1|build folder|talft-build: folder: is a folder
1|build /dev/null|talft-build: /dev/null: unknown kind of file; expected a name that ends in .src, .asm or .map
1|build five.obj|talft-build: five.obj: is already an object; expected a .src, .asm or .map file
1|build one.c|talft-build: one.c: use \`talft-cc\` for C and for WebAssembly modules
1|build five.asm -o nofolder/x|talft-build: nofolder/x: there is no folder \`nofolder\`
1|build five.asm -o folder|talft-build: folder: is a folder; give the output a file name
1|build five.asm -o /dev/null|talft-build: /dev/null: is not a regular file, so no object can replace it
1|build unknown.src|talft-build: unknown.src: refused by \`talft compile\`: source 7 20
2|campaign five.obj|talft-campaign: missing \`--faults FILE\`
2|campaign five.obj --falts list|talft-campaign: unknown option \`--falts\`; did you mean \`--faults\`?
2|campaign five.obj --faults list --engine loca|talft-campaign: \`--engine\`: unknown value \`loca\`: expected \`local\`, \`parallel\` or \`slurm\`; did you mean \`local\`?
2|campaign five.obj --faults list --steps 0|talft-campaign: \`--steps\`: invalid number \`0\`: expected 1 to 1000000
2|campaign five.obj --faults list --wild 5,z|talft-campaign: \`--wild\`: invalid answers \`5,z\`: expected at most 4096 parts separated by commas, each a number or \`stop\`
1|campaign five.obj --faults list --dir list|talft-campaign: --dir: list: is a file; give a folder, or the name of a new one
1|campaign five.obj --faults list --dir kept|talft-campaign: kept/campaign.json: is damaged: remove the folder
2|campaign five.obj --faults list --hosts a|talft-campaign: --hosts needs --engine parallel
1|campaign five.asm --faults list|talft-campaign: five.asm: is an assembly text; \`talft asm\` turns it into an object
1|campaign empty --faults list|talft-campaign: empty: is empty; expected an object
1|campaign five.obj --faults bad --dir bad.kept|talft-campaign: bad:2: invalid fault \`4:r64:6\`: expected STEP:SITE:WORD; the site \`r64\` is not one of $five_sites
1|campaign five.obj --faults five.obj --dir object.kept|talft-campaign: five.obj: is an object; expected a fault list
1|faults nosuch.obj|talft-faults: nosuch.obj: no such file
1|faults one.src|talft-faults: one.src: is a source; \`talft compile\` turns it into an object
1|faults list|talft-faults: list: is a fault list; expected an object
2|faults five.obj --sample -1|talft-faults: \`--sample\`: invalid number \`-1\`: expected a whole number, at least 0
2|faults five.obj --sample 1 --sample 2|talft-faults: \`--sample\` is given twice
2|faults five.obj --count --about x|talft-faults: --count and --about cannot be combined: --count writes no list
1|campaign five.obj --faults list.about|talft-campaign: list.about: is the file of \`talft-faults --about\`; expected a fault list
1|campaign five.obj --faults types.about|talft-campaign: types.about: is a text about an object (NAME.about); expected a fault list
1|faults five.obj --about five.obj|talft-faults: five.obj: is an input; give the output another name
1|campaign five.obj --faults list --database five.asm|talft-campaign: --database: five.asm: is not an SQLite database; give another file
1|campaign five.obj --faults list --database nofolder/x|talft-campaign: nofolder/x: there is no folder \`nofolder\`
2|faults five.obj –sites r1|talft-faults: \`–sites\` begins with a typographic dash: write \`--sites\`
2|cc one.c –o x.obj|talft-cc: \`–o\` begins with a typographic dash: write \`-o\`
2|faults five.obj --out list|talft-faults: unknown option \`--out\`: talft-faults writes to standard output: add \`>FILE\`
1|faults five.obj/x|talft-faults: five.obj/x: \`five.obj\` is not a folder
1|faults five|talft-faults: five: no such file; did you mean \`five.obj\` or \`five.asm\`?
1|build five.asm -o five.obj/x/y|talft-build: five.obj/x/y: \`five.obj\` is not a folder
1|build nofolder/a/b.src|talft-build: nofolder/a/b.src: there is no folder \`nofolder\`
2|plot lines --out x.jpg|talft-plot: --out: x.jpg: a picture is SVG or PNG: expected a name that ends in .svg or .png
2|report lines --object five.obj --out x.pdf|talft-report: --out: x.pdf: the page is HTML: expected a name that ends in .html
2|set out=5 five.obj|talft-set: missing OBJECT before \`out=5\`
1|plot nosuch|talft-plot: nosuch: no such file
1|plot folder|talft-plot: folder: is a folder; give a file with the standard output of \`talft-campaign\`
1|plot empty|talft-plot: empty: is empty; expected the lines of a campaign
1|plot /dev/null|talft-plot: /dev/null: is empty; expected the lines of a campaign
1|plot none|talft-plot: none: has no faults to draw: its campaign had an empty list
1|plot list|talft-plot: list:1: \`4:r1:6\` is a fault without a verdict: run \`talft-campaign\` over the list, and give the lines that it writes
1|plot five.obj|talft-plot: five.obj:1: this is an object: expected the lines that a campaign writes
1|plot twice|talft-plot: twice:3: unexpected \`4:r1:6 detected 11\` after the totals; give one file for each campaign
1|plot cut|talft-plot: cut:2: missing last line \`faults ..\`, with the totals: the file is incomplete
1|plot lines --out nofolder/x|talft-plot: nofolder/x.png: there is no folder \`nofolder\`
2|plot lines --out .|talft-plot: --out: .: expected a file name
1|plot lines --dir folder|talft-plot: --dir: folder: holds no campaign (no campaign.json); give the folder that \`talft-campaign\` made, or the object with --object
2|plot lines --dir kept --object five.obj|talft-plot: --dir and --object cannot be combined
1|plot lines --object list|talft-plot: list: is a fault list; expected an object
1|report lines --dir .|talft-report: --dir: .: holds no campaign (no campaign.json); give the folder that \`talft-campaign\` made, or the object with --object
1|report lines --dir nosuch|talft-report: --dir: nosuch: no such folder; give the folder that \`talft-campaign\` made
1|report lines --dir list|talft-report: --dir: list: is not a folder; give the folder that \`talft-campaign\` made
1|report lines --dir kept|talft-report: kept/campaign.json: is damaged, or was not written by \`talft-campaign\`
1|report none --object five.obj|talft-report: none: has no faults to show: its campaign had an empty list
1|report lines --object five.obj --out folder|talft-report: folder: is a folder; give the output a file name
1|report lines --object five.obj --source one.src|talft-report: one.src: is not the source of five.obj: the instructions differ
1|plot lines --object other.obj|talft-plot: lines:1: \`4:r1:6 detected 11\`: on other.obj this fault is masked; give the object of this campaign, and the same --wild
2|plot lines --wild stop|talft-plot: --wild needs --object
1|report lines --object other.obj|talft-report: lines:1: \`4:r1:6 detected 11\`: on other.obj this fault is masked; give the object of this campaign, and the same --wild
2|explain five.obj|talft-explain: missing \`--fault STEP:SITE:WORD\`
1|explain folder --fault 4:r1:6|talft-explain: folder: is a folder
1|explain empty --fault 4:r1:6|talft-explain: empty: is empty; expected an object, an assembly text or a source
2|explain five.obj --fault 4:r1|talft-explain: invalid fault \`4:r1\`: expected STEP:SITE:WORD, such as 4:r1:6
1|explain five.obj --fault 4:r1:6 --steps 3|talft-explain: --fault 4:r1:6: nothing was struck: the run was cut after 3 steps: raise --steps
1|lines five.asm|talft-lines: five.asm: is an assembly text, not a source; give the source, and the object with --object
1|debugger nosuch|talft-debugger: nosuch: no such file
1|debugger /dev/null|talft-debugger: /dev/null: is empty; expected an object, an assembly text or a source
2|debugger five.obj --comand step|talft-debugger: unknown option \`--comand\`; did you mean \`--command\`?
2|dap --port 70000|talft-dap: \`--port\`: invalid number \`70000\`: expected 0 to 65535
2|ending five.obj --steps ten|talft-ending: \`--steps\`: invalid number \`ten\`: expected a whole number, at least 1
1|ending five.obj --fault 40:r1:1 --steps 20|talft-ending: --fault: step 40 is not within the 20 steps of the run: raise --steps
2|ending five.obj --fault 4,r1,6|talft-ending: --fault: invalid fault \`4,r1,6\`: expected STEP:SITE:WORD; its parts are separated by \`:\`
2|ending five.obj --fault r1:4:6|talft-ending: --fault: invalid fault \`r1:4:6\`: expected STEP:SITE:WORD; the step comes first, then the site
2|ending five.obj --fault 4:R1:6|talft-ending: --fault: invalid fault \`4:R1:6\`: expected STEP:SITE:WORD; write sites in lower case, as \`r1\`
1|ending five.obj --text nosuch|talft-ending: nosuch: no such file
1|ending five.obj --text other.asm|talft-ending: --text: other.asm: is not the text of five.obj; give the one that \`talft-cc --text\` wrote for it
1|ending five.obj --text other.obj|talft-ending: other.obj: error: this is an object, not an assembly text: \`talft dis FILE\` writes its assembly text
1|set five.obj --from lines -o lines|talft-set: lines: is an input; give the output another name
2|set|talft-set: missing OBJECT
2|set five.obj|talft-set: missing NAME=WORD, \`--from FILE\` or \`--list\`
2|set five.obj out|talft-set: invalid argument \`out\`: expected NAME=WORD
2|set five.obj =3|talft-set: invalid argument \`=3\`: expected NAME=WORD
1|set five.obj ou=1|talft-set: five.obj: unknown cell \`ou\`; did you mean \`out\`?; --list lists the cells
1|set empty out=1|talft-set: empty: is empty; expected an object
2|wasm2asm|talft-wasm2asm: missing MODULE.wasm
1|wasm2asm folder|talft-wasm2asm: folder: is a folder
1|wasm2asm one.c|talft-wasm2asm: one.c: offset 0x0: is not a WebAssembly module of version 1; give the output of wasm-ld; \`talft-cc\` takes C
2|cc|talft-cc: missing FILE and \`-o OBJECT\`
2|cc one.c -o x.obj --stack 7|talft-cc: \`--stack\`: invalid number \`7\`: expected a multiple of 16 from 16 to 65536
2|cc one.c|talft-cc: missing \`-o OBJECT\`, as in \`talft-cc one.c -o one.obj\`
2|cc one.c -o x.obj -Wl,-z,stack-size=4096|talft-cc: \`-Wl,-z,stack-size=4096\`: use \`--stack BYTES\`
2|cc one.c -o x.obj -lm|talft-cc: unknown option \`-lm\`: there are no libraries; \`talft-cc\` makes talft objects; for a program of this machine use gcc or cc
2|cc one.c -o x.obj --target=x86|talft-cc: unknown option \`--target\`: the target is always wasm32
2|cc one.c -o x.obj --stak 16|talft-cc: unknown option \`--stak\`; did you mean \`--stack\`?
1|cc one.c one.c -o x.obj|talft-cc: one.c: is given twice
1|cc one.c -o nofolder/x.obj|talft-cc: nofolder/x.obj: there is no folder \`nofolder\`
1|cc one.c -o x.obj --text x.obj|talft-cc: x.obj: is given for two outputs; give each its own name
1|cc five.asm -o x.obj|talft-cc: five.asm: is an assembly text: use \`talft-build\`; expected C files, or one .wasm module
1|cc one.src -o x.obj|talft-cc: one.src: is a source: use \`talft-build\`; expected C files, or one .wasm module
1|cc five.obj -o x.obj|talft-cc: five.obj: is already an object; expected C files, or one .wasm module
1|cc /dev/null -o x.obj|talft-cc: /dev/null: is empty; expected C files, or one .wasm module
1|cc nosuch.c -o x.obj|talft-cc: nosuch.c: no such file
END
TALFT=$PWD/folder refuses 'a folder as the program' \
  "talft-faults: $PWD/folder: is a folder; set \$TALFT to the program \`talft\`, or add its folder to PATH" faults five.obj
report 'no file is made' '' "$(ls x.obj ./*.new nofolder 2>/dev/null)"

# Clang's messages are passed on and explained. A stand-in for clang prints them.
cat >clang <<'END'
#!/bin/sh
case "$*" in *runtime.c*) exit 0 ;; esac
cat "$CLANG_SAYS" >&2
exit 1
END
chmod +x clang
printf "one.c:1:10: fatal error: 'stdio.h' file not found\n" >stdio
printf "one.c:1:10: fatal error: 'string.h' file not found\n" >string
printf "one.c:1:10: fatal error: 'mine.h' file not found\n" >mine
printf 'wasm-ld: error: /tmp/a.o: undefined symbol: printf\nwasm-ld: error: /tmp/a.o: undefined symbol: exit\n' >symbols
printf "clang: error: unable to execute command: Executable \"wasm-ld\" doesn't exist!\n" >linker
refuses_clang() {
  CLANG=$PWD/clang CLANG_SAYS=$PWD/$1 refuses "the message $1 of clang" "talft-cc: clang cannot compile or link one.c: its messages are above; $2" \
    cc one.c -o x.obj
  report "the message $1 of clang itself" '' "$(diff <(head -n -1 said) "$1")"
}
refuses_clang stdio 'there is no C library: do without `stdio.h`; outputs are stores to global variables (docs/C.md)'
refuses_clang string 'there is no C library: do without `string.h`; declare `memcpy`, `memmove`, `memset`, `memcmp` and `strlen` '\
'yourself: they are linked (docs/C.md)'
refuses_clang mine '`mine.h` is not found: give its folder with -I'
refuses_clang symbols \
  '`printf` and `exit` are not defined: add the C file that defines them, or do without: there is no C library (docs/C.md)'
printf 'wasm-ld: error: /tmp/a.o: undefined symbol: puts\n' >puts
refuses_clang puts '`puts` is not defined: add the C file that defines it, or do without: there is no C library (docs/C.md); '\
'clang calls `puts` for some calls of `printf`'
refuses_clang linker 'the linker wasm-ld is not found: install lld'
echo 'clang: error: unable to make temporary file: No such file or directory' >unable
CLANG=$PWD/clang CLANG_SAYS=$PWD/unable TMPDIR=/nonexistent refuses 'a missing TMPDIR' \
  'talft-cc: clang cannot make a temporary file: TMPDIR is `/nonexistent`: set it to a writable folder' cc one.c -o x.obj
CLANG=$PWD/clang CLANG_SAYS=$PWD/unable TMPDIR='' TMP='' TEMP='' TEMPDIR='' refuses '/tmp, which cannot be written' \
  'talft-cc: clang cannot make a temporary file: /tmp cannot be written: set TMPDIR to a writable folder' cc one.c -o x.obj
printf '#!/bin/sh\ncase $* in *print-resource-dir) echo /nonexistent;; *) echo "error: a.o: undefined symbol: $SYMBOL" >&2; exit 1;; esac\n' >linker
chmod +x linker
for symbol in __multi3 __udivti3 __addtf3 __floattidf; do
  SYMBOL=$symbol CLANG=$PWD/linker refuses "$symbol without compiler-rt" "talft-cc: operations on 128 bits ($symbol) need compiler-rt for wasm32: \
install libclang-rt-14-dev-wasm32 (for clang 14), or use integers of at most 64 bits" cc one.c -o x.obj
done
SYMBOL=__timer CLANG=$PWD/linker refuses 'a function that is not of compiler-rt' 'talft-cc: clang cannot compile or link one.c: its messages are '\
'above; `__timer` is not defined: add the C file that defines it, or do without: there is no C library (docs/C.md)' cc one.c -o x.obj
"$top/tools/build" five.asm -o given.obj >redirected 2>said
report 'nothing to say about an object with a name' '' "$(cat said)"
"$top/tools/build" five.asm >redirected 2>said
report 'the object that is written' 'talft-build: wrote five.obj, and nothing to standard output' "$(cat said)"
if has clang 'the functions of a C file' && has wasm-ld 'the functions of a C file'; then
  printf 'int x;\nint foo(void) { return x + 1; }\nvoid step(int a) { x = a; }\n' >two.c
  echo 'static int x;' >nothing.c
  printf '#include "five.h"\nvolatile long long x;\nvoid run(void) { x = FIVE + ONE; }\n' >parted.c
  echo '#define FIVE 5' >folder/five.h
  tool 'options of clang in two words' 0 '' cc -I folder -D ONE=1 parted.c -o parted.obj
  expect 'what they say' 0 'x 6\n' run parted.obj
  TMPDIR=/nonexistent refuses 'a TMPDIR that clang does not find' \
    'talft-cc: clang cannot make a temporary file: TMPDIR is `/nonexistent`: set it to a writable folder' cc two.c -o x.obj
  refuses 'a C file without an entry' 'talft-cc: two.c: defines no function `run` or `main`; use --entry with `foo` or `step`' \
    cc two.c -o x.obj
  refuses 'an entry that is misspelled' 'talft-cc: two.c: defines no function `fooo`; did you mean `foo`?' \
    cc two.c --entry fooo -o x.obj
  refuses 'an entry with a parameter' \
    'talft-cc: two.c: function step: offset 0x38: the entry takes 1 parameter; no arguments can be passed: name a function '\
'without parameters, such as `int main(void)`; inputs are global variables' \
    cc two.c --entry step -o x.obj
  printf 'volatile int x;\nint main(int argc, char **argv) { x = argc; return 0; }\n' >main.c
  refuses 'a main with arguments' \
    'talft-cc: main.c: function main: offset 0x46: the entry takes 2 parameters; no arguments can be passed: name a function '\
'without parameters, such as `int main(void)`; inputs are global variables' cc main.c -o x.obj
  printf 'volatile double x = 2.0, y;\nvoid run(void) { y = __builtin_sqrt(x); }\n' >root.c
  refuses 'a square root' 'talft-cc: root.c: function run: offset 0x42: a floating-point instruction (f64.sqrt); compiler-rt has no square root: '\
'write it with + - * / and comparisons, or use integers' cc root.c -o x.obj
  printf 'volatile double x = 2.0, y;\nvoid run(void) { y = x * 3; y = __builtin_floor(y); }\n' >down.c
  refuses 'rounding' 'talft-cc: down.c: function run: offset 0x5e: a floating-point instruction (f64.floor); compiler-rt has no rounding: '\
'write it with + - * / and comparisons, or use integers' cc down.c -o x.obj
  clang --target=wasm32 -c -O2 one.c -o one.o
  tool 'an object of clang' 0 '' cc one.o -o of_clang.obj
  printf 'volatile int x;\nvoid run(void) { while (1) x = x + 1; }\n' >endless.c
  tool 'an endless C program' 0 '' cc endless.c --steps 1000 -o endless.obj
  report 'the message about an endless C program' \
    'talft-cc: note: endless.obj: the run was cut after 1000 steps; a larger --steps verifies more; a program that never '\
'ends is always cut' \
    "$(tail -n 1 said)"
  printf 'int x;\nvoid run(void) { int a[1000]; for (int i = 0; i < 1000; i++) a[i] = i; x = a[x]; }\n' >large.c
  tool 'an array that is larger than the stack' 0 '' cc large.c --steps 1000 -o large.obj
  report 'the message about an array that is larger than the stack' 'if the stack is too small, raise --stack (512)' \
    "$(tail -n 1 said | sed 's/.*; //')"
  printf 'void run(void) { *(volatile long long *)65536 = 5; }\n' >constant.c
  refuses 'a constant address' 'talft-cc: constant.c: uses no global variable; a constant address is not a cell: declare a global variable for '\
'each input and output' cc constant.c -o x.obj
  printf 'long long x;\nvoid run(void) { x = 6 * 7; }\n' >constants.c
  tool 'an object that stores constants' 0 '' cc constants.c -o constants.obj
  report 'the message about it' 'talft-cc: note: constants.obj: reads no cell, so each run has the same outputs: if clang computed them, make the '\
'inputs volatile (docs/C.md)' "$(grep note said)"
  printf 'volatile int n = 100, y;\n__attribute__((noinline)) int f(int k) { return k < 2 ? y : f(k - 1) ^ f(k - 2); }\nvoid run(void) { y = f(n); }\n' >deep.c
  tool 'calls that nest too deeply' 0 '' cc deep.c -o deep.obj
  report 'the message about calls that nest too deeply' 'the stack is full; recursive calls may be nested 64 deep: recurse less deeply, '\
'or use a loop' "$(tail -n 1 said | grep -o 'the stack is full.*')"
  echo 'int x; void run() { x = 1; }' >plus.cpp
  refuses 'a C++ file' 'talft-cc: plus.cpp: defines no function `run` or `main`; use --entry with `_Z3runv`' cc plus.cpp -o x.obj
  refuses 'a C file without a function' \
    'talft-cc: nothing.c: defines no function `run` or `main`; the entry is `void run(void)`, and not static' cc nothing.c -o x.obj
fi

# Messages escape control characters, and cut long words.
refuses 'a name with an escape' 'talft-debugger: a\x1b[31mb: no such file' debugger $'a\e[31mb'
refuses 'a name with a line feed' 'talft-plot: a\nb: no such file' plot $'a\nb'
refuses 'a name that is not UTF-8' 'talft-faults: a\xffb: no such file' faults $'a\xffb'
misused 'an empty list of words' 'talft-faults: --values: invalid number ``: expected decimal numbers below 2^64, separated by commas' \
  faults five.obj --values ''
refuses 'an empty name' 'talft-ending: an empty file name: no such file' ending ''
long=$(printf 'r%.0s' {1..5000})
misused 'a long site' "talft-faults: --sites: unknown site \`${long:0:58}..\`: the sites are $five_sites" \
  faults five.obj --sites "$long"
refuses 'a name that is too long' "talft-build: ${long:0:99}..${long:0:99}: the name is too long" build "$long"
report 'an escape at the prompt' 'line 1: invalid number `\x1b[31m`: expected decimal digits, or hex as 0x10' \
  "$(printf 'zap r1 \e[31m\n' | "$top/tools/debugger" five.obj 2>&1 | tail -n 1)"
if [ "$(id -u)" != 0 ]; then
  cp five.obj secret.obj
  chmod 0 secret.obj
  refuses 'an unreadable file' 'talft-faults: secret.obj: permission denied' faults secret.obj
fi

# Mistaken commands of the debugger.
for row in 'stepp|unknown command `stepp`; did you mean `step`?; `help` lists the commands' \
  're|ambiguous command `re`: `reverse-next`, `reverse-line`, `reverse-continue`, `registers` or `record`' \
  'info queues|unknown topic `queues`: expected info registers|queue|cells|breaks|strikes|position|outputs|names; did you mean `queue`?' \
  'print ou|unknown name `ou`: expected a register (r0 to r63, d, pcg, pcb), a part of the queue (qa0 to qv7) or a cell; did you mean `out`?' \
  'plan 4:r1|invalid fault `4:r1`: expected STEP:SITE:WORD, such as 4:r1:6' \
  'delete 7|no breakpoint or watch has the number 7: `info breaks` lists them' 'source nosuch|nosuch: no such file' \
  'source folder|folder: is a folder' 'zap r1|missing site or word: write it as in `zap r1 6`' \
  'zap r1 = 6|write `zap r1 6`, without `=`' 'zap r1=6|write `zap r1 6`, without `=`' 'flip r1 =0|write `flip r1 0`, without `=`' \
  'set var out=5|unknown command `set`: `zap` changes a word in a register: a strike; cells cannot be changed (`talft-set` changes their initial words)' \
  'layout asm|unknown command `layout`: `talft-debugger FILE --tui` shows a full screen' \
  'start|unknown command `start`: `run` goes to the start' 'kill|unknown command `kill`: `run` goes to the start, `quit` ends' \
  'up|unknown command `up`: `where` shows the place; there are no calls' \
  'down|unknown command `down`: `where` shows the place; there are no calls' \
  'x/4xw out|unknown format `/xw`: all words have 64 bits: leave out the `w`, as in `x/4x out`' \
  'info registers foo|unknown register `foo`: expected r0 to r63, d, pcg, pcb or `all`' \
  'info reg out|unknown register `out`: expected r0 to r63, d, pcg, pcb or `all`' \
  'info reg $r1|`$r1`: names have no `$` here: write `r1`' 'registers all r1|unexpected argument `r1`' \
  'plan r1:4:6|invalid fault `r1:4:6`: expected STEP:SITE:WORD; the step comes first, then the site' \
  'zap r1=|missing site or word: write it as in `zap r1 6`' 'zap r1 6 = 7|unexpected argument `=`'; do
  report "the command ${row%%|*}" "line 1: ${row#*|}" "$(echo "${row%%|*}" | "$top/tools/debugger" five.obj 2>&1 | tail -n 1)"
done

# No temporary folder: Python tries only a missing one.
mkdir no_temporary
printf 'import tempfile\ntempfile._candidate_tempdir_list = lambda: ["/nonexistent"]\n' >no_temporary/sitecustomize.py
while read -r words; do
  # shellcheck disable=SC2086
  report "no temporary folder: $words" \
    "1 talft-${words%% *}: no temporary folder (/tmp, /var/tmp, ..) is writable: set TMPDIR" \
    "$(PYTHONPATH=$PWD/no_temporary "$top"/tools/$words 2>said >/dev/null </dev/null; echo "$? $(cat said)")"
done <<'END'
set five.obj out=5 -o x.obj
cc one.c -o x.obj
explain five.obj --fault 4:r1:6
debugger five.obj -c where
plot lines
report lines --object five.obj
ending five.obj --text five.asm
END
# A limit on the size of files: the message names the file. `TEMP` stands for a name that the tool makes up.
"$top/talft" compile "$top/examples/sieve.src" >big.obj
"$top/talft" dis big.obj >big.asm
limited() {
  local words told
  while IFS='|' read -r words told; do
    # shellcheck disable=SC2086
    report "a limit on files: $words" "talft-${words%% *}: $told" "$(ulimit -f 1
      TMPDIR=$PWD/folder TALFT=$top/talft "$top"/tools/$words 2>&1 >/dev/null </dev/null | tail -n 1 |
        sed "s|$PWD/folder/tmp[a-z0-9_]*|TEMP|; s|$PWD/||")"
  done
}
limited <<'END'
set big.obj prime=5 -o x.obj|TEMP/object: file too large
ending big.obj --text big.asm|TEMP.obj: file too large
debugger big.asm -c where|the copy of big.asm in memory: file too large
explain five.obj --fault 4:r1:6|a temporary file in folder: file too large
build big.asm -o x.obj|x.obj: `talft asm`: killed by signal 25: file too large
END
! has gnuplot 'a limit on files: plot' || limited <<<'plot lines --out limited.svg|TEMP/picture: file too large'
report 'standard output that is limited' 'talft-faults: standard output: file too large' \
  "$(ulimit -f 1; "$top/tools/faults" big.obj --flip all --sample 999 2>&1 >limited | tail -n 1)"

# On a terminal, no object is written, and an error starts a new line.
if has script 'mistakes on a terminal'; then
  on_terminal() { timeout 60 script -qec "$1" /dev/null </dev/null | tr -d '\r'; }
  report 'an object to a terminal' \
    'talft-set: not written: an object is binary, and standard output is a terminal; use -o FILE or >FILE' \
    "$(on_terminal "$top/tools/set five.obj out=1")"
  report 'an unknown option on a terminal' 'talft-plot: unknown option `--ot`; did you mean `--out`?' \
    "$(on_terminal "$top/tools/plot lines --ot x" | head -n 1)"
  report 'a bad line on a terminal' 'talft-campaign: bad:2: invalid fault `4:r64:6`' \
    "$(on_terminal "$top/tools/campaign five.obj --faults bad --dir terminal.kept" | tail -n 1 | sed 's/.*\x1b\[K//; s/: expected.*//')"
  report 'the prompt on a terminal' 'unknown command `stepp`; did you mean `step`?; `help` lists the commands' \
    "$(on_terminal "$top/tools/debugger five.obj -c stepp -c quit" | grep unknown | sed 's/\x1b\[[0-9;]*m//g')"
  report 'a typed command has no line' 'unknown command `stepp`; did you mean `step`?; `help` lists the commands' \
    "$(printf 'stepp\nquit\n' | timeout 60 script -qec "$top/tools/debugger five.obj" /dev/null | tr -d '\r' |
      sed 's/\x1b\[[0-9;?]*[a-z]//g' | grep unknown)"
fi

# Standard streams that are closed.
report 'standard error that is closed' 1 "$("$top/tools/faults" nosuch 2>&- >closed.out; echo $?)"
report 'nothing is written into a file' '' "$(cat closed.out)"
cd "$work" || exit 2
