# The C library, from the archive that the gate proved: the loader compared with the command, the task, Python, and C++.
library=$top/crates/ft_c/out/library
embed=(-std=c99 -Wall -Wextra -Werror -pedantic -O2 -I"$top/include")
library_made='`make library` makes crates/ft_c/out/library/libtalft.so: install it, or name it in TALFT_LIBRARY'
# Without the library, Python's module cannot be imported either.
imported() { TALFT_LIBRARY=$1 PYTHONPATH=$top/embed python3 -B -c 'import talft' 2>&1 | tail -n 1; }
[ -e "$top/embed/libtalft.so" ] || ldconfig -p 2>/dev/null | grep -q libtalft.so || report 'no library for Python' \
  "ImportError: libtalft.so not found: $library_made" "$(imported '')"
report 'a missing library' \
  "ImportError: $work/none.so not found: $library_made" "$(imported "$work/none.so")"
echo text >"$work/text.so"
report 'an invalid library' \
  "ImportError: $work/text.so is not a shared library: $library_made" "$(imported "$work/text.so")"
report 'a script as the library' "ImportError: $top/embed/talft.py is not a shared library: $library_made" \
  "$(imported "$top/embed/talft.py")"
report 'another library' "ImportError: libc.so.6 is not libtalft.so, or an old one: $library_made" "$(imported libc.so.6)"
report 'a folder as the library' "ImportError: $work is a folder: $library_made" "$(imported "$work")"
report 'a library without its folder' "ImportError: text.so not found: write its whole path: $library_made" \
  "$(cd "$work" && imported text.so)"
if has cc 'the C library' && has ar 'the C library'; then
  report 'the C library is made' 0 "$(bash "$top/build/library.sh" >embed.said 2>&1; echo $?)"
  report 'the symbols that the shared library exports' "$(sed -n 's/^\(uint32_t\|void\) \(talft_[a-z_]*\)(.*/\2/p' "$top/include/talft.h" |
    grep -v '^talft_arena' | sort | tr '\n' ' ')" "$(nm -D --defined-only "$library/libtalft.so" | awk '{ print $3 }' | sort | tr '\n' ' ')"
  report 'the symbols that it needs from the C library' 'free malloc memcpy memmove memset realloc ' \
    "$(nm -D --undefined-only "$library/libtalft.so" | awk '$1 == "U" { sub(/@.*/, "", $2); print $2 }' | sort | tr '\n' ' ')"
  for name in loader task; do
    report "$name.c" '' "$(cc "${embed[@]}" "$top/examples/c/$name.c" "$library/libtalft.a" -o "embed_$name" 2>&1)"
  done
  ! has c++ 'the header in C++' ||
    report 'the header in C++' '' "$(echo '#include "talft.h"' | c++ -std=c++11 -Wall -Wextra -pedantic -I"$top/include" -xc++ -fsyntax-only - 2>&1)"
  # The memory from one block, alone.
  cc "${embed[@]}" -Wconversion -I"$top/embed" "$top/tests/embed/blocks.c" "$top/embed/arena.c" -o embed_blocks 2>errors
  report 'blocks of one arena' 'all blocks are right' "$(./embed_blocks 3000 7)"
  report 'many blocks of one arena, in 10 s' 'all blocks are right' "$(ulimit -t 10; ./embed_blocks many 400000)"
  cc "${embed[@]}" "$top/tests/embed/arena.c" "$top/embed/arena.c" "$library/libft_c.a" -o embed_arena 2>errors
  report 'the block that EMBEDDING.md calls enough' "$(sed -n 's/.* A block of \([0-9]*\) KiB .*/\1/p' "$top/docs/EMBEDDING.md")" \
    "$(./embed_arena "$top"/tests/objects/*.obj | awk '{ if ($(NF - 1) > most) most = $(NF - 1) } END { print most / 1024 }')"
  mkdir embed_objects
  for source in "$top"/examples/*.src; do
    "$top/talft" compile "$source" >"embed_objects/$(basename "$source" .src).obj" 2>/dev/null || rm "embed_objects/$(basename "$source" .src).obj"
  done
  for text in "$top"/examples/*.asm; do
    "$top/talft" asm "$text" >"embed_objects/$(basename "$text").obj" 2>/dev/null || rm "embed_objects/$(basename "$text").obj"
  done
  report 'the loader answers like the command' 'answers are the same' "$(bash "$top/tests/embed/compare.sh" \
    "$top/crates/talft/out/talft" ./embed_loader -- "$top"/examples/*.obj embed_objects/*.obj "$top"/tests/objects/*.obj 2>&1 | sed 's/^[0-9]* //')"
  # A task that runs in one piece or in slices, with or without a fault in its first cycle, hands out the outputs of the
  # run without a fault.
  for name in fibonacci ring; do
    [ -e "embed_objects/$name.obj" ] || continue
    whole=$("$top/talft" run "embed_objects/$name.obj" --steps 100000 2>/dev/null; echo $?)
    for words in '100000' '1000' '7 1' '1000 1 40 r1 6' '7 1 41 r33 9' '1 1 55 pcg 3'; do
      report "the task over $name by $words" "$whole" "$(./embed_task "embed_objects/$name.obj" $words; echo $?)"
    done
    report "two cycles of $name" "$(printf '%s\n%s' "${whole%$'\n'*}" "$whole")" "$(./embed_task "embed_objects/$name.obj" 1000 2; echo $?)"
  done
  # A task sets its input before each cycle: each run is that of the object that tools/set makes.
  printf 'cell in = 0; cell out = 0; out = in + 1;' >embed_step.src
  "$top/talft" compile embed_step.src >embed_step.obj 2>/dev/null
  report 'a task with inputs' "$(for word in 7 8 1; do
    TALFT=$top/talft "$top/tools/set" embed_step.obj in=$word >embed_set.obj 2>/dev/null && "$top/talft" run embed_set.obj 2>/dev/null
  done)" "$(./embed_task embed_step.obj 3 3 in=7,8,1)"
  # From Python: setting a cell, a campaign and a link, compared with tools/set and the command.
  beside() { TALFT_LIBRARY=$library/libtalft.so PYTHONPATH=$library python3 -B "$top/tests/embed/beside.py" "$@"; }
  TALFT=$top/talft "$top/tools/set" embed_step.obj in=41 >embed_set.obj 2>/dev/null
  report 'a cell that is set' "$(sha256sum <embed_set.obj)" "$(beside set embed_step.obj 0 41 | sha256sum)"
  printf '0:r1:6\n4:r1:6\n5:pcb:1\n7:d:9\n20000:r2:1\n' >embed_faults
  report 'a campaign' "$("$top/talft" campaign "$top/examples/five.obj" --faults embed_faults --steps 1000 2>/dev/null)" \
    "$(beside campaign "$top/examples/five.obj" embed_faults 1000)"
  printf 'module a.obj\nmodule b.obj\n' >embed_map && cp embed_step.obj a.obj && cp embed_step.obj b.obj
  report 'a link' "$("$top/talft" link embed_map 2>/dev/null | sha256sum)" "$(beside link embed_map a.obj b.obj | sha256sum)"
  printf 'module a.obj\nexport x 900\n' >embed_map
  report 'a link that is refused' "$("$top/talft" link embed_map 2>/dev/null)" "$(beside link embed_map a.obj)"
  report 'Python' '' "$(cd "$library" && TALFT_LIBRARY=$library/libtalft.so python3 -m doctest talft.py 2>&1)"
  while IFS='|' read -r asked told; do
    report "Python: $asked" "$told" "$(TALFT_LIBRARY=$library/libtalft.so PYTHONPATH=$library python3 -B -c "import talft
five = open('$top/examples/five.obj', 'rb').read()
talft.$asked" 2>&1 | tail -n 1)"
  done <<'END'
run(five, fault='4:r1')|ValueError: invalid fault '4:r1': expected STEP:SITE:WORD
recover(five, fault='4:r64:6')|ValueError: invalid fault '4:r64:6': expected STEP:SITE:WORD
run(five, fault='4:r1', wild='z')|ValueError: invalid fault '4:r1': expected STEP:SITE:WORD
run(five, fault='4:r1:6', wild='z')|ValueError: invalid fault or answers: fault '4:r1:6', wild 'z'
run(five, fault='99:r1:6', steps=9)|
check('five.obj')|TypeError: expected the object's bytes, not a file name
check(__import__('pathlib').Path('five.obj'))|TypeError: expected the object's bytes, not a file name
run(open('embed_step.obj'))|TypeError: expected the object's bytes, not an open file: `.read()` it, opened with 'rb'
check(open('embed_step.obj', 'rb'))|TypeError: expected the object's bytes, not an open file: `.read()` it, opened with 'rb'
compile(open('embed_map'))|TypeError: expected bytes or a text, not an open file: `.read()` it
recover('five.obj')|TypeError: expected the object's bytes, not a file name
disassemble('five.obj')|TypeError: expected the object's bytes, not a file name
upgrade('five.obj')|TypeError: expected the object's bytes, not a file name
schedule('five.obj')|TypeError: expected the object's bytes, not a file name
set_cell('five.obj', 0, 5)|TypeError: expected the object's bytes, not a file name
stream('five.obj').__next__()|TypeError: expected the object's bytes, not a file name
campaign('five.obj', '4:r1:6')|TypeError: expected the object's bytes, not a file name
link('module five.obj', {'five.obj': 'five.obj'})|TypeError: expected the object's bytes, not a file name
campaign(five, ['4:r1:6'])|TypeError: faults must be one text with one fault per line
campaign(five, {'4:r1:6'})|TypeError: faults must be one text with one fault per line
set_cell(five, 'out', 5)|TypeError: the cell must be given by its number, counted from 0
END
  # The tools use the library if it is installed, and otherwise the program: same answers, fewer processes.
  mkdir embed_kit && cp -r "$top/tools" embed_kit/tools && cp "$library/talft.py" embed_kit/tools
  printf '#!/bin/sh\necho "$1" >>"%s"\nexec "%s" "$@"\n' "$PWD/embed_calls" "$top/talft" >embed_kit/talft
  chmod +x embed_kit/talft
  "$top/talft" dis embed_step.obj >embed_step.asm 2>/dev/null
  head -c 100 embed_step.obj >embed_cut.obj
  by_tools() {
    : >embed_calls
    for words in 'set embed_step.obj in=41' 'ending embed_step.obj --text embed_step.asm' 'set embed_step.obj to=1' \
      'ending embed_cut.obj --text embed_step.asm' 'debugger embed_step.asm' 'debugger embed_step.src' 'debugger embed_cut.obj'; do
      env -u TALFT TALFT_LIBRARY="$1" python3 -B "embed_kit/tools/${words%% *}" ${words#* } 2>&1 <<<"step" | sha256sum
    done
  }
  report 'the tools with the library' "$(by_tools "$PWD/none.so")" "$(by_tools "$library/libtalft.so")"
  by_tools "$library/libtalft.so" >/dev/null
  report 'the remaining calls' 'debug dis' "$(sort -u embed_calls | tr '\n' ' ' | sed 's/ $//')"
  report 'a recovery from Python' "$("$top/talft" recover "$top/examples/five.obj" --steps 1000 --fault 4:r1:6 2>/dev/null)" \
    "$(cd "$library" && TALFT_LIBRARY=$library/libtalft.so python3 -c 'import sys, talft
end, outputs, again = talft.recover(open(sys.argv[1], "rb").read(), 1000, "4:r1:6")
print(*(f"{name} {value}" for name, value in outputs), sep="\n")
if again is not None: print("again", again)' "$top/examples/five.obj")"
fi
