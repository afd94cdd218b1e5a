# The names of the tools: `make install` puts the program and the tools into one folder, where no name but `talft` is without
# the prefix `talft-`. A clone has the same names in tools/bin. Each tool works by this name, and calls itself by it.

tools=$(cd "$top/tools" && grep -lE '^#!' -- * 2>/dev/null)
installed=$work/installed
make -s -C "$top" install-program PROGRAM="$top/crates/talft/out/talft" DESTDIR="$installed" PREFIX=/usr >said 2>&1
report 'make install-program' 0 $?
report 'the commands that are installed' "$(echo talft; sed 's/^/talft-/' <<<"$tools")" "$(ls "$installed/usr/bin")"
report 'the commands with completion' "$(ls "$installed/usr/bin")" "$(ls "$installed/usr/share/bash-completion/completions")"
report 'the commands in tools/bin' "$(sed 's/^/talft-/' <<<"$tools")" "$(ls "$top/tools/bin")"

# The tools find the program and their own files, whatever the folder they are called from, and with no `talft` on PATH.
mkdir elsewhere
for place in "$top/tools/bin" "$installed/usr/bin"; do
  for name in $tools; do
    report "the name of $name in ${place#"$work/"}" "usage: talft-$name [-h]" \
      "$(cd elsewhere && "$place/talft-$name" --help 2>&1 | grep -o "^usage: [a-z0-9-]* \[-h\]")"
    report "the name of $name in its messages" "talft-$name: unknown option \`--no-such-option\`" \
      "$(cd elsewhere && "$place/talft-$name" --no-such-option 2>&1 | grep -o "^[a-z0-9-]*: unknown option \`--no-such-option\`")"
  done
  ln -sf "$place/talft-explain" why
  report "a link to a link in ${place#"$work/"}" 'usage: talft-explain' "$(./why --help | head -n 1 | cut -c1-20)"
done
there() { (cd elsewhere && env -u TALFT "$installed/usr/bin/talft-$1" "${@:2}" 2>&1); }
cp "$top/examples/five.obj" "$top/examples/five.faults" elsewhere
report 'an installed tool finds its program' 'done after 14 steps' "$(there ending five.obj)"
there campaign five.obj --faults five.faults --steps 14 --dir kept >elsewhere/both
grep -v '^talft-' elsewhere/both >elsewhere/lines
report 'an installed tool and the program' "$("$top/talft" campaign "$top/examples/five.obj" --faults "$top/examples/five.faults" --steps 14)" \
  "$(cat elsewhere/lines)"
if command -v gnuplot >/dev/null; then
  report 'an installed tool finds its files' 'talft-report: wrote five.html' "$(there report lines --dir kept --out five.html)"
fi
if has clang 'installed tools for C' && has wasm-ld 'installed tools for C'; then
  printf 'volatile char from[9] = "talft", to[9];\nvoid run(void) { __builtin_memcpy((char *)to, (char *)from, 9); }\n' >elsewhere/copy.c
  report 'an installed tool finds its C text' 'talft-cc: copy.obj: accepted' \
    "$(there cc copy.c -fno-builtin -O0 -o copy.obj | grep -o '^talft-cc: copy.obj: accepted')"
fi

make -s -C "$top" uninstall DESTDIR="$installed" PREFIX=/usr >said 2>&1
report 'what is left after it is removed' '' "$(find "$installed" ! -type d)"
