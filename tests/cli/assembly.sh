# Assembly texts in real files: the texts of objects are those that tests/assembly.py writes, and assemble to the
# objects in version 2; examples/*.asm; texts that are hostile or at the limit.

both_ways() {
  "$top/talft" upgrade "$2" >in_version_2
  "$top/talft" dis "$2" >text.asm 2>errors
  report "the text of $1" "$(python3 "$top/tests/assembly.py" dis "$2" | cksum)/0" "$(cksum <text.asm)/$?"
  "$top/talft" asm text.asm >again 2>errors
  report "the object of the text of $1" "$(cksum <in_version_2)/0" "$(cksum <again)/$?"
}

for object in "$top"/examples/*.obj "$top"/tests/objects/*.obj; do
  both_ways "$(basename "$object")" "$object"
done
for source in "$top"/examples/*.src; do
  if "$top/talft" compile "$source" >compiled 2>errors; then
    both_ways "the object of $(basename "$source")" compiled
  fi
done

for text in "$top"/examples/*.asm; do
  name=$(basename "$text" .asm)
  "$top/talft" asm "$text" >"$name.obj" 2>errors
  report "the object of $name.asm" "$(python3 "$top/tests/assembly.py" asm "$text" | cksum)/0" "$(cksum <"$name.obj")/$?"
  expect "the check of $name.asm" 0 'accepted\n' check "$name.obj"
done
expect 'the run of five.asm' 0 'out 5\n' run five.obj
expect 'the run of loop.asm' 0 'out 3\nout 2\nout 1\n' run loop.obj
expect 'the run of stores.asm' 0 'first 5\nsecond 6\n' run stores.obj
expect 'a fault of stores.asm that is masked' 0 'first 5\nsecond 6\n' run stores.obj --fault 10:r1:7
expect 'a fault of stores.asm that is detected' 1 'first 5\n' run stores.obj --fault 18:r3:7
expect 'the run of conditional.asm' 0 'out 1\n' run conditional.obj
sed 's/^cell in int 7$/cell in int 0/' "$top/examples/conditional.asm" >other.asm
"$top/talft" asm other.asm >other.obj
expect 'the run of conditional.asm over 0' 0 'out 2\n' run other.obj
expect 'the run of index.asm' 0 'out 20\n' run index.obj
expect 'the run of total.asm' 0 'out 100\n' run total.obj
report 'its lines in ASSEMBLY.md' '' "$(sed -n '/^`examples\/total.asm`/,/^## Order/p' "$top/docs/ASSEMBLY.md" |
  sed -n '/^```text$/,/^```$/{/^```/!p}' | grep -vxFf <(sed 's/ *#.*//; s/^ *//' "$top/examples/total.asm"))"

expect 'a missing text' 3 '' asm "$work/missing"
printf 'cell out int 0\r\n' >text
expect 'a carriage return' 12 'asm 1 1\n' asm text
printf 'node 0 memory\n\0\n' >text
expect 'a zero byte' 12 'asm 1 2\n' asm text
printf 'type 0 0\nblock 0\nhalt\nentry 0' >text
expect 'no final line feed' 7 'object 6 56\n' asm text
printf 'node 0 word 18446744073709551616\n' >text
expect 'a number of 20 digits' 12 'asm 1 1\n' asm text
printf 'node 0 word 100000000000000000000\n' >text
expect 'a number of 21 digits' 12 'asm 1 1\n' asm text
head -c 10000000 /dev/zero | tr '\0' '\n' >text
expect 'ten million empty lines' 12 'asm 2 10000001\n' asm text
{ cat text; printf 'entry 0'; } >more
expect 'an entry block after ten million empty lines' 7 'object 3 16\n' asm more
head -c 100000000 /dev/zero | tr '\0' x >line
expect 'a line of 100,000,000 bytes' 12 'asm 1 1\n' asm line
{ printf '#'; cat line; printf '\n'; cat "$top/examples/five.asm"; } >text
"$top/talft" asm text >object 2>errors
report 'a comment of 100,000,000 bytes' "$(cksum <five.obj)/0" "$(cksum <object)/$?"
{ printf 'cell '; cat line; printf ' int 0\nentry 0\n'; } >text
expect 'a name of 100,000,000 bytes' 7 'object 2 67108864\n' asm text
{ printf 'entry '; tr x 0 <line; } >text
expect 'a number of 100,000,000 digits' 12 'asm 1 1\n' asm text
yes 'cell a int 0' | head -n 1000000 >text
printf 'entry 0\n' >>text
expect 'a million cells' 7 'object 3 8\n' asm text
head -c 134217728 /dev/zero | tr '\0' '\n' >text
expect 'a text of 134,217,728 bytes' 12 'asm 2 134217729\n' asm text
printf 'x' >>text
expect 'a text of one byte more' 12 'asm 3 134217728\n' asm text
printf 'abc' >text
expect '`dis` of bytes that are not an object' 7 'object 2 3\n' dis text
rm -f text more line
