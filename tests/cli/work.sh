# Nothing is computed twice, and memory use stays close to what is needed.

# If operands were evaluated twice, the innermost would be evaluated 2^30 or 2^100 times here. Each bracket on the right
# takes one more register pair, so there are only 30 of them.
nested() {
  local left=$1 right=$2 depth=$3 n
  printf 'cell out = 0; out = '
  for ((n = 0; n < depth; n++)); do printf '%s' "$left"; done
  printf 1
  for ((n = 0; n < depth; n++)); do printf '%s' "$right"; done
  printf ';\n'
}
nested '(1 + ' ')' 30 >right.src
nested '(' ' + 1)' 100 >left.src
for words in 'right mean 31' 'right exec 31' 'left mean 101' 'left exec 101'; do
  read -r side command value <<<"$words"
  got=$(timeout 3 "$top/talft" "$command" $side.src; printf '/%d' $?)
  report "$command of an expression that is deep on the $side" "$(printf 'out %d\n/0' "$value")" "$got"
done

# The least memory under which the program writes `usage`, and each command on a small input within 8 MB more.
limit=$(least_memory "$(printf 'usage\n/2')" usage)
report 'a memory limit under which the program writes `usage`' found "${limit//[0-9]*/found}"
small() {
  report "$* in little memory" "$(within unlimited "$@" | tr '\0' 0)" "$(within $((limit + 8192)) "$@" | tr '\0' 0)"
}
cd "$top/examples" || exit 2
small trial five.obj
small run five.obj
small recover five.obj --fault 4:r1:6
small check five.obj
small campaign five.obj --faults five.faults --steps 14
small survey mixed.obj --faults mixed.faults --steps 14
small mean sum.src
small exec sum.src
small compile sum.src
small compile unknown.src
small debug five.obj
small demo 3
small upgrade five.obj
small asm five.asm
small dis five.obj
small schedule five.obj
cd "$work" || exit 2
for name in caller doubler; do "$top/talft" asm "$top/examples/$name.asm" >$name.obj; done
cp "$top/examples/caller.map" .
small link caller.map
