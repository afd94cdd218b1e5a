# One object for each typing premise, with the line that refuses it.

while read -r premise block index; do
  expect "premise $premise" 8 "check block $block index $index premise $premise\n" \
    check "$top/tests/objects/premise-$premise.obj"
done <<'END'
1 0 4
2 0 3
3 0 1
4 0 4
5 0 4
6 0 5
7 0 10
8 0 5
9 0 5
10 0 7
11 0 5
12 0 5
13 0 5
14 0 6
15 0 9
16 0 5
17 0 5
18 0 1
END
expect 'an object with a branch' 0 'accepted\n' check "$top/tests/objects/branch.obj"
expect 'its run' 0 '' run "$top/tests/objects/branch.obj"
