# The examples, and each command with its arguments.

expect 'the example' 0 'out 5\n' trial "$top/examples/five.obj"
expect 'a masked fault' 0 'out 5\n' trial "$top/examples/five.obj" --fault 10:r1:6
expect 'a detected fault' 1 '' trial "$top/examples/five.obj" --fault 4:r1:6
expect 'a wild load that is answered' 0 'out 5\n' trial "$top/examples/reload.obj" --fault 2:r0:7 --wild 5
expect 'a run that is cut' 9 '' trial "$top/examples/five.obj" --steps 11
expect 'an object that is accepted' 0 'accepted\n' check "$top/examples/five.obj"
expect 'an object that is not accepted' 8 'check block 0 index 3 premise 2\n' check "$top/examples/mixed.obj"
expect 'a run of an accepted object' 0 'out 5\n' run "$top/examples/five.obj"
expect 'a run that is detected' 1 '' run "$top/examples/five.obj" --fault 4:r1:6
expect 'no run of an object that is not accepted' 8 'check block 0 index 3 premise 2\n' run "$top/examples/mixed.obj"
expect 'a campaign' 0 '4:r1:6 detected 11\n10:r1:6 masked\n0:pcg:3 detected 0\n9:qv0:6 idle\nfaults 4 masked 1 detected 2 idle 1 corrupt 0\n' \
  campaign "$top/examples/five.obj" --faults "$top/examples/five.faults" --steps 14
expect 'a survey' 10 '4:r1:6 corrupt\nfaults 1 masked 0 detected 0 idle 0 corrupt 1\n' \
  survey "$top/examples/mixed.obj" --faults "$top/examples/mixed.faults" --steps 14
expect 'a demonstration' 0 'outputs 3 last 18\nfaults 64 masked 3 detected 0 idle 61 corrupt 0\n' demo 3
expect 'a run by an index' 0 'a[1] 9\n' run "$top/examples/indexed.obj"
expect 'an index that a fault moves to another cell' 1 '' run "$top/examples/indexed.obj" --fault 2:r0:5
expect 'an index that a fault leaves at the same cell' 0 'a[1] 9\n' run "$top/examples/indexed.obj" --fault 2:r0:7
expect 'a campaign over an index' 0 '2:r0:5 detected 15\n2:r0:7 masked\nfaults 2 masked 1 detected 1 idle 0 corrupt 0\n' \
  campaign "$top/examples/indexed.obj" --faults "$top/examples/indexed.faults" --steps 18
upgrade() {
  "$top/talft" upgrade "$1" >"$2"
  report "an upgrade of $3" 0 $?
}
upgrade "$top/examples/five.obj" second.obj 'the example'
report 'the byte that differs after it' '8 1 2' "$(cmp -l "$top/examples/five.obj" second.obj | awk '{ print $1, $2, $3 }')"
upgrade second.obj third.obj 'what was upgraded'
report 'nothing differs after that' 0 "$(cmp second.obj third.obj; echo $?)"
expect 'the run of an upgraded object' 0 'out 5\n' run second.obj
head -c 217 "$top/examples/five.obj" >short.obj
expect 'an upgrade of a truncated object' 7 'object 2 217\n' upgrade short.obj
expect 'an upgrade of a missing file' 3 '' upgrade "$work/missing"
expect 'a missing fault list' 3 '' campaign "$top/examples/five.obj" --faults "$work/missing"
expect 'an object as a fault list' 11 'list 1 1\n' campaign "$top/examples/five.obj" --faults "$top/examples/five.obj"
expect 'a meaning' 0 'out 0\nout 1\nout 1\nout 2\nout 3\nout 5\nout 8\nout 13\nout 21\nout 34\n' mean "$top/examples/fibonacci.src"
expect 'another meaning' 0 'out 15\n' mean "$top/examples/sum.src"
expect 'a meaning that is cut' 9 'out 1\nout 2\nout 3\n' mean "$top/examples/endless.src" --turns 3
expect 'a source that is refused' 6 'source 7 20\n' mean "$top/examples/unknown.src"
numbers='out 0\nout 1\nout 1\nout 2\nout 3\nout 5\nout 8\nout 13\nout 21\nout 34\n'
"$top/talft" compile "$top/examples/fibonacci.src" >fibonacci.obj
report 'a source that is compiled' 0 $?
expect 'its object' 0 'accepted\n' check fibonacci.obj
expect 'the run of its object' 0 "$numbers" run fibonacci.obj
expect 'a struck run of its object' 1 'out 0\nout 1\nout 1\n' run fibonacci.obj --fault 296:r32:7
expect 'an execution' 0 "$numbers" exec "$top/examples/fibonacci.src"
expect 'an execution that is cut' 9 'out 1\nout 2\n' exec "$top/examples/endless.src" --steps 100
expect 'a source that is not compiled' 6 'source 7 20\n' compile "$top/examples/unknown.src"
head -c 1048577 /dev/zero >long.src
expect 'a source above the limit' 6 'source 1 1048576\n' mean long.src
head -c 1048576 /dev/zero >longest.src
expect 'a source at the limit' 6 'source 2 0\n' mean longest.src
got=$("$top/talft" debug "$top/examples/five.obj" <"$top/examples/five.script" 2>"$work/errors"; printf '/%d' $?)
report 'a session' "$(printf 'at 4 running\nzapped\nat 12 detected\nr1 G 6\n1048576 6\nat 4 running\nr1 G 6\nat 0 running\nout 5\nat 14 done\nat 14 done pcg 7 pcb 7 block 0 index 6\n/0')" "$got"
head -c 1048577 /dev/zero >long.script
got=$("$top/talft" debug "$top/examples/five.obj" <long.script 2>"$work/errors"; printf '/%d' $?)
report 'a script above the limit' "$(printf 'list 4 1048576\n/11')" "$got"
expect 'a session without lines' 0 '' debug "$top/examples/five.obj"
expect 'no arguments' 2 'usage\n'
expect 'an argument that is not UTF-8' 2 'usage\n' trial $'\xff'
