# An object is read in place. `large.obj` has 1,048,576 nodes and 65,536 instructions; `zeros` has as many bytes, and is
# refused at the first. Apart from 8 MB, a command over the object takes no more memory than loading `zeros`; a copy of
# the nodes alone would take more than twice as much.
{
  printf 'TALFT\0\0\1\0\0\0\0\0\20\0\0\0\0\0\1\0\0\0\0\0\0\0\0\0\0\0\1\0\1\0\0\0\0\0\0\0\0\0\0\0\0\0\0\4'
  head -c 17825815 /dev/zero
} >large.obj
head -c 17825864 /dev/zero >zeros
echo '0:r1:6' >one.faults

limit=$(least_memory "$(printf 'object 1 0\n/7')" trial zeros)
report 'a memory limit under which a large file is loaded' found "${limit//[0-9]*/found}"
in_place() {
  local name=$1 status=$2 text=$3
  shift 3
  report "$name" "$(printf '%b/%d' "$text" "$status")" "$(within $((limit + 8192)) "$@")"
}
in_place 'a large object that is checked' 8 'check block 0 index 0 premise 1\n' check large.obj
in_place 'a large object that is not run' 8 'check block 0 index 0 premise 1\n' run large.obj
in_place 'a recovery of a large object' 8 'check block 0 index 0 premise 1\n' recover large.obj
in_place 'a large object that is tried' 9 '' trial large.obj --steps 1000
in_place 'a campaign over a large object' 8 'check block 0 index 0 premise 1\n' campaign large.obj --faults one.faults --steps 100
in_place 'a survey of a large object' 0 '0:r1:6 masked\nfaults 1 masked 1 detected 0 idle 0 corrupt 0\n' \
  survey large.obj --faults one.faults --steps 100
in_place 'a session over a large object' 0 '' debug large.obj
