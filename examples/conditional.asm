# conditional.asm: stores 1 in the cell `out` if the cell `in` is not 0, and otherwise 2, and halts.

cell out int 0
cell in int 7

node 0 memory
type 0 0

block 0
# Both colours load `in`.
mov r0 G 1048577 ref:int
mov r32 B 1048577 ref:int
ld_G r1 r0
ld_B r33 r32
# If it is 0, go to block 1, which begins at instruction 16. The green branch records the target; the blue one compares
# it with its own, and jumps. The memory there is node 0, as nothing was stored.
mov r2 G 16 code:0
mov r34 B 16 code:0
bz_G r1 r2
bz_B r33 r34 0
# It is not 0.
mov r0 G 1048576 ref:int
mov r1 G 1 int
mov r32 B 1048576 ref:int
mov r33 B 1 int
st_G r0 r1
st_B r32 r33
halt

block 0
mov r0 G 1048576 ref:int
mov r1 G 2 int
mov r32 B 1048576 ref:int
mov r33 B 2 int
st_G r0 r1
st_B r32 r33
halt

entry 0
