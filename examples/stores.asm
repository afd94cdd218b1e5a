# stores.asm: stores 5 in the cell `first` and 6 in the cell `second`, and halts.
#
# A step is a fetch or an execution, so instruction n, counted from 0, is executed in step 2n + 1.
#
#   --fault 10:r1:7 is masked: the word of r1 was queued in step 9, and r1 is not read again.
#   --fault 18:r3:7 is detected: the green store queues 7 in step 19, and the blue store has 6.
#
# `first 5` is written in both runs, as it is committed in step 11.

cell first int 0
cell second int 0

node 0 memory
type 0 0

block 0
mov r0 G 1048576 ref:int
mov r1 G 5 int
mov r32 B 1048576 ref:int
mov r33 B 5 int
st_G r0 r1
st_B r32 r33
mov r2 G 1048577 ref:int
mov r3 G 6 int
mov r34 B 1048577 ref:int
st_G r2 r3
mov r35 B 6 int
st_B r34 r35
halt

entry 0
