# loop.asm: stores 3, 2 and 1 in the cell `out`, and halts.

cell out int 0

# The nodes are expressions for the code types and the jumps. `var 0` is the loop's only integer variable: the number
# left to count at the start of its block.
node 0 memory
node 1 var 0
node 0 word 3
node 0 word 1
# Node 4: one less than that number.
node 1 sub 1 3
# Node 6: the memory, with that number stored at the address of `out`.
node 0 word 1048576
node 1 upd 0 5 1

# Code type 0, for the first block and the last: nothing is known.
type 0 0
# Code type 1, for the loop: r1 and r33 hold the number left to count.
type 1 0
reg r1 G int 1
reg r33 B int 1

# Instructions are numbered from 1 through the whole text, and a block's address is the number of its first one.
# Block 0 begins at 1, block 1 at 7, block 2 at 21.
block 0
mov r1 G 3 int
mov r33 B 3 int
mov r2 G 7 code:1
mov r34 B 7 code:1
# Into the loop: the memory is still node 0, and node 2, the word 3, is passed for its variable.
jmp_G r2
jmp_B r34 0 2

block 1
mov r0 G 1048576 ref:int
mov r32 B 1048576 ref:int
st_G r0 r1
st_B r32 r33
sub r1 r1 G 1
sub r33 r33 B 1
# Out of the loop if nothing is left. The memory there is node 6.
mov r2 G 21 code:0
mov r34 B 21 code:0
bz_G r1 r2
bz_B r33 r34 6
# Otherwise, once more: the memory is node 6, and node 4 is passed for the variable.
mov r2 G 7 code:1
mov r34 B 7 code:1
jmp_G r2
jmp_B r34 6 4

block 0
halt

entry 0
