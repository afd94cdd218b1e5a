# total.asm: adds the four cells of `a` in a loop, stores the total in the cell `out`, and halts.

# Cells are numbered from 0, and cell N has the address 1048576 + N: `out` has 1048580.
cell a[0] int 10
cell a[1] int 20
cell a[2] int 30
cell a[3] int 40
cell out int 0

# Nodes are numbered from 0, too. The number behind `node` says how many variables the node may use: none, or the two of
# the loop's type. The memory is node 0.
node 0 memory
# 1 and 2: the loop's index and its total.
node 2 var 0
node 2 var 1
# 3 and 4: two words.
node 0 word 0
node 0 word 1
# 5: the next index.
node 2 add 1 4
# 6 to 8: what `idx` yields, the address of the cell whose number is the index modulo 4.
node 2 rem 1 4
node 0 word 1048576
node 2 add 7 6
# 9 and 10: the word in that cell, and the next total.
node 2 sel 0 8
node 2 add 2 9
# 11: the only variable of the last block.
node 1 var 0

# Code type 0, for the first block: nothing is known.
type 0 0
# Code type 1, for the loop. Registers are in ascending order, green and blue alike.
type 2 0
reg r1 G int 1
reg r2 G int 2
reg r33 B int 1
reg r34 B int 2
# Code type 2, for the last block: the total is known.
type 1 0
reg r2 G int 11
reg r34 B int 11

# Instructions are numbered from 1 through the whole text, and a block's address is the number of its first one.
# Block 0 begins at 1, block 1 at 9, block 2 at 27.
block 0
mov r1 G 0 int
mov r33 B 0 int
mov r2 G 0 int
mov r34 B 0 int
mov r5 G 9 code:1
mov r37 B 9 code:1
jmp_G r5
# Into the loop, with memory 0: node 3 is the index, and node 3 is the total.
jmp_B r37 0 3 3

block 1
idx r3 r1 0 4
idx r35 r33 0 4
ld_G r4 r3
ld_B r36 r35
add r2 r2 r4
add r34 r34 r36
add r1 r1 G 1
add r33 r33 B 1
ltu r6 r1 G 4
ltu r38 r33 B 4
# Out of the loop if the index is not below 4: node 10 is the total.
mov r5 G 27 code:2
mov r37 B 27 code:2
bz_G r6 r5
bz_B r38 r37 0 10
# Otherwise the run falls through to here, and goes round with node 5 as the index and node 10 as the total.
mov r5 G 9 code:1
mov r37 B 9 code:1
jmp_G r5
jmp_B r37 0 5 10

block 2
mov r0 G 1048580 ref:int
mov r32 B 1048580 ref:int
st_G r0 r2
st_B r32 r34
halt

entry 0
