# show.asm: stores the number in r1 and r33, and continues in the calling module. It is linked with count.asm by
# count.map.

cell out int 0

# The nodes: the memory, the number, the address of `out`, and the memory with the number stored there.
node 0 memory
node 1 var 0
node 0 word 1048576
node 1 upd 0 2 1

# Code type 0: nothing is known. Code type 1: r1 and r33 hold the number.
type 0 0
type 1 0
reg r1 G int 1
reg r33 B int 1

# Block 0 is exported as `show`. It begins at address 1, and block 1 at 9.
block 1
mov r0 G 1048576 ref:int
mov r32 B 1048576 ref:int
st_G r0 r1
st_B r32 r33
mov r2 G 9 code:1
mov r34 B 9 code:1
jmp_G r2
jmp_B r34 3 1

# Block 1 is a stub. It stands for the block that is exported as `next`.
block 1
halt

# A module has its own entry block.
block 0
halt

entry 2
