# five.asm: moves 5 and the address of the cell `out` into registers of both colours, stores it green and blue, and
# halts. `talft asm five.asm` writes the object.

# One cell with the initial word 0. As the first cell, it has the address 1048576.
cell out int 0

# Node 0 is the memory at the start of a block. Code type 0 has no integer variable, and this memory.
node 0 memory
type 0 0

block 0
# Green registers: the address, and the word.
mov r0 G 1048576 ref:int
mov r1 G 5 int
# Blue registers: the same again.
mov r32 B 1048576 ref:int
mov r33 B 5 int
# The green store queues the address and the word. The blue one compares both with its own, and commits them.
st_G r0 r1
st_B r32 r33
halt

# The run begins in block 0.
entry 0
