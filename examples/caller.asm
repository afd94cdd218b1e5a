# A module with the main program: it passes 5 to the imported block, and stores the result.
cell out int 0

node 0 memory
node 1 var 0
node 0 word 5

# Code type 0: nothing is known. Code type 1: a block that is entered with an integer in r2 and r34.
type 0 0
type 1 0
reg r2 G int 1
reg r34 B int 1

block 0
mov r2 G 5 int
mov r34 B 5 int
mov r1 G 7 code:1
mov r33 B 7 code:1
jmp_G r1
jmp_B r33 0 2

# The imported block: a stub.
block 1
halt

# The exported block.
block 1
mov r0 G 1048576 ref:int
mov r32 B 1048576 ref:int
st_G r0 r2
st_B r32 r34
halt

entry 0
