# A module with a routine: it doubles the integer that it receives, and continues at the imported block.
cell out int 0

node 0 memory
node 1 var 0
node 1 word 2
node 1 mul 1 2

type 0 0
type 1 0
reg r2 G int 1
reg r34 B int 1

# A module is an object, so it has an entry block, which is never reached here.
block 0
halt

# The exported block.
block 1
mul r2 r2 G 2
mul r34 r34 B 2
mov r1 G 8 code:1
mov r33 B 8 code:1
jmp_G r1
jmp_B r33 0 3

# The imported block: a stub.
block 1
halt

entry 0
