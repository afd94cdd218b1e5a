# count.asm: counts from 3 down to 1, and lets another module show each number. It is linked with show.asm by count.map.

cell out int 0

# The nodes: the memory, the number left to count, the words 3 and 1, and one less than that number.
node 0 memory
node 1 var 0
node 0 word 3
node 0 word 1
node 1 sub 1 3

# Code type 0: nothing is known. Code type 1: r1 and r33 hold the number.
type 0 0
type 1 0
reg r1 G int 1
reg r33 B int 1

# Block 0 begins at address 1, block 1 at 7, block 2 at 17, block 3 at 18.
block 0
mov r1 G 3 int
mov r33 B 3 int
mov r2 G 18 code:1
mov r34 B 18 code:1
jmp_G r2
jmp_B r34 0 2

# Block 1 is exported as `next`: the number was shown. Count down; at 0 go to block 2, otherwise show the number.
block 1
sub r1 r1 G 1
sub r33 r33 B 1
mov r2 G 17 code:0
mov r34 B 17 code:0
bz_G r1 r2
bz_B r33 r34 0
mov r2 G 18 code:1
mov r34 B 18 code:1
jmp_G r2
jmp_B r34 0 4

block 0
halt

# Block 3 is a stub. It stands for the block that is exported as `show`.
block 1
halt

entry 0
