# scheduled.asm: the schedule of the object of fibonacci.src, as `talft dis` writes it. In block 2 the green
# instructions lead: the blue store (st_B) is 16 instructions after the green one (st_G).

cell out int 0
node 0 memory
node 4 var 0
node 4 var 1
node 4 var 2
node 4 var 3
node 0 word 0
node 0 word 0
node 0 word 0
node 0 word 0
node 0 word 1
node 0 word 0
node 0 add 9 10
node 4 word 0
node 4 add 4 12
node 4 word 10
node 4 ltu 13 14
node 4 word 0
node 4 add 1 16
node 4 word 1048576
node 4 upd 0 18 17
node 4 word 0
node 4 add 1 20
node 4 word 0
node 4 add 2 22
node 4 add 21 23
node 4 word 0
node 4 add 24 25
node 4 word 0
node 4 add 2 27
node 4 word 0
node 4 add 28 29
node 4 word 0
node 4 add 26 31
node 4 word 0
node 4 add 32 33
node 4 word 0
node 4 add 4 35
node 4 word 1
node 4 add 36 37
node 4 word 0
node 4 add 38 39
type 0 0
type 4 0
reg r0 G int 1
reg r1 G int 2
reg r2 G int 3
reg r3 G int 4
reg r32 B int 1
reg r33 B int 2
reg r34 B int 3
reg r35 B int 4
block 0
mov r0 G 0 int
mov r1 G 0 int
mov r2 G 0 int
mov r3 G 0 int
mov r5 G 1 int
add r1 r5 G 0
mov r4 G 17 code:1
mov r32 B 0 int
mov r33 B 0 int
mov r34 B 0 int
mov r35 B 0 int
mov r37 B 1 int
add r33 r37 B 0
mov r36 B 17 code:1
jmp_G r4
jmp_B r36 0 5 11 7 8
block 1
add r5 r3 G 0
mov r6 G 10 int
ltu r5 r5 r6
mov r4 G 61 code:1
add r37 r35 B 0
mov r38 B 10 int
ltu r37 r37 r38
mov r36 B 61 code:1
bz_G r5 r4
bz_B r37 r36 0 1 2 3 4
add r5 r0 G 0
mov r4 G 1048576 ref:int
st_G r4 r5
add r5 r0 G 0
add r6 r1 G 0
add r5 r5 r6
add r2 r5 G 0
add r5 r1 G 0
add r0 r5 G 0
add r5 r2 G 0
add r1 r5 G 0
add r5 r3 G 0
mov r6 G 1 int
add r5 r5 r6
add r3 r5 G 0
mov r4 G 17 code:1
add r37 r32 B 0
mov r36 B 1048576 ref:int
st_B r36 r37
add r37 r32 B 0
add r38 r33 B 0
add r37 r37 r38
add r34 r37 B 0
add r37 r33 B 0
add r32 r37 B 0
add r37 r34 B 0
add r33 r37 B 0
add r37 r35 B 0
mov r38 B 1 int
add r37 r37 r38
add r35 r37 B 0
mov r36 B 17 code:1
jmp_G r4
jmp_B r36 19 30 34 26 40
block 1
halt
entry 0
