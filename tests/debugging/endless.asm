# endless.asm: counts forever, and stores each number. It is not accepted, but `debug` takes any object.
cell out int 0
cell seen int 0
node 0 memory
type 0 0
# start:
block 0
mov r1 G 0 int
mov r33 B 0 int
# loop:
block 0
add r1 r1 G 1
add r33 r33 B 1
mov r0 G 1048576 ref:int
mov r32 B 1048576 ref:int
st_G r0 r1
st_B r32 r33
mov r2 G 3 code:0
mov r34 B 3 code:0
jmp_G r2
jmp_B r34 0
entry 0
