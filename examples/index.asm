# index.asm: copies the cell of `a` that the cell `i` selects to the cell `out`, and halts.

# The cells of `a` are a run of three. The address of a[0] is 1048576, that of `i` is 1048579, that of `out` 1048580.
cell a[0] int 10
cell a[1] int 20
cell a[2] int 30
cell i int 4
cell out int 0

node 0 memory
type 0 0

block 0
mov r0 G 1048579 ref:int
mov r32 B 1048579 ref:int
ld_G r1 r0
ld_B r33 r32
# The address of a cell among the 3 cells from cell 0 on: number 4 modulo 3, which is a[1].
idx r2 r1 0 3
idx r34 r33 0 3
ld_G r3 r2
ld_B r35 r34
mov r4 G 1048580 ref:int
mov r36 B 1048580 ref:int
st_G r4 r3
st_B r36 r35
halt

entry 0
