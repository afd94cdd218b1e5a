"""The passes of tools/wasm2asm: a module of WebAssembly becomes an assembly text. `translate` runs them in this order.

binary, opcodes, code, module   the bytes: read and validated
names, memory                   the memory that the program uses, in cells, and their names
build                           functions to graphs of values (ir, fold, words): structured control (build),
                                arithmetic (arith, divide), accesses (memory), calls (called), bulk memory (bulk),
                                floating point (floats)
opt, bits, ranges, narrow       folding; which bits may be 1, and which matter; ranges of words (loops: counters), and
                                what follows from them
layout, invariant, split        the order of blocks; what does not change in a loop moves ahead of it; a call ends its
                                block
subroutines, early, alloc,      registers, one function at a time; copies for the next iteration come before the branch
spill                           back
emit, pins, turn, nodes, text   instructions in two colours, code types and substitutions, and the text
"""
