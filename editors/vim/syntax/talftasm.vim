" The assembly texts of talft: docs/ASSEMBLY.md. Words are separated by blanks.
if exists("b:current_syntax")
  finish
endif

syntax match talftasmNumber /\s\@1<=\%(0\|[1-9]\d*\)\%(\s\|$\)\@=/
syntax match talftasmRegister /\s\@1<=r\%([0-9]\|[1-5][0-9]\|6[0-3]\)\%(\s\|$\)\@=/
syntax match talftasmType /\s\@1<=\%(ref:\)*\%(int\|code:\d\+\)\%(\s\|$\)\@=/
syntax match talftasmColour /\s\@1<=[GB]\%(\s\|$\)\@=/
syntax match talftasmTable /^\s*\%(cell\|node\|type\|reg\|pend\|block\|entry\)\%(\s\|$\)\@=/
syntax match talftasmInstruction /^\s*\%(add\|sub\|mul\|ltu\|eq\|and\|or\|xor\|shl\|shr\|mov\|idx\|halt\|\%(ld\|st\|jmp\|bz\)_[GB]\)\%(\s\|$\)\@=/
syntax match talftasmComment /^\s*#.*/

highlight default link talftasmNumber Number
highlight default link talftasmRegister Identifier
highlight default link talftasmType Type
highlight default link talftasmColour Constant
highlight default link talftasmTable Structure
highlight default link talftasmInstruction Statement
highlight default link talftasmComment Comment

let b:current_syntax = "talftasm"
