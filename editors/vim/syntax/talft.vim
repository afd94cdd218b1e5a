" The source language of talft: docs/SOURCE_LANGUAGE.md.
if exists("b:current_syntax")
  finish
endif

" Of two items that match at the same place, the one defined later wins.
syntax match talftFault /[^ \t\r]/
syntax match talftMark /[][;(){}]/
syntax match talftOperator /[-+*<=&|^]\|==\|<<\|>>/
syntax match talftNumber /[0-9]\+/
syntax match talftName /[A-Za-z_][A-Za-z0-9_]*/
syntax match talftDeclaration /\%(cell\|var\)[A-Za-z0-9_]\@!/
syntax match talftLoop /while[A-Za-z0-9_]\@!/
syntax match talftChoice /\%(if\|else\)[A-Za-z0-9_]\@!/
syntax match talftFault /[A-Za-z_][A-Za-z0-9_]\{32,}/
syntax match talftComment /#.*/

highlight default link talftFault Error
highlight default link talftMark Delimiter
highlight default link talftOperator Operator
highlight default link talftNumber Number
highlight default link talftName Identifier
highlight default link talftDeclaration Type
highlight default link talftLoop Repeat
highlight default link talftChoice Conditional
highlight default link talftComment Comment

let b:current_syntax = "talft"
