" Ziria, a language for the bit and sample processing of wireless physical layers.
if exists("b:current_syntax")
  finish
endif

syntax case match

syntax match ziriaName "\<[A-Za-z_][A-Za-z0-9_]*\>"
syntax match ziriaNumber "\<\%(0x[0-9A-Fa-f]\+\|[0-9]\+\)\>"
syntax match ziriaBit "'[01]"
syntax region ziriaString start=+"+ end=+"+ oneline
syntax match ziriaComment "--.*$" contains=ziriaTodo
syntax keyword ziriaTodo contained TODO FIXME NOTE

syntax keyword ziriaDeclaration let var fun comp struct
syntax keyword ziriaComponent read write take takes emit emits return do map filter error
syntax keyword ziriaLoop repeat while until times for in
syntax keyword ziriaCondition if then else not
syntax keyword ziriaType arr bit bool int int8 int16 int32 int64 complex16 complex32
syntax keyword ziriaBoolean true false
syntax keyword ziriaReserved try with viterbi

syntax match ziriaPipe "|>>>|\|>>>"
syntax match ziriaBind "<-\|:="

highlight default link ziriaNumber Number
highlight default link ziriaBit Constant
highlight default link ziriaString String
highlight default link ziriaComment Comment
highlight default link ziriaTodo Todo
highlight default link ziriaDeclaration Keyword
highlight default link ziriaComponent Statement
highlight default link ziriaLoop Repeat
highlight default link ziriaCondition Conditional
highlight default link ziriaType Type
highlight default link ziriaBoolean Boolean
highlight default link ziriaReserved Error
highlight default link ziriaPipe Operator
highlight default link ziriaBind Operator

let b:current_syntax = "ziria"
