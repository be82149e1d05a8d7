" Descriptions of processors in nML.
if exists("b:current_syntax")
  finish
endif
syn case match

" the language's keywords, each once
syn keyword nmlDeclaration let type mem reg trn inp out op opn mode
syn keyword nmlAttribute syntax image action format
syn keyword nmlConditional if then else endif
syn keyword nmlType bool card int fix float
syn keyword nmlFunction sat bits halt
syn keyword nmlBoolean true false

syn match nmlOperator "[-=!<>+*&|^~]"
syn match nmlNumber "\<\%(0x\x\+\|0b[01]\+\|\d\+\)\>"

" a string ends on its line; %s and %d, and %b with the width of a field
syn match nmlDirective "%\d*[sdb]" contained
syn match nmlString "\"[ -!#-~]*\"" contains=nmlDirective
syn match nmlUnfinished "\"[^\"]*$"

syn match nmlComment "//.*$"
syn region nmlComment start="/\*" end="\*/"

" name is the rule in 'op name' and 'mode name'
syn match nmlRule "\%(\<\%(op\|opn\|mode\)\s\+\)\@<=\h\w*"

hi def link nmlDeclaration Keyword
hi def link nmlAttribute Label
hi def link nmlConditional Conditional
hi def link nmlType Type
hi def link nmlFunction Function
hi def link nmlBoolean Boolean
hi def link nmlOperator Operator
hi def link nmlNumber Number
hi def link nmlDirective Special
hi def link nmlString String
hi def link nmlUnfinished Error
hi def link nmlComment Comment
hi def link nmlRule Identifier

let b:current_syntax = "nml"
