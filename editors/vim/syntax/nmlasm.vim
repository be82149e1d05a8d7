" Assembly text for a processor that is described in nML. Which words are instructions stands in the description, so the first word
" of a line is shown as one.
if exists("b:current_syntax")
  finish
endif
syn case match

syn match nmlasmInstruction "^\s*\zs\h\+"
syn match nmlasmInstruction "\h\+" contained
syn match nmlasmLabel "^\s*\h\w*:" nextgroup=nmlasmInstruction skipwhite
syn match nmlasmReference "@\h\w*"
syn match nmlasmNumber "\w\@1<!-\=\d\+"
syn match nmlasmOperator "[,()\[\]{}<>+*/=&|^~!?#$]"

" .bits and the digits of a word; .data, a storage, a cell and a value
syn match nmlasmDirective "\.\%(bits\|data\)\>"
syn match nmlasmBits "\%(\.bits\s\+\)\@<=\x\+\>"
syn match nmlasmStorage "\%(\.data\s\+\)\@<=\h\w*\>"

syn match nmlasmComment ";.*$"

hi def link nmlasmInstruction Statement
hi def link nmlasmLabel Label
hi def link nmlasmReference Identifier
hi def link nmlasmNumber Number
hi def link nmlasmOperator Operator
hi def link nmlasmDirective PreProc
hi def link nmlasmBits Number
hi def link nmlasmStorage Type
hi def link nmlasmComment Comment

let b:current_syntax = "nmlasm"
