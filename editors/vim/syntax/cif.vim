" CIF 3, as cif reads it.
if exists("b:current_syntax")
  finish
endif
syntax case match
syntax iskeyword @,48-57,_,$
syntax keyword cifComponent automaton plant requirement supervisor group def
syntax keyword cifDeclaration controllable uncontrollable event input disc alg const enum type
syntax keyword cifType bool int void
syntax keyword cifStatement edge when do goto needs disables end
syntax keyword cifConditional if elif else
syntax keyword cifLabel location initial marked alphabet monitor equation invariant
syntax keyword cifOperator and or not div mod
syntax keyword cifFunction abs min max
syntax keyword cifBoolean true false
syntax keyword cifUnread any cont der dict dist func import in list namespace now pow print real self set string sub switch tau time tuple urgent
syntax match cifNumber "\<\%(0\|[1-9]\d*\)\>"
syntax match cifSign "<=>\|:=\|!=\|<=\|>=\|=>\|[-+*=<>!?]"
syntax keyword cifTodo TODO FIXME contained
syntax match cifComment "//.*" contains=cifTodo
syntax region cifComment start="/\*" end="\*/" contains=cifTodo
syntax sync ccomment cifComment

highlight default link cifComponent Structure
highlight default link cifDeclaration StorageClass
highlight default link cifType Type
highlight default link cifStatement Statement
highlight default link cifConditional Conditional
highlight default link cifLabel Label
highlight default link cifOperator Operator
highlight default link cifSign Operator
highlight default link cifFunction Function
highlight default link cifBoolean Boolean
highlight default link cifUnread Error
highlight default link cifNumber Number
highlight default link cifTodo Todo
highlight default link cifComment Comment
let b:current_syntax = "cif"
