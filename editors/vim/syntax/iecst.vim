" Structured Text (IEC 61131-3), as cif reads it.
if exists("b:current_syntax")
  finish
endif
syntax case ignore
syntax keyword iecstProgram PROGRAM END_PROGRAM
syntax keyword iecstBlock VAR VAR_INPUT VAR_OUTPUT CONSTANT END_VAR
syntax keyword iecstType BOOL LINT
syntax keyword iecstConditional IF THEN ELSIF ELSE END_IF
syntax keyword iecstRepeat WHILE DO END_WHILE
syntax keyword iecstOperator OR XOR AND NOT MOD
syntax keyword iecstFunction ABS MIN MAX SEL
syntax keyword iecstBoolean TRUE FALSE
syntax keyword iecstUnread DINT AT CASE OF END_CASE FOR TO BY END_FOR REPEAT UNTIL END_REPEAT EXIT RETURN
syntax keyword iecstUnread FUNCTION FUNCTION_BLOCK ARRAY STRUCT STRING REAL LREAL TIME TYPE
syntax match iecstNumber "\<\d\+\>"
syntax match iecstOwn "\<T\d\+_\w\+\>"
syntax match iecstSign ":=\|<>\|<=\|>=\|[-+*/=<>&]"
syntax region iecstComment start="(\*" end="\*)"
syntax sync minlines=200

highlight default link iecstProgram Structure
highlight default link iecstBlock StorageClass
highlight default link iecstType Type
highlight default link iecstConditional Conditional
highlight default link iecstRepeat Repeat
highlight default link iecstOperator Operator
highlight default link iecstSign Operator
highlight default link iecstFunction Function
highlight default link iecstBoolean Boolean
highlight default link iecstUnread Error
highlight default link iecstNumber Number
highlight default link iecstOwn Special
highlight default link iecstComment Comment
let b:current_syntax = "iecst"
