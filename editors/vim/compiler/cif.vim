" `:compiler cif` and `:make`: checks the file, and leads to the place of a refusal.
if exists("current_compiler")
  finish
endif
let current_compiler = "cif"
CompilerSet makeprg=cif\ --places\ check\ %:S
" FILE:LINE:COLUMN: NUMBER NAME, and no other line
CompilerSet errorformat=%f:%l:%c:\ %n\ %m,%-G%.%#
