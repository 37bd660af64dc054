autocmd BufNewFile,BufRead *.cif setfiletype cif
" Vim takes a file .st for Smalltalk; one that begins as a program is Structured Text.
autocmd BufNewFile,BufRead *.st if getline(nextnonblank(1)) =~? '^\s*\%(PROGRAM\>\|(\*\)' | set filetype=iecst | endif
