" Grammar files of pgw. Other files end in .g too, so one is taken for a grammar file where an item says which rule a text starts with.
autocmd BufRead,BufNewFile *.pgw set filetype=pgw
autocmd BufRead,BufNewFile *.g if search('^\s*start\s\+\a\w*\s*;', 'nw') | set filetype=pgw | endif
