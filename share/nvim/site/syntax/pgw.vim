" Grammar files of pgw.
if exists('b:current_syntax')
    finish
endif
syntax case match
syntax keyword pgwItem class word operators gap reserved max table start head rest
syntax keyword pgwRole infixl infixr infix prefix postfix
syntax keyword pgwClass not
syntax keyword pgwForm satisfy string seq choice many chainl1 chainr1 try notFollowedBy eof expr declare text skip build label local
syntax keyword pgwForm many1 option between sepBy sepBy1 endBy
syntax match pgwNumber /\<\d\+\>/
syntax match pgwMark /[=|]\|\.\./
syntax match pgwEscape /\\\(["\\ntr]\|u{\x\{1,6}}\)/ contained
syntax region pgwLiteral start=/"/ skip=/\\./ end=/"/ oneline contains=pgwEscape
syntax match pgwComment /#.*$/ contains=@Spell
highlight default link pgwItem Statement
highlight default link pgwRole StorageClass
highlight default link pgwClass Operator
highlight default link pgwForm Function
highlight default link pgwNumber Number
highlight default link pgwMark Operator
highlight default link pgwEscape SpecialChar
highlight default link pgwLiteral String
highlight default link pgwComment Comment
let b:current_syntax = 'pgw'
