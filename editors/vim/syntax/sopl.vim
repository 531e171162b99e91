" Colours of texts of sopl: docs/LANGUAGE.md of sopl has the language.
if exists("b:current_syntax")
  finish
endif
syntax case match
syntax keyword soplDeclaration int range dvar stoch stage in
syntax keyword soplStatement subject to forall prob expected worst minimize maximize
syntax keyword soplFunction sum all allDifferent cumulative div mod min max abs
syntax match soplNumber "\<\d\+"
syntax match soplOperator "=>\|==\|!=\|<=\|>=\|&&\|||\|\.\.\|[-+*/<>=!]"
syntax match soplComment "//.*$"
syntax region soplComment start="/\*" end="\*/"
syntax sync fromstart
highlight default link soplDeclaration Type
highlight default link soplStatement Statement
highlight default link soplFunction Function
highlight default link soplNumber Number
highlight default link soplOperator Operator
highlight default link soplComment Comment
let b:current_syntax = "sopl"
