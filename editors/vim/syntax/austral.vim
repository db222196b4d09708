" The words of Austral: keywords, universes, built-in types, numbers, texts, comments and docstrings.
if exists('b:current_syntax')
  finish
endif
syntax case match

syntax keyword australStructure module body is end import as pragma
syntax keyword australDeclaration constant type record union generic function typeclass instance method
syntax keyword australDeclaration let var
syntax keyword australConditional if then else case of when
syntax keyword australRepeat while for from to do
syntax keyword australStatement borrow in return skip
syntax keyword australOperator and or not
syntax keyword australConstant nil true false
syntax keyword australUniverse Free Linear Type Region
syntax keyword australBuiltin Unit Bool Nat8 Nat16 Nat32 Nat64 Int8 Int16 Int32 Int64 Index Span Static

syntax match australNumber /\<\d\+\>/
syntax match australSign /:=\|->\|=>\|&!\|&\~\|\/=\|<=\|>=\|[-+*\/=<>!&]/
syntax match australBadEscape /\\./ contained
syntax match australEscape /\\[nrt"\\]/ contained
syntax region australText start=/"/ skip=/\\./ end=/"/ oneline contains=australEscape,australBadEscape
syntax region australDocstring start=/"""/ end=/"""/
syntax match australComment /--.*$/ contains=australTodo
syntax keyword australTodo TODO FIXME contained

highlight default link australStructure Structure
highlight default link australDeclaration Keyword
highlight default link australConditional Conditional
highlight default link australRepeat Repeat
highlight default link australStatement Statement
highlight default link australOperator Operator
highlight default link australConstant Constant
highlight default link australUniverse StorageClass
highlight default link australBuiltin Type
highlight default link australNumber Number
highlight default link australSign Operator
highlight default link australEscape SpecialChar
highlight default link australBadEscape Error
highlight default link australText String
highlight default link australDocstring Comment
highlight default link australComment Comment
highlight default link australTodo Todo

let b:current_syntax = 'austral'
