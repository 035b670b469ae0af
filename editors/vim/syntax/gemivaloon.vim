" Twelf signatures: keywords, comments, declared and bound names, free variables.
if exists('b:current_syntax')
  finish
endif

" A name is any run of characters but white space and : . ( ) [ ] { } " %
syntax match gemivaloonName /[^][:.(){}%" \t]\+/ contains=gemivaloonFixed,gemivaloonFree
syntax match gemivaloonDeclared /^\s*[^][:.(){}%" \t]\+\ze\s*[:=]\(\s\|$\)/
syntax match gemivaloonBound /[[{]\s*\zs[^][:.(){}%" \t]\+/
syntax match gemivaloonFree /\(^\|[][:.(){}%" \t]\)\@1<=[A-Z][^][:.(){}%" \t]*/ contained
syntax match gemivaloonFixed /\(^\|[][:.(){}%" \t]\)\@1<=\(type\|->\|<-\|=\|_\)\($\|[][:.(){}%" \t]\)\@=/ contained
syntax match gemivaloonKeyword /%[a-z]\+/
syntax match gemivaloonComment /%\($\|[% \t].*\)/
syntax region gemivaloonNested start=/%{/ end=/}%/ contains=gemivaloonNested
syntax region gemivaloonRest start=/%\./ end=/\%$/
syntax match gemivaloonBad /"/

highlight default link gemivaloonDeclared Function
highlight default link gemivaloonBound Identifier
highlight default link gemivaloonFree Identifier
highlight default link gemivaloonFixed Operator
highlight default link gemivaloonKeyword Keyword
highlight default link gemivaloonComment Comment
highlight default link gemivaloonNested Comment
highlight default link gemivaloonRest Comment
highlight default link gemivaloonBad Error

syntax sync fromstart
let b:current_syntax = 'gemivaloon'
