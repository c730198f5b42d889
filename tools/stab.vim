" Colours for programs of stab: copy this file to ~/.vim/syntax/stab.vim, and put into ~/.vimrc
"   autocmd BufNewFile,BufRead *.stab setfiletype stab
" docs/language.md has the tokens.
if exists("b:current_syntax")
  finish
endif

syntax case match
syntax keyword stabKeyword fn let if else
syntax keyword stabBoolean true false
syntax keyword stabType unit bool int text chan
" ref is a type, and an act before a parenthesis.
syntax match stabType /\<ref\>\ze\s*\[/
syntax match stabAct /\<ref\>\ze\s*(/
syntax keyword stabAct get set send recv pick spawn print probe fst snd
syntax keyword stabSection stable stabilize cut pin attempt
syntax match stabFunction /\%(\<fn\s\+\)\@<=\h\w*/
syntax match stabNumber /\<\d\+\>/
syntax match stabOperator /[-+*\/%!]\|[=!<>]=\|[<>]\|&&\|||/
syntax match stabComment /\/\/.*$/ contains=stabTodo
syntax keyword stabTodo TODO FIXME contained
" A text ends in its line, and only these two are escapes.
syntax region stabText start=/"/ skip=/\\["\\]/ end=/"/ oneline contains=stabEscape,stabBadEscape
syntax match stabBadEscape /\\[^"\\]/ contained
syntax match stabEscape /\\["\\]/ contained

highlight default link stabKeyword Keyword
highlight default link stabBoolean Boolean
highlight default link stabType Type
highlight default link stabAct Statement
highlight default link stabSection PreProc
highlight default link stabFunction Function
highlight default link stabNumber Number
highlight default link stabOperator Operator
highlight default link stabComment Comment
highlight default link stabTodo Todo
highlight default link stabText String
highlight default link stabEscape SpecialChar
highlight default link stabBadEscape Error

let b:current_syntax = "stab"
