" Vim syntax file
" Language: decks of chilltune (*.deck)

if exists("b:current_syntax")
  finish
endif

syntax case match
syntax iskeyword 48-57,65-90,95,97-122

" what no deck may hold: other signs, and bytes from 128 on
syntax match chilltuneError "[^ \t\r\nA-Za-z0-9_#()\[\]{},;+\-*=<>]"

syntax match chilltuneComment "#.*$" contains=chilltuneTodo,chilltuneWide
syntax keyword chilltuneTodo TODO FIXME XXX contained
syntax match chilltuneWide "[^\x00-\x7F]" contained

syntax match chilltuneNumber "\d\+"
syntax match chilltuneOperator "[-+*=]\|++\|[<>]=\?"

" sections, and the names behind their words
syntax keyword chilltuneSection program recipe session client nextgroup=chilltuneName skipwhite
syntax match chilltuneName "[A-Za-z_][A-Za-z0-9_]*" contained
syntax match chilltuneWord "[A-Za-z_][A-Za-z0-9_]*"

" declarations and clauses
syntax keyword chilltuneDeclare let array param nextgroup=chilltuneName skipwhite
syntax keyword chilltuneRepeat for
syntax keyword chilltuneFunction max min
syntax keyword chilltuneClause fill to step call machine eager patient

" words that are plain names elsewhere, where they begin an item, a command or a line
syntax match chilltuneConditional "\<if\>\ze\_s*("
syntax match chilltuneClause "\<repeat\>\ze\_s*\d"
syntax match chilltuneCommand "\<require\>\ze\_s*("
syntax match chilltuneCommand "\<\%(permute\|skew\|shift\|tile\|unroll\|split\|peel\|fuse\|distribute\|datacopy\|accumulate\)\>\ze\_s*("

" the values of loops, in the condition of a split
syntax match chilltuneLevel "\<L\%([1-9]\|10\)\>"

highlight default link chilltuneError Error
highlight default link chilltuneWide Error
highlight default link chilltuneComment Comment
highlight default link chilltuneTodo Todo
highlight default link chilltuneNumber Number
highlight default link chilltuneOperator Operator
highlight default link chilltuneSection Structure
highlight default link chilltuneName Identifier
highlight default link chilltuneDeclare Type
highlight default link chilltuneRepeat Repeat
highlight default link chilltuneFunction Function
highlight default link chilltuneClause Keyword
highlight default link chilltuneConditional Conditional
highlight default link chilltuneCommand Statement
highlight default link chilltuneLevel Special

let b:current_syntax = "chilltune"
