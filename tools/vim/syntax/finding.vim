" Vim syntax file for finding.txt, a finding in the notation of docs/NOTATION.md.
if exists('b:current_syntax')
  finish
endif

syntax case match
syntax iskeyword a-z,A-Z,48-57,_

" The reserved words.
syntax keyword findingSection names first second formula answer
syntax keyword findingProcess nil new repl let
syntax keyword findingAction out in tau
syntax keyword findingConditional if then else
syntax keyword findingFunction pair fst snd enc dec mac
syntax keyword findingLogic not and or
syntax keyword findingConstant true

" An abbreviation starts with a capital letter, and a number with a digit.
syntax match findingAbbreviation /\<[A-Z][A-Za-z0-9_]*/
syntax match findingNumber /\<[0-9]\+\>/
syntax match findingFault /\<[0-9]\+[A-Za-z_][A-Za-z0-9_]*/
syntax match findingOperator /!=\|=\||/

" The label of a step formula, between its brackets.
syntax region findingLabel matchgroup=findingBracket start=/</ end=/>/ contains=@findingInLabel
syntax region findingLabel matchgroup=findingBracket start=/\[/ end=/\]/ contains=@findingInLabel
syntax cluster findingInLabel contains=findingAction,findingFunction,findingNumber,findingFault,findingComment

syntax match findingComment /#.*/ contains=@Spell,findingTodo
syntax match findingTodo /\<\(TODO\|FIXME\)\>/ contained

highlight default link findingSection Statement
highlight default link findingProcess Keyword
highlight default link findingAction Type
highlight default link findingConditional Conditional
highlight default link findingFunction Function
highlight default link findingLogic Operator
highlight default link findingConstant Boolean
highlight default link findingAbbreviation Identifier
highlight default link findingNumber Number
highlight default link findingFault Error
highlight default link findingOperator Operator
highlight default link findingLabel Special
highlight default link findingBracket Delimiter
highlight default link findingComment Comment
highlight default link findingTodo Todo

let b:current_syntax = 'finding'
