" Vim syntax file
" Language: Ceptre, in the profile of docs/LANGUAGE.md

if exists("b:current_syntax")
  finish
endif

syntax case match

" Of two items that match at one place the later one counts.
syntax match ceptreError /\S/
syntax match ceptreMark /[:.,=(){}]/
syntax match ceptreOperator /[*$]/
syntax match ceptreArrow /-o\|<-/
syntax match ceptreNumber /[0-9]\+/
syntax match ceptreBlank /_/
syntax match ceptreVariable /[A-Z][A-Za-z0-9_\/']*/
syntax match ceptreName /[a-z][A-Za-z0-9_\/']*/
syntax match ceptreDeclared /[a-z][A-Za-z0-9_\/']*\ze\s*:/
syntax match ceptreReserved /\%(type\|pred\|bwd\|fact\|stage\|context\|qui\)[A-Za-z0-9_\/']\@!/
syntax match ceptreError /#[A-Za-z]\+/
syntax match ceptreDirective /#\%(trace\|interactive\)[A-Za-z]\@!/
syntax match ceptreComment /%.*/ contains=@Spell
syntax match ceptreTemplate /%:.*/ contains=@Spell

highlight default link ceptreError Error
highlight default link ceptreMark Delimiter
highlight default link ceptreOperator Operator
highlight default link ceptreArrow Operator
highlight default link ceptreNumber Number
highlight default link ceptreBlank Special
highlight default link ceptreVariable Identifier
highlight default link ceptreName Constant
highlight default link ceptreDeclared Function
highlight default link ceptreReserved Keyword
highlight default link ceptreDirective PreProc
highlight default link ceptreComment Comment
highlight default link ceptreTemplate String

let b:current_syntax = "ceptre"
