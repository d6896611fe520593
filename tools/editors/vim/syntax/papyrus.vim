" Highlights scripts of Papyrus, the language of the Creation Kit.
if exists("b:current_syntax")
  finish
endif
let s:cpo_save = &cpo
set cpo&vim

syntax case ignore

syntax keyword papyrusDeclaration ScriptName Extends Import Property EndProperty State EndState EndFunction EndEvent
syntax keyword papyrusDeclaration Function Event nextgroup=papyrusFunction skipwhite
syntax keyword papyrusFlag Auto AutoReadOnly Global Native Hidden Conditional
syntax keyword papyrusConditional If ElseIf Else EndIf
syntax keyword papyrusRepeat While EndWhile
syntax keyword papyrusStatement Return
syntax keyword papyrusOperator As New
syntax keyword papyrusType Bool Float Int String
syntax keyword papyrusBoolean True False
syntax keyword papyrusSpecial None Self Parent Length

syntax match papyrusFunction /\h\w*/ contained
syntax match papyrusNumber /\<\d\+\(\.\d\+\)\=\>/
syntax match papyrusNumber /\<0x\x\+\>/
syntax match papyrusEscape /\\[nt\\"]/ contained
syntax region papyrusText start=/"/ skip=/\\\\\|\\"/ end=/"/ end=/$/ contains=papyrusEscape,@Spell

syntax keyword papyrusTodo TODO FIXME XXX contained
" The second begins where the first does too, and the later one is taken.
syntax match papyrusComment /;.*$/ contains=papyrusTodo,@Spell
syntax region papyrusComment start=/;\// end=/\/;/ contains=papyrusTodo,@Spell
syntax region papyrusDocumentation start=/{/ end=/}/ contains=papyrusTodo,@Spell

" Comments and documentation may begin far above the window.
syntax sync fromstart

highlight default link papyrusDeclaration Keyword
highlight default link papyrusFlag StorageClass
highlight default link papyrusConditional Conditional
highlight default link papyrusRepeat Repeat
highlight default link papyrusStatement Statement
highlight default link papyrusOperator Operator
highlight default link papyrusType Type
highlight default link papyrusBoolean Boolean
highlight default link papyrusSpecial Constant
highlight default link papyrusFunction Function
highlight default link papyrusNumber Number
highlight default link papyrusEscape SpecialChar
highlight default link papyrusText String
highlight default link papyrusTodo Todo
highlight default link papyrusComment Comment
highlight default link papyrusDocumentation SpecialComment

let b:current_syntax = "papyrus"
let &cpo = s:cpo_save
unlet s:cpo_save
