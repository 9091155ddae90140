" Words, symbols and comments of vsi, as docs/LANGUAGE.md has them.
if exists("b:current_syntax")
  finish
endif
let s:cpo = &cpo
set cpo&vim

syntax case match
syntax iskeyword 48-57,65-90,95,97-122

" Where several of these match at one place, the last one counts, and a keyword before all of them.
syntax match vsiBadByte "[^ \t\r]"

" A word is as long as it can be. A number is at most 9223372036854775807, and zeros may lead.
syntax match vsiBadWord "\w\+"
syntax match vsiName "\a\w\{0,31}\w\@!"
syntax match vsiNumber "\d\+\w\@!"
syntax match vsiBadNumber "0*[1-9]\d\{19,}\w\@!"
syntax match vsiBadNumber "0*9[3-9]\d\{17}\w\@!"
syntax match vsiBadNumber "0*92[3-9]\d\{16}\w\@!"
syntax match vsiBadNumber "0*922[4-9]\d\{15}\w\@!"
syntax match vsiBadNumber "0*9223[4-9]\d\{14}\w\@!"
syntax match vsiBadNumber "0*92233[8-9]\d\{13}\w\@!"
syntax match vsiBadNumber "0*922337[3-9]\d\{12}\w\@!"
syntax match vsiBadNumber "0*9223372[1-9]\d\{11}\w\@!"
syntax match vsiBadNumber "0*92233720[4-9]\d\{10}\w\@!"
syntax match vsiBadNumber "0*922337203[7-9]\d\{9}\w\@!"
syntax match vsiBadNumber "0*92233720369\d\{8}\w\@!"
syntax match vsiBadNumber "0*92233720368[6-9]\d\{7}\w\@!"
syntax match vsiBadNumber "0*922337203685[5-9]\d\{6}\w\@!"
syntax match vsiBadNumber "0*9223372036854[8-9]\d\{5}\w\@!"
syntax match vsiBadNumber "0*92233720368547[8-9]\d\{4}\w\@!"
syntax match vsiBadNumber "0*922337203685477[6-9]\d\{3}\w\@!"
syntax match vsiBadNumber "0*92233720368547759\d\{2}\w\@!"
syntax match vsiBadNumber "0*92233720368547758[1-9]\d\w\@!"
syntax match vsiBadNumber "0*922337203685477580[8-9]\w\@!"

syntax keyword vsiDeclaration var letvar in
syntax keyword vsiConditional if then else
syntax keyword vsiRepeat while do

syntax match vsiDelimiter "[;(){}]"
syntax match vsiOperator "[+*=<-]"
syntax match vsiDelimiter ":" nextgroup=vsiClass,vsiClassComment skipwhite skipempty
syntax match vsiAssignment ":="

" The name behind a `:` is that of a class; a comment may stand between them.
syntax match vsiClass contained
      \ "\%(\%(var\|letvar\|in\|if\|then\|else\|while\|do\)\w\@!\)\@!\a\w\{0,31}\w\@!"
syntax match vsiClassComment contained "#.*" contains=@Spell nextgroup=vsiClass,vsiClassComment skipwhite skipempty
syntax match vsiComment "#.*" contains=@Spell
syntax sync minlines=20

highlight default link vsiDeclaration Statement
highlight default link vsiConditional Conditional
highlight default link vsiRepeat Repeat
highlight default link vsiName Identifier
highlight default link vsiClass Type
highlight default link vsiNumber Number
highlight default link vsiAssignment Operator
highlight default link vsiOperator Operator
highlight default link vsiDelimiter Delimiter
highlight default link vsiComment Comment
highlight default link vsiClassComment Comment
highlight default link vsiBadByte Error
highlight default link vsiBadWord Error
highlight default link vsiBadNumber Error

let b:current_syntax = "vsi"
let &cpo = s:cpo
unlet s:cpo
