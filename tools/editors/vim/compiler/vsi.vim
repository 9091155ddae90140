" `:make LATTICE` checks the text of the buffer, `:make --strict LATTICE` under the strict profile. A refusal names no
" file, so the command prints the name first.
if exists("current_compiler")
  finish
endif
let current_compiler = "vsi"

let s:cpo = &cpo
set cpo&vim

CompilerSet makeprg=(printf\ 'checking\ \\%s\\n'\ %:S;\ vsi\ check\ $*\ %:S)

" The name of the file, a refusal with a place, the first line of a refused flow, which is left out, a step of a walk,
" another refusal, such as that of a lattice file, and a file that can't be read. Other lines stay as they are.
CompilerSet errorformat=%-Pchecking\ %f,refused:\ %n\ %m\ %l:%c,%-Grefused:\ 25\ Refused,%l:%c\ %m,
      \refused:\ %n\ %m,file\ fault:\ %m

let &cpo = s:cpo
unlet s:cpo
