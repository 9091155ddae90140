" What a buffer with a source text of vsi is set to.
if exists("b:did_ftplugin")
  finish
endif
let b:did_ftplugin = 1

let s:cpo = &cpo
set cpo&vim

setlocal comments=:# commentstring=#\ %s
setlocal iskeyword=48-57,65-90,95,97-122
setlocal expandtab shiftwidth=2 softtabstop=2
compiler vsi

let b:undo_ftplugin = "setlocal comments< commentstring< iskeyword< expandtab< shiftwidth< softtabstop<"
      \ .. " makeprg< errorformat< | unlet! b:current_compiler"

let &cpo = s:cpo
unlet s:cpo
