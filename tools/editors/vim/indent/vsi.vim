" Indents a source text of vsi as `vsi fmt` lays it out.
if exists("b:did_indent")
  finish
endif
let b:did_indent = 1

let s:cpo = &cpo
set cpo&vim

setlocal autoindent indentexpr=VsiIndent(v:lnum) indentkeys=0{,0},!^F,o,O,=else,=then,=do,=in
let b:undo_indent = "setlocal autoindent< indentexpr< indentkeys<"

let &cpo = s:cpo
unlet s:cpo

if exists("*VsiIndent")
  finish
endif

" A line without its comment and the blanks around the rest.
function s:Code(number)
  return trim(substitute(getline(a:number), '#.*', '', ''))
endfunction

" The last line in front of a line that has more than a comment, or 0.
function s:Before(number)
  let number = prevnonblank(a:number - 1)
  while number > 0 && s:Code(number) ==# ''
    let number = prevnonblank(number - 1)
  endwhile
  return number
endfunction

" The line of the word or the bracket that the one at the beginning of a line belongs to, or 0.
function s:Partner(number, start, end)
  call cursor(a:number, 1)
  return searchpair(a:start, '', a:end, 'bnW', "getline('.')[:col('.') - 1] =~# '#'")
endfunction

" The indent of the commands of the block around a line; outside of all blocks it is 0.
function s:Around(number)
  let line = s:Partner(a:number, '{', '}')
  return line ? indent(line) + shiftwidth() : 0
endfunction

" The words that begin a line, each with the word of the command that it belongs to.
let s:partners = {'then': 'if', 'else': 'if', 'do': 'while', 'in': 'letvar'}

function VsiIndent(number) abort
  let before = s:Before(a:number)
  if before == 0
    return 0
  endif
  let code = s:Code(a:number)
  if code =~# '^}'
    let line = s:Partner(a:number, '{', '}')
    return line ? indent(line) : 0
  endif
  let word = matchstr(code, '^\%(then\|else\|do\|in\)\>')
  if word !=# ''
    let line = s:Partner(a:number, '\<' .. s:partners[word] .. '\>', '\<' .. word .. '\>')
    return line ? indent(line) : indent(before)
  endif
  let last = s:Code(before)
  if last =~# ';$'
    return s:Around(a:number)
  endif
  if last =~# '\%({\|\<then\|\<else\|\<do\|\<in\)$'
    return indent(before) + shiftwidth()
  endif
  " A command goes on: its second line is indented, and the others are as that one.
  let first = s:Before(before)
  if first == 0 || s:Code(first) =~# '\%(;\|{\|\<then\|\<else\|\<do\|\<in\)$'
    return indent(before) + shiftwidth()
  endif
  return indent(before)
endfunction
