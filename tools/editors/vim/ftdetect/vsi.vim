autocmd BufRead,BufNewFile *.vsi setfiletype vsi
