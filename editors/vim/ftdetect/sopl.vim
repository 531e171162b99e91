autocmd BufRead,BufNewFile *.sopl setfiletype sopl
