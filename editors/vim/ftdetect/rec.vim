autocmd BufRead,BufNewFile *.rec setfiletype rec
