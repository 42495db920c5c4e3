autocmd BufRead,BufNewFile *.betable,*.script setfiletype betable
