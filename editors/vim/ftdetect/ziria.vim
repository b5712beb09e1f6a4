autocmd BufNewFile,BufRead *.zir setfiletype ziria
