autocmd BufRead,BufNewFile *.cep setfiletype ceptre
