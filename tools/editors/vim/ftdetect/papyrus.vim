" Scripts of Papyrus by their files' names.
autocmd BufRead,BufNewFile *.psc setfiletype papyrus
