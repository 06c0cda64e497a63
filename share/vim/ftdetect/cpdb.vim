" Files of statements end in .cpdb, as some name their stores too: a store begins with the byte 1 and CPDB, or with a zero byte.
autocmd BufNewFile,BufRead *.cpdb if getline(1) !~# '^[\x00\x01\n]' | setfiletype cpdb | endif
