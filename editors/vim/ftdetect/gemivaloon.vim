" Files of Twelf signatures.
autocmd BufNewFile,BufRead *.elf setfiletype gemivaloon
