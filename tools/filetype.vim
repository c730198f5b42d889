" Programs of stab by the end of their names.
autocmd BufNewFile,BufRead *.stab setfiletype stab
