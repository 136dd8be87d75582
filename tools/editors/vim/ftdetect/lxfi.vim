" Cases end with .case. An interface begins with `interface 1`, `interface 2` or `lxfi_c 1`.
autocmd BufRead,BufNewFile *.case setfiletype lxficase
autocmd BufRead *.txt if getline(1) =~# '^interface [12]\>\|^lxfi_c 1$' | set filetype=lxfiinterface | endif
