" Scenarios, measure texts and short scenarios by the ends of their names, and reports by their first line.
autocmd BufNewFile,BufRead *.snp,*.measure set filetype=snp
autocmd BufNewFile,BufRead *.lab let b:snp_short = 1 | set filetype=snp
autocmd BufNewFile,BufRead * if getline(1) =~# '^snp-report [0-9]\+$' | set filetype=snpreport | endif
