" Made by editors/generate.py. A file NAME.feed, and each file that begins with the first line of a job text.
autocmd BufRead,BufNewFile *.feed setfiletype nursery
autocmd BufRead * if getline(1) =~# '^trio-job [123]$' | setfiletype nursery | endif
