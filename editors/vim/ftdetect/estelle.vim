" Made by bench/editors.sh.
autocmd BufRead,BufNewFile *.est setfiletype estelle
