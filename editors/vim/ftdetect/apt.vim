" Made by tools/syntax of the vocabulary in docs/LANGUAGE.md.
autocmd BufNewFile,BufRead *.apt setfiletype apt
