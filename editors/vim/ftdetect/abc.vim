" Files that end in .abc are programs in ABC. (Vim takes them for music else.)
autocmd BufNewFile,BufRead *.abc set filetype=abc
