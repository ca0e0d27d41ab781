" Protocols of Slice. (Vim's own file type `slice` is another language's.)
autocmd BufRead,BufNewFile *.slice set filetype=slicecake
