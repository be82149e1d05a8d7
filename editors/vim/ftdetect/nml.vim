" A description ends in .nml. A text of assembly is one for a described processor where a description stands in its folder.
autocmd BufRead,BufNewFile *.nml set filetype=nml
autocmd BufRead,BufNewFile *.asm if !empty(glob(expand("<afile>:p:h") . "/*.nml")) | set filetype=nmlasm | endif
