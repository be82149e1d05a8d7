" Comments of assembly texts. A plugin for other texts of assembly may have come before, and this one goes over it.
let b:did_ftplugin = 1
setlocal commentstring=;\ %s
setlocal comments=:;
let b:undo_ftplugin = "setlocal commentstring< comments<"
