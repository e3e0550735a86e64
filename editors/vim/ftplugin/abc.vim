" What an editor does for lines of ABC: comments begin with a backslash, and suites stand two columns deeper.
if exists("b:did_ftplugin")
  finish
endif
let b:did_ftplugin = 1
setlocal comments=:\\ commentstring=\\\ %s
setlocal expandtab shiftwidth=2 softtabstop=2 textwidth=0
let b:undo_ftplugin = "setlocal comments< commentstring< expandtab< shiftwidth< softtabstop< textwidth<"
