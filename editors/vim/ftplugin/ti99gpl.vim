" Settings for sources of the TI-99/4A: operations begin in column 8, operands in column 13, comments in column 31.
if exists('b:did_ftplugin')
  finish
endif
let b:did_ftplugin = 1

setlocal comments=:* commentstring=*\ %s formatoptions-=t
setlocal expandtab tabstop=8
let b:undo_ftplugin = 'setlocal comments< commentstring< formatoptions< expandtab< tabstop< makeprg< errorformat<'
if exists('+varsofttabstop')
  setlocal varsofttabstop=7,5,18,8
  let b:undo_ftplugin .= ' varsofttabstop<'
endif
compiler ti_bench
