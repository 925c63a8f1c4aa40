" Settings for assembler sources: those for GPL sources.
if exists('b:did_ftplugin')
  finish
endif
runtime! ftplugin/ti99gpl.vim
