" GPL sources and assembler sources by the ends of their names, in small or capital letters. Other programs have sources
" and archives that end in .a, .asm, .src or .obj: g:ti99asm_endings lists those that are assembler sources of the
" TI-99/4A here.
autocmd BufNewFile,BufRead *.[gG][pP][lL] setfiletype ti99gpl
autocmd BufNewFile,BufRead *.[aA]99 setfiletype ti99asm
" Vim may have taken them for the sources of another assembler before, and then its settings are loaded.
for s:ending in get(g:, 'ti99asm_endings', [])
  let s:pattern = substitute(s:ending, '\a', '[\l&\u&]', 'g')
  execute 'autocmd BufNewFile,BufRead *.' . s:pattern 'unlet! b:did_ftplugin | set filetype=ti99asm'
endfor
