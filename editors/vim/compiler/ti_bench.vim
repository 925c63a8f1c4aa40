" Vim compiler file
" Compiler: ti_bench, by its script `assemble`
"
" `:make` checks the source and writes nothing, and `:make -o FILE` writes what it is assembled to. The script is the
" one in the folder that these files belong to, else `ti_bench-assemble` on the path; g:ti_bench_assemble names another.
if exists('current_compiler')
  finish
endif
let current_compiler = 'ti_bench'
let s:cpo_save = &cpo
set cpo&vim

if exists(':CompilerSet') != 2
  command -nargs=* CompilerSet setlocal <args>
endif

let s:script = fnamemodify(resolve(expand('<sfile>:p')), ':h:h:h:h') . '/tools/assemble'
let s:script = get(g:, 'ti_bench_assemble', executable(s:script) ? s:script : 'ti_bench-assemble')
let s:kind = get({'ti99gpl': ' --gpl', 'ti99asm': ' --asm'}, &filetype, '')
let s:words = escape(shellescape(s:script), '%#!') . s:kind . ' -o /dev/null $* -- %:S'
execute 'CompilerSet makeprg=' . escape(s:words, " \t|\"\\")
CompilerSet errorformat=%-G\ \ \ \ %.%#,%I%f:%l:\ note:\ %m,%E%f:%l:\ %m

let &cpo = s:cpo_save
unlet s:cpo_save s:script s:kind s:words
