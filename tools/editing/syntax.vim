" Vim syntax file. Written by tools/editors from tools/editing/syntax.vim and the definitions.
" Language: {{title}}
if exists('b:current_syntax')
  finish
endif
let s:cpo_save = &cpo
set cpo&vim

syntax case ignore
syntax iskeyword 33-255

" A line is a comment, or it has a label, which begins in column 1, an operation, operands up to a blank outside quotes,
" and a comment.
syntax match {{language}}Comment /^\*.*/
syntax match {{language}}Blanks /^[ \t]\+/ nextgroup=@{{language}}Word
syntax match {{language}}BadLabel /^[^ \t*]\S*/ nextgroup=@{{language}}Word skipwhite
syntax match {{language}}Label /^\a[0-9A-Za-z]\{,5}\ze\%([ \t]\|$\)/ nextgroup=@{{language}}Word skipwhite
syntax match {{language}}Label /^{{vim_label}}\ze\%([ \t]\|$\)/ nextgroup=@{{language}}Word skipwhite
syntax match {{language}}Macro /^{{vim_macro}}\ze[ \t]\+MACRO\%([ \t]\|$\)/ nextgroup={{language}}MacroLine skipwhite
syntax match {{language}}MacroLine contained /MACRO/ nextgroup={{language}}Parameters skipwhite
syntax match {{language}}Parameters contained /\S\+/ nextgroup={{language}}Remark

syntax cluster {{language}}Word contains={{language}}Operation,{{language}}Bare,{{language}}Directive,
      \{{language}}BareDirective,{{language}}FileDirective,{{language}}MacroUse,{{language}}BadOperation
syntax match {{language}}BadOperation contained /\S\+/ nextgroup={{language}}Operands skipwhite
syntax match {{language}}MacroUse contained /{{vim_macro_word}}\ze\%([ \t]\|$\)/ nextgroup={{language}}Operands skipwhite
syntax keyword {{language}}Operation contained nextgroup={{language}}Operands skipwhite{{operations}}
syntax keyword {{language}}Bare contained nextgroup={{language}}Remark{{bare_operations}}
syntax keyword {{language}}Directive contained nextgroup={{language}}Operands skipwhite{{directives}}
syntax keyword {{language}}BareDirective contained nextgroup={{language}}Remark{{bare_directives}}
syntax keyword {{language}}FileDirective contained nextgroup={{language}}File skipwhite{{file_directives}}

syntax match {{language}}Operands contained /\%([^ \t']\|'[^']*\%('\|$\)\)\+/ contains=@{{language}}Operand
      \ nextgroup={{language}}Remark
syntax match {{language}}File contained /"[^"]*"\|'[^']*'/ nextgroup={{language}}Remark
syntax match {{language}}Remark contained /[ \t].*/

syntax cluster {{language}}Operand contains={{language}}BadSign,{{language}}Name,{{language}}LongName,
      \{{language}}Register,{{language}}Number,{{language}}Here,{{language}}Operator,{{language}}Prefix,
      \{{language}}OpenText,{{language}}Text,{{language}}Local,{{language}}Parameter
syntax match {{language}}BadSign contained /[^-+*\/ \t0-9A-Za-z>$@,()']/
syntax match {{language}}Name contained /\a[0-9A-Za-z]*/
syntax match {{language}}LongName contained /\a[0-9A-Za-z]\{6,}/
syntax match {{language}}Register contained /R\%(1[0-5]\|\d\)[0-9A-Za-z]\@!/
syntax match {{language}}Number contained /\d\+\|>\x\+/
syntax match {{language}}Here contained /\$/
syntax match {{language}}Operator contained /[-+*\/]/
syntax match {{language}}Prefix contained /[, \t(]\@1<={{vim_prefix}}/
syntax match {{language}}Local contained /{{vim_local}}/
syntax match {{language}}Parameter contained /{{vim_parameter}}/
syntax match {{language}}OpenText contained /'[^']*$/
syntax match {{language}}Text contained /'\%([^']\|''\)*'/

highlight default link {{language}}Comment Comment
highlight default link {{language}}Remark Comment
highlight default link {{language}}Label Function
highlight default link {{language}}Operation Statement
highlight default link {{language}}Bare Statement
highlight default link {{language}}Directive PreProc
highlight default link {{language}}BareDirective PreProc
highlight default link {{language}}FileDirective PreProc
highlight default link {{language}}Macro Macro
highlight default link {{language}}MacroLine PreProc
highlight default link {{language}}MacroUse Macro
highlight default link {{language}}Parameters Identifier
highlight default link {{language}}Parameter Special
highlight default link {{language}}Local Function
highlight default link {{language}}Name Identifier
highlight default link {{language}}Register Type
highlight default link {{language}}Number Number
highlight default link {{language}}Here Special
highlight default link {{language}}Operator Operator
highlight default link {{language}}Prefix Special
highlight default link {{language}}Text String
highlight default link {{language}}File String
highlight default link {{language}}BadLabel Error
highlight default link {{language}}BadOperation Error
highlight default link {{language}}LongName Error
highlight default link {{language}}BadSign Error
highlight default link {{language}}OpenText Error

let b:current_syntax = '{{language}}'
let &cpo = s:cpo_save
unlet s:cpo_save
