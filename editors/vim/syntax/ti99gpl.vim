" Vim syntax file. Written by tools/editors from tools/editing/syntax.vim and the definitions.
" Language: GPL of the TI-99/4A
if exists('b:current_syntax')
  finish
endif
let s:cpo_save = &cpo
set cpo&vim

syntax case ignore
syntax iskeyword 33-255

" A line is a comment, or it has a label, which begins in column 1, an operation, operands up to a blank outside quotes,
" and a comment.
syntax match ti99gplComment /^\*.*/
syntax match ti99gplBlanks /^[ \t]\+/ nextgroup=@ti99gplWord
syntax match ti99gplBadLabel /^[^ \t*]\S*/ nextgroup=@ti99gplWord skipwhite
syntax match ti99gplLabel /^\a[0-9A-Za-z]\{,5}\ze\%([ \t]\|$\)/ nextgroup=@ti99gplWord skipwhite
syntax match ti99gplLabel /^\%(\.[0-9A-Za-z_]\{1,31}\|\\\a[0-9A-Za-z_]*\)\ze\%([ \t]\|$\)/ nextgroup=@ti99gplWord skipwhite
syntax match ti99gplMacro /^\a[0-9A-Za-z_]\{,30}\ze[ \t]\+MACRO\%([ \t]\|$\)/ nextgroup=ti99gplMacroLine skipwhite
syntax match ti99gplMacroLine contained /MACRO/ nextgroup=ti99gplParameters skipwhite
syntax match ti99gplParameters contained /\S\+/ nextgroup=ti99gplRemark

syntax cluster ti99gplWord contains=ti99gplOperation,ti99gplBare,ti99gplDirective,
      \ti99gplBareDirective,ti99gplFileDirective,ti99gplMacroUse,ti99gplBadOperation
syntax match ti99gplBadOperation contained /\S\+/ nextgroup=ti99gplOperands skipwhite
syntax match ti99gplMacroUse contained /\%(\a[0-9A-Za-z_]\{,30}\|\\\a[0-9A-Za-z_]*\)\ze\%([ \t]\|$\)/ nextgroup=ti99gplOperands skipwhite
syntax keyword ti99gplOperation contained nextgroup=ti99gplOperands skipwhite
      \ ABS ADD ALL AND B BACK BR BS CALL CASE CEQ CGE CGT CH CHE CLOG CLR CZ DABS DADD DAND DCASE DCEQ DCGE DCGT DCH
      \ DCHE DCLOG DCLR DCZ DDEC DDECT DDIV DEC DECT DEX DINC DINCT DINV DIV DMUL DNEG DOR DSLL DSRA DSRC DSRL DST
      \ DSUB DXOR EX FETCH INC INCT INV MOVE MUL NEG OR PUSH RAND SLL SRA SRC SRL ST SUB XOR
syntax keyword ti99gplBare contained nextgroup=ti99gplRemark
      \ CARRY EXIT GT H OVF RTN RTNC
syntax keyword ti99gplDirective contained nextgroup=ti99gplOperands skipwhite
      \ AORG BSS BYTE CELL CELLS DATA END EQU GROM IF IFDEF MACRO TEXT
syntax keyword ti99gplBareDirective contained nextgroup=ti99gplRemark
      \ ELSE ENDIF ENDM
syntax keyword ti99gplFileDirective contained nextgroup=ti99gplFile skipwhite
      \ BIN COPY

syntax match ti99gplOperands contained /\%([^ \t']\|'[^']*\%('\|$\)\)\+/ contains=@ti99gplOperand
      \ nextgroup=ti99gplRemark
syntax match ti99gplFile contained /"[^"]*"\|'[^']*'/ nextgroup=ti99gplRemark
syntax match ti99gplRemark contained /[ \t].*/

syntax cluster ti99gplOperand contains=ti99gplBadSign,ti99gplName,ti99gplLongName,
      \ti99gplRegister,ti99gplNumber,ti99gplHere,ti99gplOperator,ti99gplPrefix,
      \ti99gplOpenText,ti99gplText,ti99gplLocal,ti99gplParameter
syntax match ti99gplBadSign contained /[^-+*\/ \t0-9A-Za-z>$@,()']/
syntax match ti99gplName contained /\a[0-9A-Za-z]*/
syntax match ti99gplLongName contained /\a[0-9A-Za-z]\{6,}/
syntax match ti99gplRegister contained /R\%(1[0-5]\|\d\)[0-9A-Za-z]\@!/
syntax match ti99gplNumber contained /\d\+\|>\x\+/
syntax match ti99gplHere contained /\$/
syntax match ti99gplOperator contained /[-+*\/]/
syntax match ti99gplPrefix contained /[, \t(]\@1<=\%([VGR]\=@\|V\=\*\)/
syntax match ti99gplLocal contained /\.[0-9A-Za-z_]\{1,31}/
syntax match ti99gplParameter contained /\\\%(LEN([0-9A-Za-z_]\+)\|\a[0-9A-Za-z_]*\)/
syntax match ti99gplOpenText contained /'[^']*$/
syntax match ti99gplText contained /'\%([^']\|''\)*'/

highlight default link ti99gplComment Comment
highlight default link ti99gplRemark Comment
highlight default link ti99gplLabel Function
highlight default link ti99gplOperation Statement
highlight default link ti99gplBare Statement
highlight default link ti99gplDirective PreProc
highlight default link ti99gplBareDirective PreProc
highlight default link ti99gplFileDirective PreProc
highlight default link ti99gplMacro Macro
highlight default link ti99gplMacroLine PreProc
highlight default link ti99gplMacroUse Macro
highlight default link ti99gplParameters Identifier
highlight default link ti99gplParameter Special
highlight default link ti99gplLocal Function
highlight default link ti99gplName Identifier
highlight default link ti99gplRegister Type
highlight default link ti99gplNumber Number
highlight default link ti99gplHere Special
highlight default link ti99gplOperator Operator
highlight default link ti99gplPrefix Special
highlight default link ti99gplText String
highlight default link ti99gplFile String
highlight default link ti99gplBadLabel Error
highlight default link ti99gplBadOperation Error
highlight default link ti99gplLongName Error
highlight default link ti99gplBadSign Error
highlight default link ti99gplOpenText Error

let b:current_syntax = 'ti99gpl'
let &cpo = s:cpo_save
unlet s:cpo_save
