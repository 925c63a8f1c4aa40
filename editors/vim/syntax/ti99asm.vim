" Vim syntax file. Written by tools/editors from tools/editing/syntax.vim and the definitions.
" Language: TMS9900 assembler of the TI-99/4A
if exists('b:current_syntax')
  finish
endif
let s:cpo_save = &cpo
set cpo&vim

syntax case ignore
syntax iskeyword 33-255

" A line is a comment, or it has a label, which begins in column 1, an operation, operands up to a blank outside quotes,
" and a comment.
syntax match ti99asmComment /^\*.*/
syntax match ti99asmBlanks /^[ \t]\+/ nextgroup=@ti99asmWord
syntax match ti99asmBadLabel /^[^ \t*]\S*/ nextgroup=@ti99asmWord skipwhite
syntax match ti99asmLabel /^\a[0-9A-Za-z]\{,5}\ze\%([ \t]\|$\)/ nextgroup=@ti99asmWord skipwhite
syntax match ti99asmMacroLine contained /MACRO/ nextgroup=ti99asmParameters skipwhite
syntax match ti99asmParameters contained /\S\+/ nextgroup=ti99asmRemark

syntax cluster ti99asmWord contains=ti99asmOperation,ti99asmBare,ti99asmDirective,
      \ti99asmBareDirective,ti99asmFileDirective,ti99asmMacroUse,ti99asmBadOperation
syntax match ti99asmBadOperation contained /\S\+/ nextgroup=ti99asmOperands skipwhite
syntax keyword ti99asmOperation contained nextgroup=ti99asmOperands skipwhite
      \ A AB ABS AI ANDI B BL BLWP C CB CI CLR COC CZC DEC DECT DIV INC INCT INV JEQ JGT JH JHE JL JLE JLT JMP JNC JNE
      \ JNO JOC JOP LDCR LI LIMI LWPI MOV MOVB MPY NEG ORI S SB SBO SBZ SETO SLA SOC SOCB SRA SRC SRL STCR STST STWP
      \ SWPB SZC SZCB TB X XOP XOR
syntax keyword ti99asmBare contained nextgroup=ti99asmRemark
      \ CKOF CKON IDLE LREX NOP RSET RT RTWP
syntax keyword ti99asmDirective contained nextgroup=ti99asmOperands skipwhite
      \ AORG BES BSS BYTE DATA DEF DORG END EQU IDT REF RORG TEXT TITL
syntax keyword ti99asmBareDirective contained nextgroup=ti99asmRemark
      \ EVEN LIST PAGE UNL
syntax keyword ti99asmFileDirective contained nextgroup=ti99asmFile skipwhite
      \ COPY

syntax match ti99asmOperands contained /\%([^ \t']\|'[^']*\%('\|$\)\)\+/ contains=@ti99asmOperand
      \ nextgroup=ti99asmRemark
syntax match ti99asmFile contained /"[^"]*"\|'[^']*'/ nextgroup=ti99asmRemark
syntax match ti99asmRemark contained /[ \t].*/

syntax cluster ti99asmOperand contains=ti99asmBadSign,ti99asmName,ti99asmLongName,
      \ti99asmRegister,ti99asmNumber,ti99asmHere,ti99asmOperator,ti99asmPrefix,
      \ti99asmOpenText,ti99asmText,ti99asmLocal,ti99asmParameter
syntax match ti99asmBadSign contained /[^-+*\/ \t0-9A-Za-z>$@,()']/
syntax match ti99asmName contained /\a[0-9A-Za-z]*/
syntax match ti99asmLongName contained /\a[0-9A-Za-z]\{6,}/
syntax match ti99asmRegister contained /R\%(1[0-5]\|\d\)[0-9A-Za-z]\@!/
syntax match ti99asmNumber contained /\d\+\|>\x\+/
syntax match ti99asmHere contained /\$/
syntax match ti99asmOperator contained /[-+*\/]/
syntax match ti99asmPrefix contained /[, \t(]\@1<=[@*]/
syntax match ti99asmOpenText contained /'[^']*$/
syntax match ti99asmText contained /'\%([^']\|''\)*'/

highlight default link ti99asmComment Comment
highlight default link ti99asmRemark Comment
highlight default link ti99asmLabel Function
highlight default link ti99asmOperation Statement
highlight default link ti99asmBare Statement
highlight default link ti99asmDirective PreProc
highlight default link ti99asmBareDirective PreProc
highlight default link ti99asmFileDirective PreProc
highlight default link ti99asmMacro Macro
highlight default link ti99asmMacroLine PreProc
highlight default link ti99asmMacroUse Macro
highlight default link ti99asmParameters Identifier
highlight default link ti99asmParameter Special
highlight default link ti99asmLocal Function
highlight default link ti99asmName Identifier
highlight default link ti99asmRegister Type
highlight default link ti99asmNumber Number
highlight default link ti99asmHere Special
highlight default link ti99asmOperator Operator
highlight default link ti99asmPrefix Special
highlight default link ti99asmText String
highlight default link ti99asmFile String
highlight default link ti99asmBadLabel Error
highlight default link ti99asmBadOperation Error
highlight default link ti99asmLongName Error
highlight default link ti99asmBadSign Error
highlight default link ti99asmOpenText Error

let b:current_syntax = 'ti99asm'
let &cpo = s:cpo_save
unlet s:cpo_save
