" Vim syntax file for decks and assembly cards of b67.
" Copy it to ~/.vim/syntax/b67.vim, and put this line into ~/.vimrc to use it for files named *.deck:
"     autocmd BufRead,BufNewFile *.deck set filetype=b67
" In any other file `:set filetype=b67` switches it on.

if exists("b:current_syntax")
    finish
endif
syntax case match

" cards of assembly; a label ends in a colon, a comment begins with ;
syntax match b67Comment ";.*$"
syntax match b67Label "^\s*\zs[A-Z][A-Z0-9]\{,15}:"
syntax keyword b67Value VALC NAMC INDX NXLV STFF ZERO ONE LT8 LT16 STOD STON LOAD LT48 MPCW
syntax keyword b67Arithmetic ADD SUBT MULT IDIV RDIV LESS GREQ GRTR LSEQ EQUL NEQL CHSN
syntax keyword b67Bits LAND LOR LNOT LEQV SAME BSET ISOL INSR BRST
syntax keyword b67Flow BRFL BRTR BRUN EXIT RETN ENTR MKST
syntax keyword b67Stack PUSH DLET EXCH DUPL NOOP NVLD
syntax keyword b67Section SEGMENT ROW NUM ENTRY CELL
syntax match b67Number "\(^\|\s\)\@<=-\?\d\+\>"
syntax match b67Couple "\<\d\+,\(\d\+\|[A-Z][A-Z0-9]*\)"
" names for cells, as scripts/cells.sh reads them
syntax match b67Couple "\(\<\(VALC\|NAMC\|CELL\) \+\)\@<=[a-z][a-z0-9_]\{,15}\>"
syntax match b67Hexadecimal "#\x\{12}\>"

" cards that begin with ?; no comment may stand on them
syntax match b67Command "^?\(STACK\|QUANTUM\|HALT\|SWITCH\|JOB\|LIMIT\|ASM\|HEX\|DATA\|END\)\>.*$" contains=b67CommandNumber
syntax match b67CommandNumber "\s\@<=[0-9.]\+\>" contained
syntax match b67Code "^\x\{8,}\s*$"

" what a deck is refused for: a character that isn't printable, more than 80 characters
syntax match b67Wrong "[^ -~]"
syntax match b67Long "\%>80v.\+"

highlight default link b67Comment Comment
highlight default link b67Label Label
highlight default link b67Value Identifier
highlight default link b67Arithmetic Operator
highlight default link b67Bits Operator
highlight default link b67Flow Statement
highlight default link b67Stack Special
highlight default link b67Section Structure
highlight default link b67Couple Type
highlight default link b67Number Number
highlight default link b67Hexadecimal Number
highlight default link b67Command PreProc
highlight default link b67CommandNumber Number
highlight default link b67Code Number
highlight default link b67Wrong Error
highlight default link b67Long Error

let b:current_syntax = "b67"
