" Vim syntax of the scripts of betable. Copy syntax/ and ftdetect/ to ~/.vim (docs/HOW_TO.md, Editors).
if exists("b:current_syntax")
  finish
endif

syntax case match

" Commands of one line.
syntax match betableCommand /^ *\%(table\|get\|image\|index\|build\|drop\|drain\|rebuild\)\ze\%( \|\r\?$\)/ nextgroup=betableArguments
syntax match betableArguments /.*/ contained contains=betableKind,betablePart,betableNumber,betableString,betableTree

" Commands with a block, up to its closing line.
syntax region betableBatch matchgroup=betableCommand start=/^ *batch\ze *\r\?$/ end=/^end\r\?$/ contains=betableMessage
syntax region betableScan matchgroup=betableCommand start=/^ *\%(scan\|sums\)\ze / end=/^go\r\?$/ contains=betableBound,betableNumber,betableTree
syntax region betableLoad matchgroup=betableCommand start=/^ *load\ze *\r\?$/ end=/^\.\r\?$/ contains=betableString,betableNumber

syntax match betableMessage /^ *\%(put\|del\|ups\) / contained nextgroup=betableRecord
syntax match betableBound /^ *\%(from\|to\) / contained nextgroup=betableRecord
syntax match betableRecord /.*/ contained contains=betableString,betableNumber,betableOperation,betableFlag
syntax match betableOperation /,\@1<=\%(set\|add\|max\|min\)\ze,/ contained

syntax match betableKind /:\@1<=\%(int\|text\|flag\|bytes\)\>/ contained
syntax keyword betablePart on include where contained
syntax keyword betableTree primary contained
syntax keyword betableFlag true false contained
syntax match betableNumber /\%(^\|[ ,]\)\@1<=-\?\d\+b\?\ze\%([ ,]\|\r\?$\)/ contained
syntax region betableString start=/"/ skip=/""/ end=/"/ contained

highlight default link betableCommand Statement
highlight default link betableMessage Keyword
highlight default link betableBound Keyword
highlight default link betablePart Keyword
highlight default link betableOperation Operator
highlight default link betableKind Type
highlight default link betableTree Identifier
highlight default link betableFlag Boolean
highlight default link betableNumber Number
highlight default link betableString String

let b:current_syntax = "betable"
