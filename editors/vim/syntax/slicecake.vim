" Vim syntax file
" Language: Slice, protocols that divide a cake (docs/LANGUAGE.md)
" What is no token of the language is marked as an error.

if exists("b:current_syntax")
  finish
endif

syntax case match
syntax iskeyword a-z,48-57,_
syntax sync minlines=1

" Of two matches at one place the later one counts, and a keyword before both.
syntax match sliceError "[^ \t\r]"
syntax match slicePunctuation "[(){},;]"
syntax match sliceOperator "[-+*/=<>]\|<=\|>="
syntax match sliceNumber "\d\+"
syntax match sliceError "\d\{19,}\|0\d\+[a-z0-9_]*\|\d\+[a-z_][a-z0-9_]*"
syntax match sliceName "[a-z][a-z0-9_]*"
syntax match sliceError "[a-z][a-z0-9_]\{64,}"
syntax match sliceComment "#.*" contains=@Spell

syntax keyword sliceDeclaration protocol procedure call nextgroup=sliceFunction skipwhite
syntax keyword sliceDeclaration agents
syntax keyword sliceControl if else yield
syntax keyword sliceStatement cut let join give pick at as from to
syntax keyword sliceKind agent piece number
syntax keyword sliceValue value
syntax match sliceFunction "[a-z][a-z0-9_]\{,63}[a-z0-9_]\@!" contained

highlight default link sliceError Error
highlight default link sliceOperator Operator
highlight default link sliceNumber Number
highlight default link sliceComment Comment
highlight default link sliceDeclaration Keyword
highlight default link sliceFunction Function
highlight default link sliceControl Conditional
highlight default link sliceStatement Statement
highlight default link sliceKind Type
highlight default link sliceValue Function

let b:current_syntax = "slicecake"
