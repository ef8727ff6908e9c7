" Syntax of specifications for rec, as docs/LANGUAGE.md has it.
if exists('b:current_syntax')
  finish
endif
syntax case match

" Where several match at one place, the last one counts. A byte that begins no word is an error.
syntax match recBad /[^ \t\r]/
syntax match recMark /[:,()]/
syntax match recArrow /-><-\|->\/<-\|->\|<>\|=/
" A name is a longest run, and a reserved word is a whole run.
syntax match recName /\%([A-Za-z0-9_'.@#$&*+/!?^~|\\]\|->\@!\)\+/
syntax match recSection /\%(REC-SPEC\|SORTS\|CONS\|OPNS\|VARS\|RULES\|EVAL\|END-SPEC\)\%([A-Za-z0-9_'.@#$&*+/!?^~|\\]\|->\@!\)\@!/
syntax match recCondition /\%(if\|and-if\)\%([A-Za-z0-9_'.@#$&*+/!?^~|\\]\|->\@!\)\@!/
syntax match recComment /%.*/ contains=@Spell

highlight default link recBad Error
highlight default link recMark Delimiter
highlight default link recArrow Operator
highlight default link recName Identifier
highlight default link recSection Statement
highlight default link recCondition Conditional
highlight default link recComment Comment

let b:current_syntax = 'rec'
