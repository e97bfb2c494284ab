" Vim syntax for the tariffs of taxi, *.tariff. docs/TARIFF.md says what each word means; a word that is none is an error.
if exists("b:current_syntax")
  finish
endif

syntax case match
syntax iskeyword a-z
syntax match tariffWrong "[A-Za-z]\+"
syntax keyword tariffLine decimals step positions zones holiday supplement initial rate minimum
syntax keyword tariffPart ahead behind covers max per m s when
syntax keyword tariffTest position zone time day date after
syntax keyword tariffOperator not and or
syntax keyword tariffDay mon tue wed thu fri sat sun
syntax match tariffFigure "[0-9]\([0-9:-]\|\.[0-9]\@=\)*"
syntax match tariffRange "\.\."
syntax match tariffComment "#.*$"

highlight default link tariffWrong Error
highlight default link tariffLine Statement
highlight default link tariffPart Keyword
highlight default link tariffTest Conditional
highlight default link tariffOperator Operator
highlight default link tariffDay Constant
highlight default link tariffFigure Number
highlight default link tariffRange Operator
highlight default link tariffComment Comment

let b:current_syntax = "taxi_tariff"
