" Vim syntax for the drives of taxi, *.drive. docs/FORMATS.md says what each line means; a line of no form is an error.
if exists("b:current_syntax")
  finish
endif

syntax case match
syntax match driveWrong "^.\+$"
syntax match driveComment "^#.*$"
syntax match driveSupply "^U [0-9]\{1,12}\r\=$" contains=driveNumber
syntax match driveSupply "^D\r\=$"
syntax match driveClock "^C [0-9]\{1,12}\r\=$" contains=driveNumber
syntax match driveInterval "^P [0-9]\{1,12}\r\=$" contains=driveNumber
syntax match driveInterval "^T\r\=$"
syntax match driveInterval "^I [0-9]\{1,12} [0-9]\{1,12}\r\=$" contains=driveNumber
syntax match driveKey "^K H\r\=$"
syntax match driveKey "^K S\r\=$"
syntax match driveKey "^K C\r\=$"
syntax match driveKey "^K P [0-9]\{1,12}\r\=$" contains=driveNumber
syntax match driveKey "^K Z [0-9]\{1,12}\r\=$" contains=driveNumber
syntax match driveKey "^K E [0-9]\{1,12}\r\=$" contains=driveNumber
syntax match driveNumber "[0-9]\+" contained

highlight default link driveWrong Error
highlight default link driveComment Comment
highlight default link driveSupply Statement
highlight default link driveClock Type
highlight default link driveInterval Identifier
highlight default link driveKey Keyword
highlight default link driveNumber Number

let b:current_syntax = "taxi_drive"
