" Vim syntax file
" Language: job texts of nursery, and feeds: job texts with their inputs
" Made by editors/generate.py from crates/job_syntax/src/keyword.rt.

if exists("b:current_syntax")
  finish
endif

syntax case match
syntax iskeyword @,48-57,_
syntax sync fromstart

syntax match nurseryFormat "\%^trio-job [123]$"
syntax match nurseryComment "#.*$"
syntax match nurseryEscapeError "\\.\?" contained
syntax match nurseryEscape "\\\%([\"\\]\|x[0-9a-f]\{2}\)" contained
syntax region nurseryString start=+"+ end=+"\|$+ contains=nurseryEscape,nurseryEscapeError
syntax match nurseryNumber "\<\d\+\>"
syntax match nurseryError "\<\%(0\d\+\|\d\+\h\w*\)\>"
syntax match nurseryBrace "[{}]"
syntax match nurserySemicolon ";"

syntax keyword nurseryBlock repeat
syntax keyword nurseryHandler try finally
syntax keyword nurseryWait sleep checkpoint forever pace
syntax keyword nurseryLines find head longest
syntax keyword nurseryModifier after at shield fail over
syntax match nurseryName "\<\a\w*\>" contained
syntax match nurseryTarget "\<\a\w*\>" contained
syntax match nurseryException "\<\a\w*\>" contained

" From the keyword before a name up to the first mark or other keyword.
syntax region nurseryHead1 matchgroup=nurseryBlock start="\<\%(job\|nursery\|start\|scope\|event\|limiter\|channel\)\>" matchgroup=NONE end="\%([{};]\|^%input$\|\<\%(job\|sleep\|checkpoint\|forever\|pace\|find\|head\|longest\|need\|raise\|cancel\|scope\|after\|at\|shield\|fail\|nursery\|start\|over\|try\|except\|finally\|repeat\)\>\)\@=" contains=nurseryComment,nurseryString,nurseryNumber,nurseryError,nurseryName
syntax region nurseryHead2 matchgroup=nurseryHandler start="\<\%(except\)\>" matchgroup=NONE end="\%([{};]\|^%input$\|\<\%(job\|sleep\|checkpoint\|forever\|pace\|find\|head\|longest\|need\|raise\|cancel\|scope\|after\|at\|shield\|fail\|nursery\|start\|over\|try\|except\|finally\|repeat\)\>\)\@=" contains=nurseryComment,nurseryString,nurseryNumber,nurseryError,nurseryException
syntax region nurseryHead3 matchgroup=nurseryWait start="\<\%(wait\|acquire\|send\|receive\)\>" matchgroup=NONE end="\%([{};]\|^%input$\|\<\%(job\|sleep\|checkpoint\|forever\|pace\|find\|head\|longest\|need\|raise\|cancel\|scope\|after\|at\|shield\|fail\|nursery\|start\|over\|try\|except\|finally\|repeat\)\>\)\@=" contains=nurseryComment,nurseryString,nurseryNumber,nurseryError,nurseryTarget
syntax region nurseryHead4 matchgroup=nurseryLines start="\<\%(need\)\>" matchgroup=NONE end="\%([{};]\|^%input$\|\<\%(job\|sleep\|checkpoint\|forever\|pace\|find\|head\|longest\|need\|raise\|cancel\|scope\|after\|at\|shield\|fail\|nursery\|start\|over\|try\|except\|finally\|repeat\)\>\)\@=" contains=nurseryComment,nurseryString,nurseryNumber,nurseryError,nurseryException
syntax region nurseryHead5 matchgroup=nurserySignal start="\<\%(cancel\|set\|close\)\>" matchgroup=NONE end="\%([{};]\|^%input$\|\<\%(job\|sleep\|checkpoint\|forever\|pace\|find\|head\|longest\|need\|raise\|cancel\|scope\|after\|at\|shield\|fail\|nursery\|start\|over\|try\|except\|finally\|repeat\)\>\)\@=" contains=nurseryComment,nurseryString,nurseryNumber,nurseryError,nurseryTarget
syntax region nurseryHead6 matchgroup=nurserySignal start="\<\%(raise\)\>" matchgroup=NONE end="\%([{};]\|^%input$\|\<\%(job\|sleep\|checkpoint\|forever\|pace\|find\|head\|longest\|need\|raise\|cancel\|scope\|after\|at\|shield\|fail\|nursery\|start\|over\|try\|except\|finally\|repeat\)\>\)\@=" contains=nurseryComment,nurseryString,nurseryNumber,nurseryError,nurseryException

" What follows a line %input is the input, and is shown as plain text.
syntax region nurseryInput matchgroup=nurseryInputMark start="^%input$" matchgroup=NONE end="\%$"

highlight default link nurseryBlock Structure
highlight default link nurseryHandler Exception
highlight default link nurseryWait Statement
highlight default link nurseryLines Statement
highlight default link nurserySignal Statement
highlight default link nurseryModifier StorageClass
highlight default link nurseryName Function
highlight default link nurseryTarget Identifier
highlight default link nurseryException Type
highlight default link nurseryFormat PreProc
highlight default link nurseryInputMark PreProc
highlight default link nurseryComment Comment
highlight default link nurseryString String
highlight default link nurseryEscape SpecialChar
highlight default link nurseryNumber Number
highlight default link nurseryError Error
highlight default link nurseryBrace Delimiter
highlight default link nurserySemicolon Delimiter
highlight default link nurseryEscapeError Error

let b:current_syntax = "nursery"
