" Colours of Wanzoche's texts: declarations, attempts, journals and scripts of processes.
" A line that begins as an attempt and isn't one is a fault, and so is a byte that no token of a declaration has.
if exists("b:current_syntax")
  finish
endif
syntax case match
syntax sync minlines=200

let s:number = '\%(0\|[1-9]\d*\)'
let s:name = '\%(\%(resource\|operation\|path\|end\|cell\|tally\|queue\)\>\)\@!\a[A-Za-z0-9_]\{,31}'
let s:start = 'start \%(#' . s:number . '\|' . s:name . '\)'
let s:use = 'use \%(take\|look\|\%(put\|add\) ' . s:number . '\)'
let s:use_of = 'use ' . s:number . s:use[3:]
let s:attempt = '\%(' . s:start . '\|' . s:use_of . '\|finish ' . s:number . '\)'
let s:refusal = '\%(unknown operation\|not offered\|empty\|full\|overflow\|device failed\|stale\|not yours\|no room\)'
let s:reply = '\%(\%(started\|blocked\|used\) ' . s:number . '\|finished\|' . s:refusal . '\)'

" Declarations. Of two matches at one place the later counts, so what is more special comes later.
syntax match wanzocheFault /\S/
syntax match wanzocheSign /[;,:(){}]/
syntax match wanzocheName /\a[A-Za-z0-9_]*/
syntax match wanzocheFault /\a[A-Za-z0-9_]\{32,}/
syntax match wanzocheKeyword /\%(resource\|operation\|path\|end\)[A-Za-z0-9_]\@!/
syntax match wanzocheLaw /\%(cell\|tally\|queue\)[A-Za-z0-9_]\@!/
syntax match wanzocheNumber /\d\+/
syntax match wanzocheFault /\d\{10,}/

" Attempts, and journals: attempts with their replies, which a first line with the room may precede. A line % ends a declaration.
syntax match wanzocheSeparator /^%$/
syntax match wanzocheHead /^journal\ze 2 room [1-9]\d*$/ skipwhite nextgroup=wanzocheHeadNumber
syntax match wanzocheHeadNumber /\d\+/ contained skipwhite nextgroup=wanzocheHead
syntax match wanzocheHead /room/ contained skipwhite nextgroup=wanzocheValue
syntax match wanzocheFault /^\d\+ \+\%(start\|use\|finish\)[A-Za-z0-9_]\@!.*$/
execute 'syntax match wanzocheWorker /^' . s:number . '\ze ' . s:attempt . '\%(: ' . s:reply . '\)\=$/ skipwhite nextgroup=wanzocheStart,wanzocheAct'
syntax match wanzocheStart /start/ contained skipwhite nextgroup=wanzocheTarget
syntax match wanzocheTarget /[A-Za-z0-9_]\+/ contained nextgroup=wanzocheColon
syntax match wanzocheTarget /#\d\+/ contained nextgroup=wanzocheColon
syntax match wanzocheAct /use\|finish/ contained skipwhite nextgroup=wanzocheActivation
syntax match wanzocheActivation /\d\+/ contained skipwhite nextgroup=wanzocheVerb,wanzocheColon
syntax match wanzocheVerb /put\|take\|look\|add/ contained skipwhite nextgroup=wanzocheValue,wanzocheColon
syntax match wanzocheValue /\d\+/ contained nextgroup=wanzocheColon
syntax match wanzocheColon /:/ contained skipwhite nextgroup=wanzocheReply,wanzocheRefusal
syntax match wanzocheReply /started\|used\|finished/ contained skipwhite nextgroup=wanzocheValue
syntax match wanzocheRefusal /blocked/ contained skipwhite nextgroup=wanzocheValue
execute 'syntax match wanzocheRefusal /' . s:refusal . '/ contained'

" Scripts of processes: each from a line `process NAME` to a line `end`.
execute 'syntax region wanzocheProcess matchgroup=wanzocheStep start=/^process\ze ' . s:name . '$/ end=/^end$/ contains=wanzocheOwner,wanzocheStep,wanzocheUse,wanzocheStepFault'
syntax match wanzocheStepFault /^.\+$/ contained
syntax match wanzocheOwner / \a[A-Za-z0-9_]*$/ contained
execute 'syntax match wanzocheStep /^enter\ze ' . s:name . '$/ contained skipwhite nextgroup=wanzocheTarget'
execute 'syntax match wanzocheStep /^use\ze' . s:use[3:] . '$/ contained skipwhite nextgroup=wanzocheVerb'
syntax match wanzocheStep /^leave$/ contained

highlight default link wanzocheFault Error
highlight default link wanzocheStepFault Error
highlight default link wanzocheSign Delimiter
highlight default link wanzocheColon Delimiter
highlight default link wanzocheKeyword Statement
highlight default link wanzocheLaw Type
highlight default link wanzocheNumber Number
highlight default link wanzocheHead PreProc
highlight default link wanzocheHeadNumber Number
highlight default link wanzocheSeparator PreProc
highlight default link wanzocheWorker Number
highlight default link wanzocheStart Statement
highlight default link wanzocheAct Statement
highlight default link wanzocheActivation Number
highlight default link wanzocheVerb Function
highlight default link wanzocheValue Number
highlight default link wanzocheReply Identifier
highlight default link wanzocheRefusal WarningMsg
highlight default link wanzocheStep Statement

let b:current_syntax = "wanzoche"
