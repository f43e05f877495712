" Syntax of XRF scenarios and documents. A line that begins with none of the words of the language is an error.
if exists("b:current_syntax") | finish | endif
syntax case match

syntax match xrfError   /^.*\S.*$/
syntax match xrfComment /^#.*$/
syntax match xrfHeader  /^\s*XRF\s\+[12]\s*$/
syntax match xrfPart    /^\s*\%(CHOICES\|END\)\s*$/

" The scenario.
syntax match xrfSettingLine /^\s*\%(APPLID\|TAKEOVR\|ADI\|PDI\|LOG\|RING\|FILE\|PACE\|TICKS\|IMAGES\|LEVEL\|XRFSOFF\|RECORD\)\>.*$/ contains=xrfSetting,xrfSite,xrfNumber,xrfOption,xrfRecordValue
syntax match xrfCltLine  /^\s*CLT\>.*$/  contains=xrfClt
syntax match xrfWorkLine /^\s*WORK\>.*$/ contains=xrfWork,xrfSite,xrfNumber,xrfPutValue
syntax match xrfPlanLine /^\s*PLAN\>.*$/ contains=xrfPlan,xrfNumber,xrfOption,xrfHex
syntax match xrfSetting  /^\s*\zs\u\+\ze\%(\s\|$\)/ contained
syntax match xrfClt      /^\s*\zsCLT\ze\s/ contained nextgroup=xrfCltName skipwhite
syntax match xrfCltName  /\S\+/ contained nextgroup=xrfCltWord skipwhite
syntax match xrfCltWord  /\%(CANCEL\|COMMAND\|WTO\)\>/ contained nextgroup=xrfText skipwhite
syntax match xrfText     /\S.*$/ contained
syntax match xrfWork     /^\s*\zsWORK\ze\s/ contained
syntax match xrfWork     /\%(^\s*WORK\s\+[AB]\s\+\)\@<=\%(BEGIN\|PUT\|GET\|COMMIT\|ROLL\|LOGON\|LOGOFF\|SIGNON\|SIGNOFF\|CEMT\(\s\+SHUTDOWN\)\?\(\s\+TAKEOVER\)\?\)\>/ contained
syntax match xrfPlan     /^\s*\zsPLAN\ze\s/ contained
syntax match xrfPlan     /\%(^\s*PLAN\s\+\d\+\s\+\)\@<=\%(START\|STOP\|ABEND\|CONFIRM\|REPLY\|CEBT\)\>/ contained nextgroup=xrfSite skipwhite

" The choices.
syntax match xrfChoiceLine /^\s*\%(TICK\|STEP\|LOSE\|STOP\|FAIL\|START\|ABEND\|CONFIRM\|REPLY\|CEBT\|EXIT\)\%(\s.*\)\?$/ contains=xrfChoice,xrfSite,xrfNumber,xrfOption,xrfHex
syntax match xrfChoice   /^\s*\zs\u\+\ze\%(\s\|$\)/ contained nextgroup=xrfSite skipwhite
syntax match xrfSite     /[AB]\ze\%(\s\|$\)/ contained
syntax match xrfNumber   /\<\%(0\|[1-9]\d*\)\>/ contained
syntax match xrfOption   /\<\%(AUTO\|MANUAL\|COMMAND\|ON\|OFF\|FORCE\|NOFORCE\|NONE\|ALL\|TORN\|ACTIVE\|STANDBY\|GO\|IGNORE\|KEEP\|DROP\|PERFORM\|INQUIRE\|SET\|TAKEOVER\|SHUTDOWN\|SURVEILLANCE\)\>/ contained
syntax match xrfOption   /\%(^\s*EXIT\s\+[AB]\s\+\)\@<=ABEND\>/ contained
syntax match xrfHex      /\%(\<TORN\s\+\)\@<=\x\+\>/ contained
" Values, which may look like numbers or options, and so stand behind them.
syntax match xrfPutValue /\%(^\s*WORK\s\+[AB]\s\+PUT\s\+\S\+\s\+\d\+\s\+\)\@<=\S\+/ contained
syntax match xrfRecordValue /\%(^\s*RECORD\s\+\d\+\s\+\)\@<=\S\+/ contained

" The report.
syntax match xrfReport   /^\*.*$/ contains=xrfAct,xrfReportWord
syntax match xrfReportWord /\%(^\* \)\@<=\u\+\>/ contained
syntax match xrfAct      /\%(^\* ACT \d\+ \d\+ [AB-] \d\+ \)\@<=\u\+\d\?\>/ contained contains=xrfStop
syntax match xrfStop     /\<\%(STOP\|FAIL\|ENDED\)\>/ contained
syntax match xrfStop     /\%(^\* ACT .* SIGNAL[12] \d\+ \d\+ \)\@<=LOST$/ contained containedin=xrfReport

highlight default link xrfError       Error
highlight default link xrfComment     Comment
highlight default link xrfHeader      PreProc
highlight default link xrfPart        PreProc
highlight default link xrfSetting     Keyword
highlight default link xrfClt         Keyword
highlight default link xrfCltWord     Function
highlight default link xrfWork        Function
highlight default link xrfPlan        Keyword
highlight default link xrfChoice      Statement
highlight default link xrfSite        Identifier
highlight default link xrfNumber      Number
highlight default link xrfOption      Constant
highlight default link xrfHex         Number
highlight default link xrfText        String
highlight default link xrfPutValue    String
highlight default link xrfRecordValue String
highlight default link xrfReport      Normal
highlight default link xrfReportWord  Type
highlight default link xrfAct         Statement
highlight default link xrfStop        WarningMsg

let b:current_syntax = "xrf"
