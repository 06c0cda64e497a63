" Vim syntax file: statements of cpdb, and its replies, as docs/STATEMENTS.md gives them.
" Each token is read by its position, since a label or the name of a source may be a key word.
if exists('b:current_syntax')
  finish
endif

syntax case match
syntax sync minlines=200
" A word has no white space and none of " ; { } : ,
syntax iskeyword 33,35-43,45-57,60-122,124,126-255,@

" Whose a statement or the line of a reply is
syntax match cpdbOwner /\%(\%(^\|;\)\s*\)\@<=@\a\w\{,31}\ze\%([[:space:]";{}:,]\|$\)/

" Statements
syntax match cpdbVerb /\<ins\>/ nextgroup=cpdbLiteral skipwhite skipnl skipempty
syntax match cpdbVerb /\<del\>/ nextgroup=cpdbLabelAlone,cpdbQuotedLabelAlone skipwhite skipnl skipempty
syntax match cpdbVerb /\<copy\>/ nextgroup=cpdbOrigin,cpdbQuotedOrigin skipwhite skipnl skipempty
syntax match cpdbVerb /\<commit\>/ nextgroup=cpdbLoggedSteps skipwhite
syntax match cpdbVerb /\<abort\>/
syntax match cpdbVerb /\<load\>/ nextgroup=cpdbSource skipwhite skipnl skipempty
syntax match cpdbVerb /\<\%(src\|hist\|mod\)\>/ nextgroup=cpdbAsked,cpdbQuotedAsked skipwhite skipnl skipempty
syntax match cpdbVerb /\<trace\>/ nextgroup=cpdbTraced,cpdbQuotedTraced skipwhite skipnl skipempty
syntax match cpdbVerb /\<from\>/ nextgroup=cpdbBegun,cpdbQuotedBegun skipwhite skipnl skipempty
syntax match cpdbVerb /\<show\>/ nextgroup=cpdbShown,cpdbQuotedShown skipwhite
syntax match cpdbVerb /\<records\>/ nextgroup=cpdbNumber,cpdbCount skipwhite
syntax match cpdbVerb /\<stats\>/ nextgroup=cpdbNumbers skipwhite
syntax match cpdbVerb /^\s*\zsuses\ze \%("\|\k\+: \)/ nextgroup=cpdbUsed,cpdbQuotedUsed skipwhite

syntax match cpdbWord /\<into\>/ contained nextgroup=cpdbPlace,cpdbQuotedPlace skipwhite skipnl skipempty
syntax match cpdbFrom /\<from\>/ contained nextgroup=cpdbPlace,cpdbQuotedPlace skipwhite skipnl skipempty
syntax match cpdbForm /\<json\>/ contained nextgroup=cpdbText skipwhite skipnl skipempty
syntax match cpdbForm /\<csv\>/ contained nextgroup=cpdbTable skipwhite skipnl skipempty
syntax match cpdbBy /\<by\>/ contained nextgroup=cpdbLabel,cpdbQuotedLabel skipwhite skipnl skipempty

" Places, by what comes after them
syntax match cpdbPlace /\k\+/ contained
syntax match cpdbOrigin /\k\+/ contained nextgroup=cpdbWord skipwhite skipnl skipempty
syntax match cpdbAsked /\k\+/ contained nextgroup=cpdbAnswer
syntax match cpdbTraced /\k\+/ contained nextgroup=cpdbTrace
syntax match cpdbBegun /\k\+/ contained nextgroup=cpdbBeginning
syntax match cpdbShown /\k\+/ contained nextgroup=cpdbTree
syntax match cpdbUsed /\k\+/ contained nextgroup=cpdbUsers
syntax match cpdbUser /\k\+/ contained nextgroup=cpdbUser,cpdbQuotedUser skipwhite
syntax region cpdbQuotedPlace start=/"/ skip=/\\./ end=/"/ contained contains=cpdbEscape
syntax region cpdbQuotedOrigin start=/"/ skip=/\\./ end=/"/ contained contains=cpdbEscape nextgroup=cpdbWord skipwhite skipnl skipempty
syntax region cpdbQuotedAsked start=/"/ skip=/\\./ end=/"/ contained contains=cpdbEscape nextgroup=cpdbAnswer
syntax region cpdbQuotedTraced start=/"/ skip=/\\./ end=/"/ contained contains=cpdbEscape nextgroup=cpdbTrace
syntax region cpdbQuotedBegun start=/"/ skip=/\\./ end=/"/ contained contains=cpdbEscape nextgroup=cpdbBeginning
syntax region cpdbQuotedShown start=/"/ skip=/\\./ end=/"/ contained contains=cpdbEscape nextgroup=cpdbTree
syntax region cpdbQuotedUsed start=/"/ skip=/\\./ end=/"/ contained contains=cpdbEscape nextgroup=cpdbUsers
syntax region cpdbQuotedUser start=/"/ skip=/\\./ end=/"/ contained contains=cpdbEscape nextgroup=cpdbUser,cpdbQuotedUser skipwhite

" Trees
syntax region cpdbLiteral matchgroup=cpdbBrace start=/{/ end=/}/ contained contains=@cpdbInNode nextgroup=cpdbWord skipwhite skipnl skipempty
syntax region cpdbNode matchgroup=cpdbBrace start=/{/ end=/}/ contained contains=@cpdbInNode
syntax cluster cpdbInNode contains=cpdbLabelOf,cpdbQuotedLabelOf,cpdbComma
syntax cluster cpdbValue contains=cpdbNode,cpdbText,cpdbConstant,cpdbNumber,cpdbNoValue
syntax match cpdbLabel /\k\+/ contained
syntax match cpdbLabelOf /\k\+/ contained nextgroup=cpdbColon skipwhite skipnl skipempty
syntax match cpdbLabelAlone /\k\+/ contained nextgroup=cpdbFrom skipwhite skipnl skipempty
syntax region cpdbQuotedLabel start=/"/ skip=/\\./ end=/"/ contained contains=cpdbEscape
syntax region cpdbQuotedLabelOf start=/"/ skip=/\\./ end=/"/ contained contains=cpdbEscape nextgroup=cpdbColon skipwhite skipnl skipempty
syntax region cpdbQuotedLabelAlone start=/"/ skip=/\\./ end=/"/ contained contains=cpdbEscape nextgroup=cpdbFrom skipwhite skipnl skipempty
syntax match cpdbColon /:/ contained nextgroup=@cpdbValue skipwhite skipnl skipempty
syntax match cpdbComma /,/ contained
syntax match cpdbNoValue /\k\+/ contained
syntax match cpdbConstant /\<\%(null\|true\|false\)\>/ contained
syntax match cpdbNumber /\<\%(0\|-\?[1-9]\d*\)\>/ contained
syntax region cpdbText start=/"/ skip=/\\./ end=/"/ contained contains=cpdbEscape
syntax region cpdbTable start=/"/ skip=/\\./ end=/"/ contained contains=cpdbEscape nextgroup=cpdbBy skipwhite
syntax match cpdbEscape +\\\%(["\\/bfnrt]\|u\x\{4}\)+ contained
syntax match cpdbSource /\<[A-Za-z][A-Za-z0-9_]*\>/ contained nextgroup=cpdbForm skipwhite skipnl skipempty

" Replies
syntax match cpdbAnswer /: / contained nextgroup=cpdbTids
syntax match cpdbTids /\<\%(none\|\d\+\%( \d\+\)*\)$/ contained
syntax match cpdbTree /: / contained nextgroup=@cpdbValue
syntax match cpdbUsers /: / contained nextgroup=cpdbNobody,cpdbUser,cpdbQuotedUser
syntax match cpdbNobody /\<none$/ contained
syntax match cpdbBeginning /: / contained nextgroup=cpdbNew,cpdbGiven,cpdbQuotedGiven
syntax match cpdbGiven /\k\+/ contained nextgroup=cpdbAt skipwhite
syntax region cpdbQuotedGiven start=/"/ skip=/\\./ end=/"/ contained contains=cpdbEscape nextgroup=cpdbAt skipwhite
syntax match cpdbNew /\<\%(new\|start\)\>/ contained nextgroup=cpdbAt skipwhite
syntax match cpdbAt /\<at\>/ contained nextgroup=cpdbNumber skipwhite
syntax match cpdbTrace /: \|< / contained nextgroup=cpdbNewest,cpdbSegment,cpdbQuotedSegment,cpdbPlace,cpdbQuotedPlace
syntax match cpdbNewest /\<\%(new\|start\)$/ contained
syntax match cpdbSegment /\k\+\ze@\d\+\.\.\d\+\%( \|$\)/ contained nextgroup=cpdbVersions
syntax region cpdbQuotedSegment start=/"/ skip=/\\./ end=/"/ contained contains=cpdbEscape nextgroup=cpdbVersions
syntax match cpdbVersions /@\d\+\.\.\d\+/ contained nextgroup=cpdbTrace skipwhite
syntax match cpdbCount /:/ contained nextgroup=cpdbNumber skipwhite
syntax match cpdbNumbers /: .*$/ contained contains=cpdbNumber,cpdbComma
syntax match cpdbLoggedSteps /\<\d\+\%(\.\.\d\+\)\?\>/ contained nextgroup=cpdbByWhom skipwhite
syntax match cpdbByWhom /\<by\>/ contained nextgroup=cpdbCurator,cpdbQuotedCurator skipwhite
syntax match cpdbCurator /\k\+/ contained nextgroup=cpdbNumbersAfter
syntax region cpdbQuotedCurator start=/"/ skip=/\\./ end=/"/ contained contains=cpdbEscape nextgroup=cpdbNumbersAfter
syntax match cpdbNumbersAfter / at \d.*$/ contained contains=cpdbNumber,cpdbComma
syntax match cpdbDone /\%(^\s*@\a\w\{,31} \|^\s*\)\@<=\%(committed\|aborted\|loaded\|created\|agrees\|archive:\|log:\|gen:\)\>\?\%( .*\)\?$/ contains=cpdbSteps,cpdbNumber
syntax match cpdbSteps /\<\d\+\.\.\d\+\>/ contained
syntax match cpdbRefused /\%(^\s*@\a\w\{,31} \|^\s*\)\@<=\%(refused\|error\|differs\)\>.*$/
syntax match cpdbTid /\%(^\s*@\a\w\{,31} \|^\s*\)\@<=\d\+\ze [ICDK] / nextgroup=cpdbRecord skipwhite
syntax match cpdbRecord /\<[ICDK]\>/ contained nextgroup=cpdbRecorded,cpdbQuotedRecorded skipwhite
syntax match cpdbRecorded /\k\+/ contained nextgroup=cpdbPlace,cpdbQuotedPlace skipwhite
syntax region cpdbQuotedRecorded start=/"/ skip=/\\./ end=/"/ contained contains=cpdbEscape nextgroup=cpdbPlace,cpdbQuotedPlace skipwhite

highlight default link cpdbVerb Statement
highlight default link cpdbOwner PreProc
for s:word in ['Word', 'From', 'Form', 'By', 'At', 'ByWhom']
  execute 'highlight default link cpdb' . s:word . ' Keyword'
endfor
for s:place in ['Place', 'Origin', 'Asked', 'Traced', 'Begun', 'Shown', 'Used', 'User', 'Given', 'Segment', 'Recorded']
  execute 'highlight default link cpdb' . s:place . ' Identifier'
  execute 'highlight default link cpdbQuoted' . s:place . ' Identifier'
endfor
for s:label in ['Label', 'LabelOf', 'LabelAlone']
  execute 'highlight default link cpdb' . s:label . ' Type'
  execute 'highlight default link cpdbQuoted' . s:label . ' Type'
endfor
highlight default link cpdbSource Identifier
highlight default link cpdbBrace Delimiter
highlight default link cpdbColon Delimiter
highlight default link cpdbComma Delimiter
highlight default link cpdbNoValue Error
highlight default link cpdbConstant Constant
highlight default link cpdbNumber Number
highlight default link cpdbText String
highlight default link cpdbTable String
highlight default link cpdbEscape SpecialChar
highlight default link cpdbTids Number
highlight default link cpdbNobody Number
highlight default link cpdbTid Number
highlight default link cpdbSteps Number
highlight default link cpdbLoggedSteps Number
highlight default link cpdbVersions Number
highlight default link cpdbNew Constant
highlight default link cpdbNewest Constant
highlight default link cpdbCurator String
highlight default link cpdbQuotedCurator String
highlight default link cpdbRecord Special
highlight default link cpdbDone Comment
highlight default link cpdbRefused Error
unlet! s:word s:place s:label

let b:current_syntax = 'cpdb'
