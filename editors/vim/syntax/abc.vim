" Colours for ABC.
if exists("b:current_syntax")
  finish
endif
syntax case match

" A word goes on with letters of its case, digits, quotes, and points that stand between two of these: so a quote behind a name is its own.
syntax match abcKeyword /[A-Z][A-Z0-9'"]*\%(\.[A-Z0-9'"]\+\)*/
syntax match abcName /[a-z][a-z0-9'"]*\%(\.[a-z0-9'"]\+\)*/
syntax match abcCommand /\<\%(WRITE\|READ\|PUT\|INSERT\|REMOVE\|DELETE\|PASS\|CHECK\|IF\|SELECT\|ELSE\|WHILE\|FOR\|HOW\|SHARE\|QUIT\|RETURN\|REPORT\|SUCCEED\|FAIL\|SET\)\>['".]\@!/
syntax match abcWord /\<\%(TO\|IN\|FROM\|AND\|OR\|NOT\|SOME\|EACH\|NO\|HAS\|EG\|RAW\)\>['".]\@!/
syntax match abcOperation /\<\%(abs\|sign\|floor\|ceiling\|round\|keys\|min\|max\|lower\|upper\|stripped\|split\|mod\|item\|in\|not\.in\)\>['".]\@!/
syntax match abcNumber /\d\+\%(\.\d\+\)\?\|\.\d\+/
syntax match abcRange /\.\./
syntax match abcQuestion /^\%(::\|==\|:\|=\|-:\).*/

" Where a match group is named, nothing that is contained begins at the quote that opens: so an empty text has no doubled quote in it.
syntax region abcText matchgroup=abcText start=/"/ skip=/""/ end=/"/ end=/$/ oneline contains=abcConversion,abcDoubled
syntax region abcText matchgroup=abcText start=/'/ skip=/''/ end=/'/ end=/$/ oneline contains=abcConversion,abcSingled
syntax region abcConversion matchgroup=abcDelimiter start=/`/ end=/`/ oneline contained contains=abcName,abcOperation,abcNumber,abcRange,abcText
syntax match abcDoubled /``\|""/ contained
syntax match abcSingled /``\|''/ contained
syntax match abcComment /\\.*/

highlight default link abcCommand Statement
highlight default link abcWord Conditional
highlight default link abcKeyword Function
highlight default link abcOperation Operator
highlight default link abcNumber Number
highlight default link abcText String
highlight default link abcDoubled SpecialChar
highlight default link abcSingled SpecialChar
highlight default link abcDelimiter Delimiter
highlight default link abcComment Comment
highlight default link abcQuestion PreProc
let b:current_syntax = "abc"
