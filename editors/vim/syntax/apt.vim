" Colours part programs of apt. Made by tools/syntax of the vocabulary in docs/LANGUAGE.md.
if exists("b:current_syntax")
  finish
endif
syntax case ignore

syntax match aptNumber /\<\d\+\.\?\d*\>\|\<\d\+\.\|\.\d\+\>/
syntax match aptLabel /^\s*\a\w\{,5}\s*)/
" a word of more than six characters, and a number with letters behind it or two points, are none
syntax match aptError /\<\a\w\{6,}\>/
syntax match aptError /\(\<\d\|\.\d\)[0-9.]*\(\a\|\.\d*\.\)[0-9A-Za-z.]*/

syntax keyword aptStatement UNITS CLPRNT NOPOST MACHIN CUTTER INTOL OUTTOL TLLFT TLRGT TLON FROM GOTO GODLTA GO GOLFT GORGT GOFWD GOBACK RAPID STOP OPSTOP FEDRAT SPINDL COOLNT LOADTL CYCLE
syntax keyword aptFlow END MACRO TERMAC CALL LOOPST LOOPND JUMPTO IF
syntax keyword aptFigure POINT LINE CIRCLE PATERN
syntax keyword aptFunction SQRTF ABSF
syntax keyword aptModifier INCHES MM INTOF XLARGE XSMALL YLARGE YSMALL CENTER PARLEL PERPTO LEFT RIGHT TANTO RADIUS TO ON PAST CLW CCLW OFF FLOOD MIST LINEAR DRILL

" a comment, the sign that a statement goes on, and what FINI ends
syntax match aptContinuation /\$.*/
syntax match aptComment /\$\$.*/
syntax region aptBehind matchgroup=aptFlow start=/^\s*FINI\>/ end=/\%$/
" a title has no comment and no sign
syntax match aptTitle /\(^\s*\(\a\w\{,5}\s*)\s*\)\=\)\@<=\<\(PARTNO\|REMARK\)\>.*/ contains=aptTitleWord
syntax match aptTitleWord /\<\(PARTNO\|REMARK\)\>/ contained

highlight default link aptError Error
highlight default link aptNumber Number
highlight default link aptLabel Label
highlight default link aptContinuation PreProc
highlight default link aptComment Comment
highlight default link aptBehind Comment
highlight default link aptTitle String
highlight default link aptTitleWord Statement
highlight default link aptStatement Statement
highlight default link aptFlow Repeat
highlight default link aptFigure Type
highlight default link aptFunction Function
highlight default link aptModifier Identifier

let b:current_syntax = "apt"
