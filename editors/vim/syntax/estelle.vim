" Vim syntax file
" Language: Estelle (ISO/IEC 9074:1997), in the profile of estelle
" Made by bench/editors.sh from the table of terminals.
if exists('b:current_syntax')
  finish
endif
syntax case ignore
syntax keyword estelleStructure specification body module channel by ip export modvar state stateset initialize trans procedure function const type var default timescale end begin for
syntax keyword estelleAttribute systemprocess systemactivity process activity individual common queue
syntax keyword estelleClause from to same when provided priority any delay name
syntax keyword estelleAction init with release connect disconnect attach detach output
syntax keyword estelleKeyword and array case div do downto else if in mod not of or packed record repeat set then until while
" reserved, and in no specification
syntax keyword estelleError all exist external file forone goto label nil otherwise primitive program suchthat terminate
syntax keyword estelleType integer boolean char
syntax keyword estelleConstant false true maxint
syntax keyword estelleFunction abs sqr odd succ pred ord chr
syntax match estelleNumber '\<\d\+'
syntax match estelleCharacter "'[ -&(-~]'\|''''"
syntax region estelleComment start='{\|(\*' end='}\|\*)'
highlight default link estelleStructure Structure
highlight default link estelleAttribute StorageClass
highlight default link estelleClause Conditional
highlight default link estelleAction Statement
highlight default link estelleKeyword Keyword
highlight default link estelleError Error
highlight default link estelleType Type
highlight default link estelleConstant Constant
highlight default link estelleFunction Function
highlight default link estelleNumber Number
highlight default link estelleCharacter Character
highlight default link estelleComment Comment
let b:current_syntax = 'estelle'
