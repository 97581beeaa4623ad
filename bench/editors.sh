#!/bin/sh
# Makes the files that editors use to colour specifications, and fails where those under editors/ are others. It proves and runs
# nothing. The merge gate calls it (.ci/run).
#
# usage: bench/editors.sh [--write]
#
# The words are those of the table of terminals (RESERVED of crates/estelle_tree/src/kind.rt) and of the required identifiers
# (IDENTIFIERS of required.rt beside it). A reserved word that does not stand in the grammar of docs/LANGUAGE.md, part 3, is marked
# as an error, since no specification has it. With --write the files are written.
set -u
top=$(cd "$(dirname "$0")/.." && pwd)
write=no
case ${1:-} in
'') ;;
--write) write=yes ;;
*)
    echo 'usage: bench/editors.sh [--write]' >&2
    exit 2
    ;;
esac
folder=$(mktemp -d)
trap 'rm -rf "$folder"' EXIT

sed -n '/^pub const RESERVED/,/^];/s/^ *(b"\([a-z]*\)", Kind::.*/\1/p' "$top/crates/estelle_tree/src/kind.rt" >"$folder/reserved"
# identifiers KIND: the required identifiers that stand for it
identifiers() {
    sed -n '/^pub const IDENTIFIERS/,/^];/s/^ *(b"\([a-z]*\)", RequiredIdentifier::\('"$1"'\).*/\1/p' "$top/crates/estelle_tree/src/required.rt"
}
# the words in small letters in the grammar (quoted symbols aside)
sed -n '/^## 3/,/^## 4/p' "$top/docs/LANGUAGE.md" | awk '/^```/ { inside = !inside } inside' | sed 's/"[^"]*"//g' | tr -c 'A-Za-z\n' ' ' | tr ' ' '\n' |
    grep '^[a-z][a-z]*$' | LC_ALL=C sort -u >"$folder/grammar"

for pair in structure:'specification body module channel by ip export modvar state stateset initialize trans procedure function const type var default timescale end begin for' \
    attribute:'systemprocess systemactivity process activity individual common queue' \
    clause:'from to same when provided priority any delay name' \
    action:'init with release connect disconnect attach detach output'; do
    echo "${pair#*:}" | tr ' ' '\n' >"$folder/${pair%%:*}"
done

fail() {
    echo "editors: $1" >&2
    exit 1
}
if [ ! -s "$folder/reserved" ] || [ ! -s "$folder/grammar" ]; then fail 'no table of words'; fi
# Each word of a group is reserved and stands in the grammar, as do the others; and each word of the grammar is reserved.
cat "$folder/structure" "$folder/attribute" "$folder/clause" "$folder/action" | LC_ALL=C sort >"$folder/grouped"
[ -z "$(uniq -d "$folder/grouped")" ] || fail "in two groups: $(uniq -d "$folder/grouped" | tr '\n' ' ')"
for list in grouped grammar; do
    strange=$(grep -vxFf "$folder/reserved" "$folder/$list")
    [ -z "$strange" ] || fail "not reserved: $(echo "$strange" | tr '\n' ' ')"
done
strange=$(grep -vxFf "$folder/grammar" "$folder/grouped")
[ -z "$strange" ] || fail "not in the grammar: $(echo "$strange" | tr '\n' ' ')"
grep -vxFf "$folder/grammar" "$folder/reserved" >"$folder/unused"
grep -xFf "$folder/grammar" "$folder/reserved" | grep -vxFf "$folder/grouped" >"$folder/keyword"
identifiers 'Integer\|Boolean\|Char' >"$folder/types"
identifiers 'False\|True\|Maxint' >"$folder/constants"
identifiers 'Function' >"$folder/functions"

words() { tr '\n' ' ' <"$folder/$1" | sed 's/ $//'; }
choice() { tr '\n' '|' <"$folder/$1" | sed 's/|$//'; }

mkdir -p "$folder/made/vim/syntax" "$folder/made/vim/ftdetect" "$folder/made/textmate"
cat >"$folder/made/vim/ftdetect/estelle.vim" <<'END'
" Made by bench/editors.sh.
autocmd BufRead,BufNewFile *.est setfiletype estelle
END
cat >"$folder/made/vim/syntax/estelle.vim" <<END
" Vim syntax file
" Language: Estelle (ISO/IEC 9074:1997), in the profile of estelle
" Made by bench/editors.sh from the table of terminals.
if exists('b:current_syntax')
  finish
endif
syntax case ignore
syntax keyword estelleStructure $(words structure)
syntax keyword estelleAttribute $(words attribute)
syntax keyword estelleClause $(words clause)
syntax keyword estelleAction $(words action)
syntax keyword estelleKeyword $(words keyword)
" reserved, and in no specification
syntax keyword estelleError $(words unused)
syntax keyword estelleType $(words types)
syntax keyword estelleConstant $(words constants)
syntax keyword estelleFunction $(words functions)
syntax match estelleNumber '\<\d\+'
syntax match estelleCharacter "'[ -&(-~]'\|''''"
syntax region estelleComment start='{\|(\*' end='}\|\*)'
highlight default link estelleStructure Structure
highlight default link estelleAttribute StorageClass
highlight default link estelleClause Conditional
highlight default link estelleAction Statement
highlight default link estelleKeyword Keyword
highlight default link estelleError Error
highlight default link estelleType Type
highlight default link estelleConstant Constant
highlight default link estelleFunction Function
highlight default link estelleNumber Number
highlight default link estelleCharacter Character
highlight default link estelleComment Comment
let b:current_syntax = 'estelle'
END

# pattern NAME GROUP, a rule of the TextMate grammar for the words of a group
pattern() { printf '    { "name": "%s.estelle", "match": "(?i)\\\\b(%s)\\\\b" },\n' "$1" "$(choice "$2")"; }
{
    cat <<'END'
{
  "comment": "Made by bench/editors.sh from the table of terminals.",
  "name": "Estelle",
  "scopeName": "source.estelle",
  "fileTypes": ["est"],
  "patterns": [
    { "name": "comment.block.estelle", "begin": "\\{|\\(\\*", "end": "\\}|\\*\\)" },
    { "name": "constant.character.estelle", "match": "''''|'[ -&(-~]'" },
    { "name": "constant.numeric.estelle", "match": "\\b[0-9]+" },
END
    pattern keyword.declaration structure
    pattern storage.modifier attribute
    pattern keyword.control.clause clause
    pattern keyword.other.action action
    pattern keyword.control keyword
    pattern invalid.illegal unused
    pattern support.type types
    pattern constant.language constants
    pattern support.function functions
    cat <<'END'
    { "name": "keyword.operator.estelle", "match": ":=|<>|<=|>=|\\.\\.|[-+*=<>]" }
  ]
}
END
} >"$folder/made/textmate/estelle.tmLanguage.json"

if [ "$write" = yes ]; then
    mkdir -p "$top/editors" && cp -R "$folder/made/." "$top/editors/"
elif diff -r -x README.md "$folder/made" "$top/editors"; then
    echo "$(wc -l <"$folder/reserved" | tr -d ' ') reserved words, $(wc -l <"$folder/unused" | tr -d ' ') of them in no specification: the files under editors/ are as they are to be"
else
    fail 'a file under editors/ is not what the tables give: bench/editors.sh --write'
fi
