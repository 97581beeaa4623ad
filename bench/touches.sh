#!/bin/sh
# Counts the files that a form of the language touches: those of code, definitions and proofs in which a line names it, the crates
# of tests aside. It prints a table with a row for each word and for each crate that has such files. It proves and runs nothing.
#
# usage: bench/touches.sh [-f] [WORD ..]
#
# WORD is a word of the language, or a rule's number; without one they are release, delay and 22. A line names a word where a name
# in it, or a part of one between `_` and digits, is that word in any letter case: `Delay` and `has_delay` name delay, `delayed` and
# `DelayRange` do not. It names a number where that stands there by itself and is no exponent; so 22 of another sense counts too.
# Comments and imports are no such lines. -f lists the files too.
set -u
top=$(cd "$(dirname "$0")/.." && pwd)
listed=no
if [ "${1:-}" = -f ]; then
    listed=yes
    shift
fi
[ $# -gt 0 ] || set -- release delay 22
for word in "$@"; do
    case $word in
    *[!a-z0-9]* | '')
        echo "touches: a word has small letters, or digits: $word" >&2
        exit 1
        ;;
    esac
done
folder=$(mktemp -d)
trap 'rm -rf "$folder"' EXIT

cd "$top/crates" || exit 1
find . -name out -prune -o -type f \( -path './*/src/*.rt' -o -path './*/specs/*.antt' -o -path './*/proofs/*.antt' \) -print |
    sed 's|^\./||' | grep -v '^[a-z_]*_tests/\|^test_texts/' | sort >"$folder/files"
if [ ! -s "$folder/files" ]; then
    echo "touches: no crates in $top" >&2
    exit 1
fi

# The lines of code, each behind its file, in small letters: an import may go on over lines, up to its `;`.
while read -r file; do
    awk -v file="$file" '
        importing { if (/;/) importing = 0; next }
        /^[ \t]*(\/\/|--)/ { next }
        /^[ \t]*(pub(\([a-z]*\))? +)?(ghost +)?use / { if (file ~ /\.rt$/ && !/;/) importing = 1; next }
        { sub(/(^|[ \t])(\/\/|--) .*/, ""); gsub(/\^ *[0-9]+/, ""); if ($0 !~ /^[ \t]*$/) print file "\t" tolower($0) }
    ' "$file"
done <"$folder/files" >"$folder/lines"

printf '| %s | files | crates | code | definitions | proofs |\n' 'names'
echo '|---|---|---|---|---|---|'
for word in "$@"; do
    case $word in
    *[!0-9]*) pattern="(^|[^a-z])$word([^a-z]|\$)" ;;
    *) pattern="(^|[^a-z0-9_.])$word([^a-z0-9_.]|\$)" ;;
    esac
    awk -F '\t' -v pattern="$pattern" '{ line = substr($0, length($1) + 2) } line ~ pattern { print $1 }' "$folder/lines" |
        sort -u >"$folder/found.$word"
    awk -F / -v word="$word" '
        { files++; crates[$1] = 1; parts[$2]++ }
        END {
            for (c in crates) count++
            printf "| `%s` | %d | %d | %d | %d | %d |\n", word, files, count, parts["src"], parts["specs"], parts["proofs"]
        }
    ' "$folder/found.$word"
done
for word in "$@"; do
    printf '\n%s:\n' "$word"
    awk -F / '{ count[$1]++ } END { for (c in count) printf "%6d %s\n", count[c], c }' "$folder/found.$word" | sort -k2
    [ "$listed" = no ] || sed 's/^/    /' "$folder/found.$word"
done
