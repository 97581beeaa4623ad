#!/bin/sh
# Gives the texts of docs/RULES.md to the built program, and fails where an answer is not the one that stands there. The merge
# gate calls it (.ci/run).
#
# usage: bench/rules.sh [PROGRAM]
#
# PROGRAM is what `rt run` builds in crates/estelle_tool.
set -u
top=$(cd "$(dirname "$0")/.." && pwd)
program=${1:-$top/crates/estelle_tool/out/estelle_tool}
if [ ! -x "$program" ]; then
    echo "rules: no program $program: call rt run in crates/estelle_tool first" >&2
    exit 1
fi
folder=$(mktemp -d)
trap 'rm -rf "$folder"' EXIT

echo accepted >"$folder/accepted"
: >"$folder/nothing"

# Each text into a file NUMBER.input, with the line that is wanted on err in NUMBER.wanted: that behind a text that breaks a
# rule, none for a mended one.
awk -v folder="$folder" '
    /^```$/ { inside = !inside; if (inside) { count++; file = sprintf("%s/%03d", folder, count); printf "" > (file ".wanted") } else close(file ".input"); next }
    inside { print > (file ".input") }
    /^`estelle: / { gsub(/`/, ""); print > (file ".wanted"); close(file ".wanted") }
' "$top/docs/RULES.md"

tried=0
failed=0
for input in "$folder"/*.input; do
    tried=$((tried + 1))
    "$program" check <"$input" >"$folder/out" 2>"$folder/err"
    status=$?
    wanted=0
    written=$folder/accepted
    if [ -s "${input%.input}.wanted" ]; then
        wanted=1
        written=$folder/nothing
    fi
    if [ "$status" -ne "$wanted" ] || ! cmp -s "$folder/out" "$written" || ! cmp -s "$folder/err" "${input%.input}.wanted"; then
        failed=$((failed + 1))
        echo "FAILED: status $status (wanted $wanted), err '$(head -c 200 "$folder/err")' (wanted '$(cat "${input%.input}.wanted")')"
        cat "$input"
    fi
done
echo "$tried texts, $failed failed"
[ "$failed" -eq 0 ] && [ "$tried" -gt 0 ]
