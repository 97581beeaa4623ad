#!/bin/sh
# Measures bodies run by code: what a loop, firings, calls and guards take, and what two long texts take until their listing is
# written; processor time and peak memory. With a second program, one that evaluates bodies on their trees, each run is measured
# with both, and the last column is how many times faster the first one is. It is no part of the merge gate.
#
# usage: bench/code.sh [PROGRAM [PROGRAM ON TREES]]
#
# PROGRAM is what `rt run` builds in crates/estelle_tool.
# shellcheck source=bench/measure.sh
. "$(dirname "$0")/measure.sh"
coded=$program
treed=${2-}

line() {
    printf '%-46s %8s s %8s MB %8s s %8s MB %7s\n' "$@"
}

# One line of the table: a name, the status and how many firings are due, and what it may take: seconds, MB, or `-`.
compare() {
    name=$1
    program=$coded
    run_times 3 run --budget=100000000 --turns=1000000
    want "$name" "$2" "$3" fire
    first=$seconds
    room=$memory
    trees=-
    tree_room=-
    ratio=-
    if [ -n "$treed" ]; then
        cp "$folder/out" "$folder/by_code"
        program=$treed
        run_times 3 run --budget=100000000 --turns=1000000
        want "$name, on trees" "$2" "$3" fire
        cmp -s "$folder/out" "$folder/by_code" || wrong "$name: another trace than on trees"
        trees=$(awk "BEGIN { printf \"%.3f\", $seconds }")
        tree_room=$(awk "BEGIN { printf \"%.1f\", $memory / 1024 }")
        ratio=$(awk "BEGIN { printf \"%.2f\", ($first > 0 ? $seconds / $first : 0) }")
        program=$coded
    fi
    line "$name" "$(awk "BEGIN { printf \"%.3f\", $first }")" "$(awk "BEGIN { printf \"%.1f\", $room / 1024 }")" "$trees" "$tree_room" "$ratio"
}

# One process: what it declares beside n, its transition's guard, and what the block does.
process() {
    cat <<END
specification bench systemprocess;
$1
var n: integer;
state go;
initialize to go begin n := 0 end;
trans
from go to go provided $2 name tick:
begin
$3
end;
end.
END
}

printf '%-46s %10s %11s %10s %11s %7s\n' run 'by code' memory 'on trees' memory times

process '' 'n < 1' 'while n < 1000000 do n := n + 1' >"$folder/input"
compare 'a while loop of 1,000,000 turns' 0 1
process 'var i: integer;' 'n < 1' 'for i := 1 to 1000000 do n := i' >"$folder/input"
compare 'a for loop of 1,000,000 turns' 0 1
process '' 'n < 100000' 'n := n + 1' >"$folder/input"
compare '100,000 firings' 0 100000
process 'var i: integer; function next(m: integer): integer; begin next := m + 1 end;' 'n < 1' \
    'for i := 1 to 500000 do n := next(n)' >"$folder/input"
compare '500,000 calls' 0 1
{
    process '' 'n < 200' 'n := n + 1' | sed '$d'
    awk 'BEGIN { for (i = 2; i <= 4096; i++) print "from go to go provided n < 0 begin end;" }'
    echo 'end.'
} >"$folder/input"
compare '200 firings, each behind 4,096 guards' 0 200
process 'var a: array [1..65536] of integer;' 'n < 1000' 'n := n + 1; a[n] := n' >"$folder/input"
compare '1,000 firings beside an array of 65,536' 0 1000

# ---- listings

# A name, and the seconds and MB that its listing may take.
compile() {
    run_times 1 code
    if [ "$status" -ne 0 ]; then wrong "$1"; fi
    line "$1" "$(awk "BEGIN { printf \"%.3f\", $seconds }")" "$(awk "BEGIN { printf \"%.1f\", $memory / 1024 }")" - - "$(wc -c <"$folder/out")"
    if awk "BEGIN { exit !($seconds > $2 || $memory / 1024 > $3) }"; then wrong "$1: more than $2 s or $3 MB"; fi
}

printf '%-46s %10s %11s %10s %11s %7s\n' listing 'by code' memory '' '' bytes

# As many assignments as a text of 1,048,576 bytes has room for.
process '' 'n < 1' "$(awk 'BEGIN { for (left = 1048400; left > 16; left -= length(text)) { text = sprintf("n := %d;\n", i++ % 1000); printf "%s", text } print "n := 1" }')" >"$folder/input"
compile '1 MiB of assignments' 1 500
{
    process '' 'n < 1' '' | sed '/^trans$/,$d'
    echo 'trans any i: 1..4096 do from go to go provided n = i name tick: begin'
    awk 'BEGIN { for (i = 1; i < 100; i++) printf "n := 1;"; print "n := i" }'
    echo 'end; end.'
} >"$folder/input"
compile '100 assignments under any i: 1..4096' 0.1 50

exit "$failed"
