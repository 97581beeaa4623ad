#!/bin/sh
# Runs the built program on generated specifications and prints the processor time of each run, how much of that is a
# firing's, and how much memory the run takes at its peak. It is no part of the merge gate.
#
# usage: bench/run.sh [PROGRAM]
#
# PROGRAM is what `rt run` builds in crates/estelle_tool. The runs have the limits that hold where none is said: 10,000 firings of
# 1,000,000 units each.
# shellcheck source=bench/measure.sh
. "$(dirname "$0")/measure.sh"

# ---- one run

# The program on the input, which is to fire so often and to end with this status.
measure() {
    run_times 1 run
    each=-
    [ "$2" -eq 0 ] || each=$(awk "BEGIN { printf \"%.1f\", $seconds * 1000000 / $2 }")
    printf '%-44s %9d %9d %8.2f %12s %9d %7d\n' "$1" "$(wc -c <"$folder/input")" "$(wc -c <"$folder/out")" \
        "$seconds" "$each" "$memory" "$status"
    fires=$(grep -c '^fire' "$folder/out") || true
    if [ "$fires" -ne "$2" ] || [ "$status" -ne "$3" ]; then
        echo "bench: $1: $fires firings and status $status, where $2 and $3 are due: $(head -n 1 "$folder/err")" >&2
        failed=1
    fi
}

# One process: what it declares beside n, its transition's guard, and what the block does.
process() {
    cat <<END
specification bench systemprocess;
$1
var n: integer;
state go;
initialize to go begin n := 0 end;
trans
from go to go provided $2 name tick:
begin
$3
end;
end.
END
}

printf '%-44s %9s %9s %8s %12s %9s %7s\n' run 'bytes in' 'bytes out' seconds 'us a firing' 'peak kB' status

# ---- firings

for firings in 1000 10000; do
    process '' "n < $firings" 'n := n + 1' >"$folder/input"
    measure "$firings firings" "$firings" 0
done

# Each selection asks all guards.
for blocks in 64 4096; do
    {
        process '' 'n < 200' 'n := n + 1' | sed '$d'
        awk "BEGIN { for (i = 2; i <= $blocks; i++) print \"from go to go provided n < 0 begin end;\" }"
        echo 'end.'
    } >"$folder/input"
    measure "200 firings, $blocks transitions" 200 0
done

# ---- units: the turns of loops, and calls

for turns in 100000 1000000; do
    process 'var i: integer;' 'n < 1' "for i := 1 to $turns do n := i" >"$folder/input"
    measure "a for loop of $turns turns" 1 0
    process '' 'n < 1' "while n < $turns do n := n + 1" >"$folder/input"
    measure "a while loop of $turns turns" 1 0
    process '' 'n < 1' "repeat n := n + 1 until n >= $turns" >"$folder/input"
    measure "a repeat loop of $turns turns" 1 0
done
for firings in 10 100; do
    process 'var i, m: integer;' "n < $firings" 'for i := 1 to 1000000 do m := i; n := n + 1' >"$folder/input"
    measure "$firings firings of 1,000,000 turns" "$firings" 0
done
for calls in 100000 500000; do
    process 'var i: integer; function next(m: integer): integer; begin next := m + 1 end;' 'n < 1' "for i := 1 to $calls do n := next(n)" >"$folder/input"
    measure "a for loop of $calls calls" 1 0
done
process 'procedure down(m: integer); begin if m > 1 then down(m - 1) end;' 'n < 1000' 'down(200); n := n + 1' >"$folder/input"
measure '200 nested calls a firing' 1000 0

# ---- large values: a firing changes one element, and its cost is not to grow with the array

for size in 10 1000 65536; do
    row="type row = array [1..$size] of integer; var a: row;"
    element="a[n mod $size + 1] := n; n := n + 1"
    process "$row" 'n < 10000' "$element" >"$folder/input"
    measure "an array of $size, one element a firing" 10000 0
    process "$row procedure put(var r: row; at, m: integer); begin r[at] := m end;" 'n < 10000' "put(a, n mod $size + 1, n); n := n + 1" >"$folder/input"
    measure "an array of $size, by a var parameter" 10000 0
    process "$row" "(n = 0) or (n < 10000) and (a[(n - 1) mod $size + 1] = n - 1)" "$element" >"$folder/input"
    measure "an array of $size, read by the guard" 10000 0
done
# The whole is copied, as it is assigned: this does grow.
process 'type row = array [1..65536] of integer; var a, b: row;' 'n < 100' 'a[n + 1] := n; b := a; n := n + 1' >"$folder/input"
measure 'an array of 65536, copied in each firing' 100 0

# ---- long inputs, of 1,048,576 bytes

# Blanks up to that length.
filled() {
    head -c $((1048576 - $(wc -c <"$folder/input"))) /dev/zero | tr '\0' ' ' >>"$folder/input"
}
process '' 'n < 0' 'n := n + 1' >"$folder/input"
filled
measure 'blanks behind a specification' 0 0
{
    printf 'specification '
    head -c 1048300 /dev/zero | tr '\0' 'c'
    process '' 'n < 0' 'n := n + 1' | sed '1s/specification bench//'
} >"$folder/input"
measure 'a long name' 0 0
process '' 'n < 1' "$(awk 'BEGIN { for (i = 0; i < 80000; i++) print "n := n + 1;" }')" >"$folder/input"
measure 'a block of 80,000 assignments' 1 0
process "$(awk 'BEGIN { printf "var v0: integer;"; for (i = 1; i < 50000; i++) printf "v%d: integer;\n", i }')" 'n < 1' 'n := 1; v49999 := n' >"$folder/input"
measure '50,000 variables' 1 0
process "$(awk 'BEGIN { for (i = 0; i < 21000; i++) printf "type r%d = record a: integer%s end;\n", i, i % 199 ? "; b: r" i - 1 : "" }')" 'n < 1' 'n := 1' >"$folder/input"
measure 'records in records, each with a name' 1 0
process "$(awk 'BEGIN { printf "type r = record f0: integer"; for (i = 1; i < 65000; i++) printf ";f%d:integer", i }') end; var v: r;" 'n < 1' 'v.f9 := 1; n := v.f9' >"$folder/input"
measure 'a record of 65,000 fields' 1 0
# A type is copied into each type expression that has it as a component.
for types in 500 1000; do
    process "$(awk "BEGIN { printf \"type r = record f0: integer\"; for (i = 1; i < 5000; i++) printf \";f%d:integer\", i; print \" end;\"; for (i = 0; i < $types; i++) printf \"type a%d = array [1..2] of r;\\n\", i }")" 'n < 1' 'n := 1' >"$folder/input"
    measure "$types arrays of records of 5,000 fields" 1 0
done
# Each flat transition has a list of its states.
for states in 20000 40000; do
    {
        awk "BEGIN { printf \"specification bench systemprocess; state s0\"; for (i = 1; i < $states; i++) printf \",s%d\", i }"
        awk "BEGIN { printf \"; stateset each = [s0\"; for (i = 1; i < $states; i++) printf \",s%d\", i; print \"];\" }"
        echo 'initialize to s0 begin end; trans from each'
        awk 'BEGIN { for (i = 0; i < 1000; i++) print "provided false begin end;" }'
        echo 'end.'
    } >"$folder/input"
    measure "1,000 transitions from $states states" 0 0
done
process '' 'n < 1' "$(awk 'BEGIN { for (i = 0; i < 80000; i++) print "n := n + 1;" }')
m := 1" >"$folder/input"
measure 'a rule broken at the end' 0 1
head -c 1048576 /dev/zero | tr '\0' '+' >"$folder/input"
measure 'a million tokens, refused' 0 1
head -c 1048577 /dev/zero | tr '\0' ' ' >"$folder/input"
measure 'one byte too long, refused' 0 1
exit "$failed"
