#!/bin/sh
# Runs the built program on edge texts and compares what it writes with what the rules say; the answers were worked by
# hand. The merge gate calls it (.ci/run).
#
# usage: bench/edges.sh [PROGRAM]
#
# PROGRAM is what `rt run` builds in crates/estelle_tool.
set -u
top=$(cd "$(dirname "$0")/.." && pwd)
program=${1:-$top/crates/estelle_tool/out/estelle_tool}
if [ ! -x "$program" ]; then
    echo "edges: no program $program: call rt run in crates/estelle_tool first" >&2
    exit 1
fi
folder=$(mktemp -d)
trap 'rm -rf "$folder"' EXIT
tried=0
failed=0

# ---- expected traces: s1 is a selection of transition 1, s- one of nothing, f1 a firing, x1:KIND a fault, dead and turns ends

trace() {
    echo 'estelle trace 1'
    for word in $1; do
        case $word in
            start) echo start ;;
            s-) echo 'select / now 0 takes -' ;;
            s*) echo "select / now 0 takes /:${word#s}" ;;
            f*) echo "fire / ${word#f}" ;;
            x*) kind=${word#*:}; number=${word%%:*}; echo "fault / ${number#x} $kind"; echo "end fault $kind" ;;
            dead) echo 'end deadlock' ;;
            turns) echo 'end turns' ;;
            *) echo "bad word $word" ;;
        esac
    done
}

# The program on $folder/input is to give $folder/wanted, this status, and this line on err.
compare() {
    tried=$((tried + 1))
    "$program" run <"$folder/input" >"$folder/out" 2>"$folder/err"
    status=$?
    if [ "$status" -ne "$2" ] || ! cmp -s "$folder/out" "$folder/wanted" || [ "$(cat "$folder/err")" != "$3" ]; then
        failed=$((failed + 1))
        echo "FAILED: $1: status $status (wanted $2), err '$(head -c 200 "$folder/err")' (wanted '$3')"
        diff "$folder/wanted" "$folder/out" | head -n 6
    fi
}

# runs NAME TRACE: the input gives this trace
runs() {
    cat >"$folder/input"
    trace "$2" >"$folder/wanted"
    case $2 in
        *x*:*) kind=${2##*:}; compare "$1" 7 "estelle: fault $kind" ;;
        *) compare "$1" 0 '' ;;
    esac
}

# refuses NAME REASON
refuses() {
    cat >"$folder/input"
    : >"$folder/wanted"
    compare "$1" 1 "estelle: $2"
}

# holds NAME DECLARATIONS STATEMENTS CONDITION: after the statements the condition is true
holds() {
    runs "holds: $1" 'start s1 f1 s- dead' <<END
specification t systemprocess;
var n: integer;
$2
state go, yes;
initialize to go begin n := 0; $3 end;
trans from go to yes provided $4 begin end;
end.
END
}

# falls NAME DECLARATIONS STATEMENTS KIND: the statements come to this fault, in a firing and in the start
falls() {
    runs "falls: $1" "start s1 x1:$4" <<END
specification t systemprocess;
var n: integer;
$2
state go;
initialize to go begin n := 0 end;
trans from go to go begin $3 end;
end.
END
    runs "falls in the start: $1" "x0:$4" <<END
specification t systemprocess;
var n: integer;
$2
state go;
initialize to go begin n := 0; $3 end;
end.
END
}

# asks NAME DECLARATIONS CONDITION KIND: a guard comes to this fault
asks() {
    runs "asks: $1" "start x1:$4" <<END
specification t systemprocess;
var n: integer;
$2
state go;
initialize to go begin n := 0 end;
trans from go to go provided $3 begin end;
end.
END
}

# ---- values and operators (ISO 7185, 6.7)

holds 'div truncates' '' '' '(-7) div 2 = -3'
holds 'div by a negative number' '' '' '7 div (-2) = -3'
holds 'mod is not negative' '' '' '(-7) mod 2 = 1'
holds 'a sign is of the whole term' '' '' '-7 mod 2 = -1'
holds 'maxint' '' '' '(maxint = 9223372036854775807) and (-maxint = -9223372036854775807)'
holds 'up to maxint' '' '' 'maxint - 1 + 1 = maxint'
holds 'precedence' '' '' '(2 + 3 * 4 = 14) and (10 - 3 - 2 = 5) and (7 div 2 * 2 = 6)'
holds 'required functions' '' '' '(abs(-5) = 5) and (sqr(-3) = 9) and odd(-3) and not odd(4) and (succ(4) = 5) and (pred(-4) = -5)'
holds 'ordinals' '' '' "(ord('a') = 97) and (chr(97) = 'a') and (ord(true) = 1) and (succ(false) = true) and (pred('b') = 'a')"
holds 'chr to 255' 'var c: char;' 'c := chr(255)' 'ord(c) = 255'
holds 'enumerations' 'type colour = (red, green, blue); var c: colour;' 'c := succ(red)' '(c = green) and (ord(blue) = 2) and (red < blue)'
holds 'succ beyond a subrange' 'var s: 1..3;' 's := 3; n := succ(s)' 'n = 4'
holds 'boolean order' '' '' '(false < true) and (true >= true)'
holds 'the quote' "var c: char;" "c := ''''" "(ord(c) = 39) and (c <> 'x')"
holds 'or decides' '' '' '(1 = 1) or (1 div 0 = 1)'
holds 'and decides' '' '' 'not ((1 = 2) and (1 div 0 = 1))'
holds 'set operators' '' '' '[1..3] + [5] - [2] * [2..9] = [1, 3, 5]'
holds 'set relations' '' '' '([1..3] <= [0..9]) and ([0..9] >= [1..3]) and ([1, 2] = [2, 1]) and ([1] <> [2]) and ([] <= [1])'
holds 'an empty range in a set' '' '' '[5..1] = []'
holds 'the largest set' 'var s: set of 0..255;' 's := [0..255]' '(255 in s) and (0 in s) and not (256 in s) and not (-1 in s)'
holds 'a set of characters' 'var s: set of char;' "s := ['a'..'c', chr(255)]" "('b' in s) and (chr(255) in s) and not ('d' in s)"
holds 'a set of an enumeration' 'type colour = (red, green, blue); var s: set of colour;' 's := [red, blue]' '(red in s) and not (green in s)'
holds 'leading zeros' '' 'n := 007' 'n = 7'
holds 'maxint hidden' 'var maxint: integer;' 'maxint := 5' 'maxint = 5'
holds 'a constant with a sign' 'const low = -2; var a: array [low..2] of integer;' 'a[low] := 1; a[2] := 4' 'a[-2] + a[2] = 5'

# ---- statements (6.8)

holds 'for upward' 'var i: integer;' 'for i := 1 to 3 do n := n * 10 + i' 'n = 123'
holds 'for downward' 'var i: integer;' 'for i := 3 downto 1 do n := n * 10 + i' 'n = 321'
holds 'for bounds are taken once' 'var i: integer;' 'n := 3; for i := 1 to n do n := n + 1' 'n = 6'
holds 'for without a turn' 'var i: integer;' 'for i := 1 to 0 do n := 1' 'n = 0'
holds 'for counts by itself' 'var i: integer;' 'for i := 1 to 3 do begin n := n + 1; i := 3 end' 'n = 3'
holds 'for to maxint' 'var i: integer;' 'for i := maxint - 1 to maxint do n := n + 1' 'n = 2'
holds 'for down to -maxint' 'var i: integer;' 'for i := 1 - maxint downto -maxint do n := n + 1' 'n = 2'
holds 'for over characters' "var c: char;" "for c := 'a' to 'e' do n := n + 1" 'n = 5'
holds 'for over an enumeration' 'type colour = (red, green, blue); var c: colour;' 'for c := red to blue do n := n + ord(c)' 'n = 3'
holds 'for over booleans' 'var b: boolean;' 'for b := false to true do n := n + 1' 'n = 2'
holds 'for over all of a subrange' 'var i: 1..3;' 'for i := 1 to 3 do n := n + 1' 'n = 3'
holds 'all units of the start' 'var i: integer;' 'for i := 1 to 1000000 do n := i' 'n = 1000000'
holds 'while' '' 'while n < 5 do n := n + 2' 'n = 6'
holds 'while without a turn' '' 'while n > 0 do n := 9' 'n = 0'
holds 'repeat once' '' 'repeat n := n + 1 until true' 'n = 1'
holds 'repeat' '' 'repeat n := n + 1 until n >= 5' 'n = 5'
holds 'nearest else' '' 'if 1 = 1 then if 1 = 2 then n := 1 else n := 2' 'n = 2'
holds 'case' '' 'n := 3; case n of 1, 2: n := 7; 3, 4: n := 8; 5: n := 9 end' 'n = 8'
holds 'case of characters' "var c: char;" "c := 'b'; case c of 'a': n := 1; 'b': n := 2; end" 'n = 2'
holds 'empty statements' '' ';;; begin end; if 1 = 2 then; while n > 0 do' 'n = 0'

# ---- structured values (6.4.3, 6.5.3)

holds 'two dimensions' 'var m: array [1..2, 1..3] of integer;' 'm[2, 3] := 5; m[1][1] := 4' '(m[2][3] = 5) and (m[1, 1] = 4)'
holds 'a row of a matrix' 'type row = array [1..3] of integer; var m: array [1..2] of row; r: row;' 'r[1] := 7; m[2] := r' 'm[2, 1] = 7'
holds 'records in arrays' 'var a: array [1..2] of record x: integer; y: boolean end;' 'a[1].x := 3; a[2] := a[1]; a[2].y := true' '(a[2].x = 3) and a[2].y'
holds 'arrays in records' 'var r: record x: integer; a: array [boolean] of integer end;' 'r.a[true] := 3; r.a[false] := 4' 'r.a[true] * r.a[false] = 12'
holds 'a copy with unset parts' 'var a, b: record x, y: integer end;' 'a.x := 5; b := a' 'b.x = 5'
holds 'a copy is apart' 'var a, b: array [1..2] of integer;' 'a[1] := 1; b := a; a[1] := 2' 'b[1] = 1'
holds 'index by an enumeration' 'type colour = (red, green, blue); var a: array [colour] of integer;' 'a[blue] := 3' 'a[blue] = 3'
holds 'index by characters' "var a: array [char] of integer;" "a['z'] := 26; a[chr(0)] := 1" "a['z'] + a[chr(0)] = 27"
holds 'the largest array' 'var a: array [1..65536] of integer;' 'a[65536] := 1; a[1] := 2' 'a[1] + a[65536] = 3'
holds 'packed' 'var a: packed array [1..2] of integer;' 'a[1] := 1' 'a[1] = 1'
holds 'the other brackets' 'var a: array (.1..2.) of integer;' 'a(.2.) := 6' 'a[2] = 6'

# ---- routines (6.6)

holds 'recursion' 'function fact(k: integer): integer; begin if k <= 1 then fact := 1 else fact := k * fact(k - 1) end;' 'n := fact(20)' 'n = 2432902008176640000'
holds 'a call before the declaration' 'function even(k: integer): boolean; begin if k = 0 then even := true else even := uneven(k - 1) end;
function uneven(k: integer): boolean; begin if k = 0 then uneven := false else uneven := even(k - 1) end;' '' 'even(100) and uneven(101)'
holds 'a var parameter' 'procedure p(var x: integer); begin x := x + 1 end;' 'p(n); p(n)' 'n = 2'
holds 'aliases' 'var m: integer; procedure p(var x, y: integer); begin x := 1; y := 2; m := x end;' 'p(n, n)' 'm = 2'
holds 'a place is fixed at the call' 'var i: integer; a: array [1..2] of integer; procedure p(var x: integer); begin i := 2; x := 7 end;' 'a[2] := 0; i := 1; p(a[i])' '(a[1] = 7) and (a[2] = 0)'
holds 'a part of a var parameter' 'type pair = record x, y: integer end; var a: array [1..2] of pair; procedure p(var r: pair); begin r.y := 3 end;' 'p(a[2])' 'a[2].y = 3'
holds 'a var parameter passed on' 'procedure q(var x: integer); begin x := x * 2 end; procedure p(var x: integer); begin x := 4; q(x) end;' 'p(n)' 'n = 8'
holds 'a value parameter is a copy' 'type row = array [1..2] of integer; var a: row; procedure p(r: row); begin r[1] := 9 end;' 'a[1] := 1; p(a)' 'a[1] = 1'
holds 'a function in an index' 'var a: array [1..3] of integer; function f(k: integer): integer; begin f := k + 1 end;' 'a[f(1)] := 5; n := a[f(f(0))]' 'n = 5'
holds 'a function without arguments' 'var m: integer; function f: integer; begin f := m + 1 end;' 'm := 4; n := f + f' 'n = 10'
holds 'own variables are new at each call' 'procedure p(k: integer); var own: integer; begin own := k; if k > 0 then p(k - 1); n := n + own end;' 'n := 0; p(3)' 'n = 6'
holds 'the last assignment is the result' 'function f: integer; begin f := 1; f := 2 end;' 'n := f' 'n = 2'
holds '200 nested calls' 'procedure down(k: integer); begin if k > 1 then down(k - 1) else n := 1 end;' 'down(200)' 'n = 1'
holds 'depth falls again' 'var i: integer; procedure down(k: integer); begin if k > 1 then down(k - 1) else n := n + 1 end;' 'for i := 1 to 10 do down(200)' 'n = 10'

# ---- faults

falls 'div by zero' '' 'n := 1 div n' DivideByZero
falls 'mod by zero' '' 'n := 1 mod n' ModNotPositive
falls 'mod by a negative number' '' 'n := 1 mod (-1)' ModNotPositive
falls 'plus' '' 'n := maxint + 1' Overflow
falls 'minus' '' 'n := -maxint - 1' Overflow
falls 'times' '' 'n := maxint * 2' Overflow
falls 'succ of maxint' '' 'n := succ(maxint)' Overflow
falls 'pred of -maxint' '' 'n := pred(-maxint)' Overflow
falls 'sqr' '' 'n := sqr(maxint)' Overflow
falls 'a subrange' 'var s: 1..3;' 's := n' Range
falls 'above a subrange' 'var s: 1..3;' 's := 3; s := succ(s)' Range
falls 'succ of the last' 'type colour = (red, green, blue); var c: colour;' 'c := succ(blue)' Range
falls 'pred of the first' 'var b: boolean;' 'b := pred(false)' Range
falls 'succ of the last character' 'var c: char;' 'c := succ(chr(255))' Range
falls 'chr of 256' 'var c: char;' 'c := chr(256)' Range
falls 'chr of -1' 'var c: char;' 'c := chr(-1)' Range
falls 'a set beyond its base' 'var s: set of 0..9;' 's := [10]' Range
falls 'a member beyond 255' 'var s: set of 0..255;' 's := [256]' Range
falls 'a negative member' 'var s: set of 0..255;' 's := [-1]' Range
falls 'a range of members beyond 255' 'var s: set of 0..255;' 's := [250..256]' Range
falls 'a value parameter' 'procedure p(k: integer); begin end; type small = 1..3; procedure q(k: small); begin end;' 'p(4); q(4)' Range
falls 'the result of a function' 'type small = 1..3; function f: small; begin f := 4 end;' 'n := f' Range
falls 'the variable of for' 'var i: 1..3;' 'for i := 1 to 4 do n := n + 1' Range
falls 'below an index' 'var a: array [1..3] of integer;' 'a[n] := 1' Index
falls 'above an index' 'var a: array [1..3] of integer;' 'n := 4; a[n] := 1' Index
falls 'the second index' 'var m: array [1..2, 1..3] of integer;' 'm[2, 4] := 1' Index
falls 'an index of a value' 'var a: array [1..3] of integer;' 'n := a[4]' Index
falls 'an index of a var parameter' 'var a: array [1..3] of integer; procedure p(var x: integer); begin end;' 'p(a[0])' Index
falls 'an unset variable' 'var m: integer;' 'n := m' Unset
falls 'an unset condition' 'var b: boolean;' 'if b then n := 1' Unset
falls 'an unset element' 'var a: array [1..2] of integer;' 'a[1] := 1; n := a[2]' Unset
falls 'an unset field' 'var r: record x, y: integer end;' 'r.x := 1; n := r.y' Unset
falls 'an unset set' 'var s: set of 0..9;' 's := s + [1]' Unset
falls 'an unset result' 'function f: integer; begin end;' 'n := f' Unset
falls 'the variable after for' 'var i: integer;' 'for i := 1 to 2 do n := i; n := i' Unset
falls 'the variable after for without a turn' 'var i: integer;' 'i := 5; for i := 1 to 0 do n := 1; n := i' Unset
falls 'an unset own variable' 'procedure p; var own: integer; begin n := own end;' 'p' Unset
falls 'an unset argument' 'var m: integer; procedure p(k: integer); begin end;' 'p(m)' Unset
falls 'no label' '' 'case n of 1: n := 1; 2: n := 2 end' NoCase
falls 'while without an end' '' 'while true do n := 1' StepLimit
falls 'repeat without an end' '' 'repeat until false' StepLimit
falls 'a turn too many' 'var i: integer;' 'for i := 1 to 1000001 do n := 1' StepLimit
falls 'recursion without an end' 'procedure p; begin p end;' 'p' CallDepth
falls '201 nested calls' 'procedure down(k: integer); begin if k > 1 then down(k - 1) end;' 'down(201)' CallDepth
falls 'functions nest too' 'function down(k: integer): integer; begin if k > 1 then down := down(k - 1) else down := 0 end;' 'n := down(200); n := down(201)' CallDepth
falls 'a call takes a unit' 'var i: integer; procedure p; begin end;' 'for i := 1 to 500000 do p; p' StepLimit

# ---- the order of evaluation

falls 'the index before the right side' 'var a: array [1..3] of integer;' 'a[0] := 1 div 0' Index
falls 'the left operand first' 'var m: integer;' 'n := m + 1 div 0' Unset
falls 'the right operand next' 'var m: integer;' 'n := 1 div 0 + m' DivideByZero
falls 'a fit is tested before the next argument' 'type small = 1..3; procedure p(a: small; b: integer); begin end;' 'p(0, 1 div 0)' Range
falls 'the low bound of for first' 'var i, m: integer;' 'for i := m to 1 div 0 do n := 1' Unset
falls 'an index is tested before the next' 'var m: array [1..2, 1..2] of integer;' 'm[3, 1 div 0] := 1' Index
falls 'the element of a set before the next' 'var s: set of 0..9;' 's := [300, 1 div 0]' Range

# ---- guards

asks 'div by zero' '' '1 div n = 1' DivideByZero
asks 'unset' 'var b: boolean;' 'b' Unset
asks 'index' 'var a: array [1..3] of integer;' 'a[n] = 0' Index
asks 'units' 'function f: boolean; begin while true do; f := true end;' 'f' StepLimit
asks 'depth' 'function f(k: integer): boolean; begin if k > 1 then f := f(k - 1) else f := true end;' 'f(201)' CallDepth
runs 'a later guard faults though an earlier one is true' 'start x2:DivideByZero' <<'END'
specification t systemprocess;
var n: integer;
state go;
initialize to go begin n := 0 end;
trans
from go to go provided n = 0 begin n := 1 end;
from go to go provided 1 div n = 1 begin end;
end.
END
runs 'the first guard that faults' 'start x2:DivideByZero' <<'END'
specification t systemprocess;
var n, m: integer;
state go;
initialize to go begin n := 0 end;
trans
from go to go provided n = 1 begin end;
from go to go provided 1 div n = 1 begin end;
from go to go provided m = 1 begin end;
end.
END
runs 'no guard is asked in another state' 'start s1 f1 s- dead' <<'END'
specification t systemprocess;
var n: integer;
state go, yes, never;
initialize to go begin n := 0 end;
trans
from go to yes begin end;
from never to go provided 1 div n = 1 begin end;
end.
END
runs 'a guard faults after a firing' 'start s1 f1 x2:DivideByZero' <<'END'
specification t systemprocess;
var n: integer;
state go;
initialize to go begin n := 1 end;
trans
from go to go provided n = 1 begin n := 0 end;
from go to go provided 1 div n = 5 begin end;
end.
END

# ---- transitions

runs 'the first of two' 'start s1 f1 s2 f2 s- dead' <<'END'
specification t systemprocess;
var n: integer;
state go;
initialize to go begin n := 0 end;
trans
from go to go provided n = 0 begin n := 1 end;
from go to go provided n <= 1 begin n := 2 end;
end.
END
runs 'no states' 'start s1 f1 s1 f1 s- dead' <<'END'
specification t systemprocess;
var n: integer;
initialize begin n := 0 end;
trans provided n < 2 begin n := n + 1 end;
end.
END
runs 'no initialization' 'start s- dead' <<'END'
specification t systemprocess;
end.
END
runs 'no initialization, and a transition' 'start x1:Unset' <<'END'
specification t systemprocess;
var n: integer;
trans provided n < 2 begin n := n + 1 end;
end.
END
runs 'a stateset and same' 'start s1 f1 s2 f2 s2 f2 s- dead' <<'END'
specification t systemprocess;
var n: integer;
state one, two, three;
stateset others = [two, three];
initialize to one begin n := 0 end;
trans
from one to three begin end;
from others to same provided n < 2 begin n := n + 1 end;
end.
END
runs 'nested clauses' 'start s2 f2 s1 f1 s3 f3 s- dead' <<'END'
specification t systemprocess;
var n: integer;
state one, two;
initialize to one begin n := 0 end;
trans
from one
  provided n = 1 to two name first: begin end;
  provided n = 0 to same name second: begin n := 1 end;
from two
  to one provided n = 1 begin n := 2 end;
end.
END
runs 'a transition from every state' 'start s1 f1 s1 f1 s- dead' <<'END'
specification t systemprocess;
var n: integer;
state one, two;
initialize to one begin n := 0 end;
trans
to two provided n < 2 begin n := n + 1 end;
end.
END
runs 'a block with declarations' 'start s1 f1 s- dead' <<'END'
specification t systemprocess;
var n: integer;
state go;
initialize to go begin n := 0 end;
trans
from go to go provided n = 0 name tick:
const two = 2;
type row = array [1..two] of integer;
var a: row; i: integer;
begin
  for i := 1 to two do a[i] := i;
  n := a[1] + a[two]
end;
end.
END
runs 'variables of a block are new in each firing' 'start s1 f1 s1 x1:Unset' <<'END'
specification t systemprocess;
var n: integer;
state go;
initialize to go begin n := 0 end;
trans
from go to go
var own: integer;
begin
  if n = 0 then own := 1;
  n := n + own
end;
end.
END
runs 'capitals and comments' 'start s1 f1 s- dead' <<'END'
SPECIFICATION T SystemProcess; { a comment } VAR N: INTEGER; (* another *)
State Go; Initialize To GO Begin n := 0 End; Trans From gO To Go Provided n < 1 Begin n := N + 1 End; END.
END

# ---- limits

{
    echo 'start'
    awk 'BEGIN { for (i = 0; i < 10000; i++) print "s1 f1" }'
    echo 'turns'
} >"$folder/words"
runs 'the limit of firings' "$(cat "$folder/words")" <<'END'
specification t systemprocess;
var n: integer;
state go;
initialize to go begin n := 0 end;
trans from go to go begin n := n + 1 end;
end.
END

# So many transitions, of which the last is enabled once.
transitions() {
    printf 'specification t systemprocess;\nvar n: integer;\nstate go;\ninitialize to go begin n := 0 end;\ntrans\n'
    awk "BEGIN { for (i = 1; i < $1; i++) print \"from go to go provided n < 0 begin end;\" }"
    printf 'from go to go provided n = 0 begin n := 1 end;\nend.\n'
}
transitions 4096 >"$folder/text"
runs '4,096 transitions' 'start s4096 f4096 s- dead' <"$folder/text"
transitions 4097 >"$folder/text"
refuses '4,097 transitions' 'rule 33 1:1' <"$folder/text"

# ---- so many of a kind that a number cut to a byte, and of variables to two, would name another one

# names PREFIX N: a list of names with numbers
names() { awk -v p="$1" -v n="$2" 'BEGIN { for (i = 1; i <= n; i++) printf "%s%s%d", (i > 1 ? ", " : ""), p, i }'; }
# each N TEXT: the text so often, with its number for `#`
each() { awk -v n="$1" -v text="$2" 'BEGIN { for (i = 1; i <= n; i++) { one = text; gsub(/#/, i, one); print one } }'; }

holds '70,000 variables' "var $(names v 70000): integer;" 'v70000 := 7; v4464 := 8' 'v70000 = 7'
holds '300 fields' "var w: record $(names f 300): integer end;" 'w.f300 := 7; w.f44 := 8' 'w.f300 = 7'
holds '300 values of an enumeration' "type e = ($(names e 300)); var x: e;" 'x := e300; n := ord(x)' 'n = 299'
holds '300 constants' "const $(each 300 'c# = #;')" 'n := c300' 'n = 300'
holds '300 types' "type $(each 300 't# = 0..#;') var x: t300;" 'x := 300; n := x' 'n = 300'
holds '300 routines' "$(each 300 'function g#(q: integer): integer; begin g# := # + q end;')" 'n := g300(1)' 'n = 301'
holds '300 parameters of a routine' "function g($(names q 300): integer): integer; begin g := q300 - q44 end;" "n := g($(names '' 300))" 'n = 256'
holds '300 variables of a routine' "function g(q: integer): integer; var $(names l 300): integer; begin l300 := q; l44 := 8; g := l300 end;" 'n := g(7)' 'n = 7'
holds '300 labels of a case' '' "n := 300; case n of $(each 300 '#: n := 1000 + #;') end" 'n = 1300'
holds '300 members of a set' 'var s: set of 0..255;' "s := [$(awk 'BEGIN { for (i = 0; i < 300; i++) printf "%s%d", (i > 0 ? ", " : ""), i % 256 }')]" '(255 in s) and (0 in s)'

# sends NAME LINE: the first transition of the input fires once, and sends this
sends() {
    cat >"$folder/input"
    { trace start; echo 'select / now 0 takes /:1'; echo 'fire / 1'; echo "$2"; echo 'select / now 0 takes -'; echo 'end deadlock'; } >"$folder/wanted"
    compare "$1" 0 ''
}
sends '300 interaction points' 'lost /.i300 m' <<END
specification t systemprocess;
channel c(a, b); by a: m;
ip $(names i 300): c(a);
state go, done;
initialize to go begin end;
trans from go to done begin output i300.m end;
end.
END
sends '300 interactions' 'lost /.i m300(7)' <<END
specification t systemprocess;
channel c(a, b); by a: $(each 300 'm#(x: integer);')
ip i: c(a);
state go, done;
initialize to go begin end;
trans from go to done begin output i.m300(7) end;
end.
END
sends '300 parameters of an interaction' "lost /.i m($(names '' 300 | tr -d ' '))" <<END
specification t systemprocess;
channel c(a, b); by a: m($(names x 300): integer);
ip i: c(a);
state go, done;
initialize to go begin end;
trans from go to done begin output i.m($(names '' 300)) end;
end.
END
sends '300 channels' 'lost /.i300 m300' <<END
specification t systemprocess;
$(each 300 'channel c#(a, b); by a: m#;')
ip $(each 299 'i#: c#(a);') i300: c300(a);
state go, done;
initialize to go begin end;
trans from go to done begin output i300.m300 end;
end.
END
runs '300 states' 'start s2 f2 s1 f1 s- dead' <<END
specification t systemprocess;
state $(names s 300), done;
initialize to s300 begin end;
trans
from s44 to done begin end;
from s300 to s44 begin end;
end.
END
runs '300 modules, bodies and module variables' 'start s1 f1 s- dead' <<END
specification t systemprocess;
$(each 300 'module h# process; export v: integer; end; body b# for h#; initialize begin v := # end; end;')
modvar $(each 300 'x#: h#;')
state go, done;
initialize to go begin init x44 with b44; init x300 with b300 end;
trans from go to done provided (x300.v = 300) and (x44.v = 44) begin end;
end.
END

# A block in which so many `begin` stand in one another, each in a line of its own from line 7 on, with this statement inside.
nested() {
    printf 'specification t systemprocess;\nvar n: integer;\nprocedure down(k: integer); begin if k > 1 then down(k - 1) else n := 1 end;\nstate go;\ninitialize to go begin n := 0 end;\n'
    printf 'trans from go to go provided n = 0\n'
    awk "BEGIN { for (i = 0; i < $1; i++) print \"begin\" }"
    echo "$2"
    awk "BEGIN { for (i = 0; i < $1; i++) print \"end\" }"
    printf ';\nend.\n'
}
nested 200 'n := 1' >"$folder/text"
runs 'a block nested 200 deep' 'start s1 f1 s- dead' <"$folder/text"
nested 200 'down(200)' >"$folder/text"
runs 'a block nested 200 deep, and calls 200 deep' 'start s1 f1 s- dead' <"$folder/text"
nested 200 'down(201)' >"$folder/text"
runs 'a block nested 200 deep, and a call too many' 'start s1 x1:CallDepth' <"$folder/text"
nested 201 'n := 1' >"$folder/text"
refuses 'a block nested 201 deep' 'syntax 207:1' <"$folder/text"

# A sum in so many brackets; the block is a level of its own.
brackets() {
    printf 'specification t systemprocess;\nvar n: integer;\nstate go;\ninitialize to go begin n := 0 end;\ntrans from go to go provided n = 0 begin n :=\n'
    awk "BEGIN { for (i = 0; i < $1; i++) print \"(\" }"
    echo '1'
    awk "BEGIN { for (i = 0; i < $1; i++) print \")\" }"
    printf 'end;\nend.\n'
}
brackets 199 >"$folder/text"
runs '199 brackets in a block' 'start s1 f1 s- dead' <"$folder/text"
brackets 200 >"$folder/text"
refuses '200 brackets in a block' 'syntax 205:1' <"$folder/text"

# Calls that nest to the limit, each behind so many brackets of the text: a declaration.
deep() {
    printf '%s\n' "$1"
    awk "BEGIN { for (i = 0; i < $2; i++) printf \"%s\", \"$3\" }"
    printf 'f(k - 1)'
    awk "BEGIN { for (i = 0; i < $2; i++) printf \"%s\", \"$4\" }"
    printf ' else f := 1 end;\n'
}
holds '200 calls, each behind 190 brackets' "$(deep 'function f(k: integer): integer; begin if k > 1 then f := 1 + ' 190 '(' ')')" 'n := f(200)' 'n = 200'
falls 'a call too many, each behind 190 brackets' "$(deep 'function f(k: integer): integer; begin if k > 1 then f := 1 + ' 190 '(' ')')" 'n := f(201)' CallDepth
holds '200 calls, each behind 190 indices' "$(deep 'var a: array [1..1] of integer; function f(k: integer): integer; begin if k > 1 then f := ' 190 'a[' ']')" 'a[1] := 1; n := f(200)' 'n = 1'
holds '199 calls, each behind the arguments of 190' "$(deep 'function g(a, b: integer): integer; begin g := b end; function f(k: integer): integer; begin if k > 1 then f := 1 + ' 190 'g(k, ' ')')" 'n := f(199)' 'n = 199'

# ---- refusals

refuses 'an array of 65,537 elements' 'rule 44 2:8' <<'END'
specification t systemprocess;
var a: array [1..65537] of integer;
state go;
initialize to go begin end;
end.
END
refuses 'an unknown name at the end' 'rule 2 6:28' <<'END'
specification t systemprocess;
var n: integer;
state go;
initialize to go begin n := 0 end;
trans
from go to go begin n := n+k end;
end.
END
refuses 'a state as a value' 'rule 3 5:27' <<'END'
specification t systemprocess;
var n: integer;
state go;
initialize to go begin n := 0 end;
trans from go to go begin go := 1 end;
end.
END
refuses 'a name declared twice' 'rule 1 3:7' <<'END'
specification t systemprocess;
var n: integer;
state n;
initialize to n begin end;
end.
END
refuses 'states without a first one' 'rule 4 1:1' <<'END'
specification t systemprocess;
state go;
initialize begin end;
end.
END
refuses 'a condition that is a number' 'rule 40 4:30' <<'END'
specification t systemprocess;
state go;
initialize to go begin end;
trans from go to go provided 1 begin end;
end.
END
refuses 'a function that assigns an outer variable' 'rule 43 3:29' <<'END'
specification t systemprocess;
var n: integer;
function f: integer; begin  n := 1; f := 1 end;
end.
END
runs 'systemactivity' 'start s- dead' <<'END'
specification t systemactivity;
end.
END
runs 'no attribute' 'start dead' <<'END'
specification t;
end.
END
for clause in 'priority 1' 'any i: 1..2 do' 'delay(0)'; do
    runs "$clause" 'start s1 f1 s- dead' <<END
specification t systemprocess;
state go, done;
initialize to go begin end;
trans from go to done $clause begin end;
end.
END
done
runs 'a module' 'start s- dead' <<'END'
specification t systemprocess;
module m process; end;
end.
END
refuses 'an Estelle statement in a routine' 'rule 2 2:28' <<'END'
specification t systemprocess;
procedure p; begin release x end;
end.
END
refuses 'nothing' 'syntax 1:1' </dev/null
head -c 20 "$top/examples/counter.est" >"$folder/text"
refuses 'the first 20 bytes of the counter' 'syntax 1:21' <"$folder/text"

# The counter with its condition in so many brackets.
bracketed() {
    open=$(printf "%$1s" '' | tr ' ' '(')
    close=$(printf "%$1s" '' | tr ' ' ')')
    sed "s/n < 3/${open}n < 3${close}/" "$top/examples/counter.est"
}
bracketed 200 >"$folder/text"
runs '200 brackets in a condition' 'start s1 f1 s1 f1 s1 f1 s- dead' <"$folder/text"
bracketed 201 >"$folder/text"
refuses '201 brackets in a condition' 'syntax 6:224' <"$folder/text"

echo "$tried tried, $failed failed"
[ "$failed" -eq 0 ]
