#!/bin/sh
# Measures on the built program how the time grows with the firings, with the modules and with the text: the ring of `make`, firings
# of each kind, long texts for `check` and `show`, and long traces for `replay`. It is no part of the merge gate.
#
# usage: bench/growth.sh [PROGRAM [PART..]]
#
# PROGRAM is what `rt run` builds in crates/estelle_tool. The parts are ring, firings, texts and traces; all where none is named.
# shellcheck source=bench/measure.sh disable=SC2317 # (forms are called by their names)
. "$(dirname "$0")/measure.sh"
[ $# -lt 1 ] || shift
parts=" ${*:-ring firings texts traces} "
is_asked() { case $parts in *" $1 "*) ;; *) return 1 ;; esac; }

# ---- the ring of `make`

if is_asked ring; then
    for stations in 2 20 200; do
        "$program" make --stations "$stations" >"$folder/input"
        for turns in 20000 200000; do
            run_times 1 run --turns "$turns"
            want "ring" 0 "$turns" fire
            row "the ring of $stations stations" "$turns" "$turns" firing
            note "$turns"
        done
        growth "the ring of $stations stations, by firings"
    done
    for stations in 2 20 200; do
        "$program" make --stations "$stations" >"$folder/input"
        run_times 1 run --turns 100000
        row '100,000 firings of the ring, by stations' "$stations" 100000 firing
        note "$stations"
    done
    growth '100,000 firings of the ring, by stations'
fi

# ---- firings

# One process that declares this, and whose transition has this block and fires so often.
process() {
    cat <<END
specification bench systemprocess;
$1
var n: integer;
state go;
initialize to go begin n := 0; $3 end;
trans from go to go provided n < $2 begin n := n + 1; $4 end;
end.
END
}
channel='channel c(giver, taker); by giver: m(i: integer); ip o: c(giver);'
sink='module sink process; ip q: c(taker); end; body sink_body for sink; end; modvar s: sink;'
leaf='module leaf process; export v: integer; end; body leaf_body for leaf; initialize begin v := 1 end; end; modvar x: leaf;'

# So many children that fire.
siblings() {
    cat <<END
specification siblings systemprocess;
module m process; end;
body b for m;
var n: integer;
initialize begin n := 0 end;
trans provided n < $2 begin n := n + 1 end;
end;
modvar $(names x "$1"): m;
initialize begin
$(each "$1" 'init x# with b;')
end;
end.
END
}

# A parent that fires, of so many children that do not.
parent() {
    cat <<END
specification parent systemprocess;
module m process; end;
body b for m;
var n: integer;
initialize begin n := 0 end;
end;
modvar $(names x "$1"): m;
var n: integer;
state go;
initialize to go begin n := 0;
$(each "$1" 'init x# with b;')
end;
trans from go to go provided n < $2 begin n := n + 1 end;
end.
END
}

# The run fires so often.
fires() {
    run_times 1 run --turns 1000000
    want "$1" 0 "$2" fire
    row "$1" "$2" "$2" firing
}
if is_asked firings; then
    process '' 100000 '' '' >"$folder/input"
    fires 'a block with an assignment' 100000
    process "$channel" 100000 '' 'output o.m(n)' >"$folder/input"
    fires 'a block with an output that is lost' 100000
    process "$channel $sink" 100000 'init s with sink_body; connect o to s.q' 'output o.m(n)' >"$folder/input"
    fires 'a block with an output that is put into a queue' 100000
    process "$leaf" 100000 '' 'init x with leaf_body; release x' >"$folder/input"
    fires 'a block with an init and a release' 100000
    for count in 1 10 100 1000; do
        siblings "$count" $((100000 / count)) >"$folder/input"
        fires "a module with $count siblings, itself among them" 100000
        note "$count"
    done
    growth 'a firing, by siblings: the exponent is to be 0'
    for count in 1 10 100 1000; do
        parent "$count" 10000 >"$folder/input"
        fires "a parent of $count children" 10000
        note "$count"
    done
    growth 'a firing, by children'
fi

# ---- texts, of a quarter, a half and the whole of 1 MiB

# Clauses in groups, at most 4,000 transitions a body.
clauses() {
    awk -v bytes="$1" 'BEGIN {
        printf "specification clauses; module m systemprocess; end;\n"
        for (size = 120; size < bytes - 400; body++) {
            head = sprintf("body b%d for m; var n: integer; state go, on; initialize to go begin n := 0 end; trans\n", body)
            printf "%s", head; size += length(head) + 5
            for (i = 0; i < 1000 && size < bytes - 400; i++) {
                line = sprintf("from go to on provided n < %d priority 3 begin end; provided n > %d priority 2 begin end; from on delay(3) begin n := %d end;\n", i, i, i)
                printf "%s", line; size += length(line)
            }
            print "end;"
        }
        print "end."
    }'
}
modules() {
    awk -v bytes="$1" 'BEGIN {
        print "specification modules; channel c(giver, taker); by giver: m(i: integer);"
        for (size = 80; size < bytes - 200; i++) {
            text = sprintf("module m%d systemprocess; ip p: c(giver); export v: integer; end;\nbody b%d for m%d; state go; initialize to go begin v := 0 end; trans from go begin output p.m(v) end; end;\nmodvar x%d: m%d;\n", i, i, i, i, i)
            printf "%s", text; size += length(text)
        }
        print "end."
    }'
}
# Bodies of 4,096 variants each.
variants() {
    awk -v bytes="$1" 'BEGIN {
        print "specification variants; module m systemprocess; end;"
        for (size = 60; size < bytes - 100; i++) {
            text = sprintf("body b%d for m; trans any i: 1..4096 do begin end; end;\n", i)
            printf "%s", text; size += length(text)
        }
        print "end."
    }'
}
assignments() {
    awk -v bytes="$1" 'BEGIN {
        print "specification bench systemprocess; var n: integer; state go; initialize to go begin n := 0 end;\ntrans from go to go provided n < 1 begin"
        for (size = 140; size < bytes - 40; size += 12) print "n := n + 1;"
        print "end;\nend."
    }'
}
blanks() {
    assignments 400
    awk -v bytes="$1" 'BEGIN { for (size = 400; size < bytes - 200; size += 64) printf "%63s\n", "" }'
}
if is_asked texts; then
    for form in clauses modules assignments blanks; do
        for command in check show; do
            for size in 262144 524288 1048576; do
                "$form" "$size" >"$folder/input"
                run_times 3 "$command"
                if [ "$command" = check ]; then want "$form" 0 1 accepted; else want "$form" 0 1 specification; fi
                row "$command: $form" "$(wc -c <"$folder/input")" "$(wc -c <"$folder/input")" byte
                note "$size"
            done
            growth "$command: $form"
        done
    done
    for size in 4096 16384 65536; do
        variants "$size" >"$folder/input"
        run_times 1 check
        want variants 0 1 accepted
        count=$(grep -c body "$folder/input")
        row "check: $count bodies of 4,096 variants" "$(wc -c <"$folder/input")" $((count * 4096)) variant
        note "$size"
    done
    growth 'check: bodies of 4,096 variants'
fi

# ---- traces

if is_asked traces; then
    "$program" make --stations 20 >"$folder/ring"
    for turns in 40000 120000 400000; do
        { cat "$folder/ring" && "$program" run --turns "$turns" <"$folder/ring"; } >"$folder/input"
        run_times 1 replay
        want replay 0 1 accepted
        row "replay: the ring of 20, so many firings" "$turns" "$(wc -c <"$folder/input")" byte
        note "$turns"
    done
    growth 'replay, by firings'
fi
exit "$failed"
