#!/bin/sh
# Measures the stores of a situation through the built program, on generated specifications: queues, instances, and the way of an
# output over attachments; of each what one call takes, and how the time grows over three sizes. It is no part of the merge gate.
#
# usage: bench/situations.sh [PROGRAM]
#
# PROGRAM is what `rt run` builds in crates/estelle_tool.
# shellcheck source=bench/measure.sh
. "$(dirname "$0")/measure.sh"

# ---- queues

# So many children of one system in a ring, each with a queue: a firing takes one interaction and puts one.
stations() {
    cat <<END
specification queues systemprocess;
channel c(giver, taker); by giver: m(i: integer);
module station process; ip left: c(taker); right: c(giver); end;
body go for station;
state fresh, here;
initialize to fresh begin end;
trans
from fresh to here begin output right.m(0) end;
from here to here when left.m begin output right.m(i + 1) end;
end;
modvar $(names s "$1"): station;
initialize begin
$(each "$1" 'init s# with go;')
$(each "$1" 'connect s#.right to s@.left;')
end;
end.
END
}

# The same children, which count and put nothing.
counters() {
    cat <<END
specification counters systemprocess;
module station process; end;
body go for station;
var n: integer;
initialize begin n := 0 end;
trans begin n := n + 1 end;
end;
modvar $(names s "$1"): station;
initialize begin
$(each "$1" 'init s# with go;')
end;
end.
END
}

# One child puts one interaction into each of so many queues in each of so many firings; then all are dropped.
puts() {
    cat <<END
specification puts systemprocess;
channel c(giver, taker); by giver: m(i: integer);
module sink process; ip $(names q "$1"): c(taker); end;
body sink_body for sink; end;
module source process; ip $(names o "$1"): c(giver); end;
body source_body for source;
var n: integer;
initialize begin n := 0 end;
trans provided n < $2 begin n := n + 1;
$(each "$1" 'output o#.m(n);')
end;
end;
modvar s: sink; o: source;
state full, gone;
initialize to full begin
init s with sink_body; init o with source_body;
$(each "$1" 'connect o.o# to s.q#;')
end;
trans from full to gone delay(1000000) begin release s end;
end.
END
}

for firings in 10000 100000 1000000; do
    counters 1000 >"$folder/input"
    run_times 1 run --turns "$firings"
    want "counters" 0 "$firings" fire
    row '1,000 children, a firing of each in turn, no queue' "$firings" "$firings" firing
    note "$firings"
done
growth '1,000 children, no queue'
for firings in 10000 100000 1000000; do
    stations 1000 >"$folder/input"
    run_times 1 run --turns "$firings"
    want "stations" 0 "$firings" out
    row '1,000 queues, each firing puts one and takes one' "$firings" "$firings" firing
    note "$firings"
done
growth '1,000 queues, by firings'
for queues in 10 100 1000; do
    stations "$queues" >"$folder/input"
    run_times 1 run --turns 100000
    want "stations" 0 100000 out
    row '100,000 firings, each puts one and takes one' "$queues" 100000 firing
    note "$queues"
done
growth '100,000 firings, by queues'
for firings in 10 100 1000; do
    puts 1000 "$firings" >"$folder/input"
    run_times 1 run
    want "puts" 0 $((firings * 1000)) drop
    row '1,000 queues, 1,000 outputs a firing, all dropped' "$((firings * 1000))" $((firings * 1000)) item
    note "$firings"
done
growth '1,000 queues, by outputs'

# ---- instances

# So many children, each with 100 of its own: all are made by the start, each is found twice by an exported variable, and all
# are removed in one firing.
instances() {
    cat <<END
specification instances systemprocess;
module leaf process; export v: integer; end;
body leaf_body for leaf;
initialize begin v := 1 end;
end;
module branch process; end;
body branch_body for branch;
modvar $(names y 100): leaf;
var sum: integer;
state fresh, done;
initialize to fresh begin
sum := 0;
$(each 100 'init y# with leaf_body;')
end;
trans from fresh to done begin
$(each 100 'y#.v := sum; sum := sum + y#.v;')
end;
end;
modvar $(names x "$1"): branch;
state full, gone;
initialize to full begin
$(each "$1" 'init x# with branch_body;')
end;
trans from full to gone delay(1000000) begin
$(each "$1" 'release x#;')
end;
end.
END
}

# One instance after another is made, found and removed, in one firing.
renewed() {
    cat <<END
specification renewed systemprocess;
module leaf process; export v: integer; end;
body leaf_body for leaf;
initialize begin v := 1 end;
end;
modvar x: leaf;
var i, sum: integer;
state go, done;
initialize to go begin sum := 0 end;
trans from go to done begin
for i := 1 to $1 do begin init x with leaf_body; x.v := sum; sum := sum + x.v; release x end
end;
end.
END
}

for branches in 10 100 1000; do
    instances "$branches" >"$folder/input"
    run_times $((branches > 100 ? 1 : 1000 / branches / 5)) run --budget 100000000
    want "instances" 0 $((branches + 1)) fire
    row 'instances at once: made, found twice, removed' $((branches * 101)) $((branches * 101)) instance
    note "$branches"
done
growth 'instances at once'
for count in 1000 10000 100000 1000000; do
    renewed "$count" >"$folder/input"
    run_times $((count > 10000 ? 1 : 100000 / count)) run --budget 100000000
    want "renewed" 0 1 fire
    row 'one after another: made, found twice, removed' "$count" "$count" instance
    note "$count"
done
growth 'one after another'

# ---- the way of an output

# A child with children so deep, each point attached to that of the next one; what is sent to the first one goes to the last.
down() {
    cat <<END
specification down systemprocess;
channel c(giver, taker); by giver: m(i: integer);
module chain process(n: integer); ip p: c(taker); end;
body chain_body for chain;
modvar x: chain;
initialize begin if n > 0 then begin init x with chain_body(n - 1); attach p to x.p end end;
end;
module source process; ip o: c(giver); end;
body source_body for source;
var n, i: integer;
initialize begin n := 0 end;
trans provided n < 100 begin n := n + 1; for i := 1 to 1000 do output o.m(i) end;
end;
modvar x: chain; s: source;
initialize begin init x with chain_body($1); init s with source_body; connect s.o to x.p end;
end.
END
}

# The last one sends, and it goes to a sibling of the first one.
up() {
    cat <<END
specification up systemprocess;
channel c(giver, taker); by giver: m(i: integer);
module chain process(n: integer); ip p: c(giver); end;
body chain_body for chain;
modvar x: chain;
var k, i: integer;
initialize begin k := 0; if n > 0 then begin init x with chain_body(n - 1); attach p to x.p end end;
trans provided (n = 0) and (k < 100) begin k := k + 1; for i := 1 to 1000 do output p.m(i) end;
end;
module sink process; ip q: c(taker); end;
body sink_body for sink; end;
modvar x: chain; s: sink;
initialize begin init x with chain_body($1); init s with sink_body; connect x.p to s.q end;
end.
END
}

for depth in 1 10 100; do
    down "$depth" >"$folder/input"
    run_times 1 run
    want "down" 0 100000 out
    row '100,000 outputs down over attachments' "$depth" 100000 output
    note "$depth"
done
growth 'down over attachments'
for depth in 1 10 100; do
    up "$depth" >"$folder/input"
    run_times 1 run
    want "up" 0 100000 out
    row '100,000 outputs up over attachments' "$depth" 100000 output
    note "$depth"
done
growth 'up over attachments'
exit "$failed"
