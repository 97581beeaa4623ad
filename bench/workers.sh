#!/bin/sh
# Measures runs by workers: the wall clock of runs by 1, 2, 3, 4 and 8 workers against that of the run on one thread, each the least and the
# median of some rounds in turned order, and the processor time over the wall clock. `replay` judges a trace by 4 workers of each load. It
# refuses to measure on fewer than four processors, and on a machine that is busy. It is no part of the merge gate.
#
# usage: bench/workers.sh [PROGRAM [ROUNDS]]
#
# PROGRAM is what `rt run` builds in crates/estelle_tool. It takes some five minutes for three rounds, which are the default.
# shellcheck source=bench/measure.sh
. "$(dirname "$0")/measure.sh"
rounds=${2:-3}
if [ "$(nproc)" -lt 4 ]; then
    echo 'workers: fewer than four processors' >&2
    exit 2
fi

# The jiffies in which the processors had something to do, and all of them.
jiffies() { awk '$1 == "cpu" { all = 0; for (i = 2; i <= NF; i++) all += $i; print all - $5 - $6, all }' /proc/stat; }
before=$(jiffies)
sleep 2
# shellcheck disable=SC2046,SC2086 # (lists of numbers)
if ! echo $before $(jiffies) | awk '{ exit !($3 - $1 < 0.05 * ($4 - $2)) }'; then
    echo 'workers: the machine is busy' >&2
    exit 2
fi
# Traces go to memory.
rm -rf "$folder"
folder=$(mktemp -d -p /dev/shm)

# The body of this number: firings, and the turns of the loop in each.
body() {
    cat <<END
body b$1 for cell;
var n, i, s: integer;
state go;
initialize to go begin n := 0; s := 0 end;
trans
from go to go provided n < $2 name tick:
begin n := n + 1; for i := 1 to $3 do s := i end;
end;
END
}

# The modules of the tree, with these attributes; how many, firings, turns, and whether these differ.
tree() {
    echo "specification bench $1;"
    echo "module cell $2; end;"
    for number in 1 2 3 4; do
        if [ "$6" = unequal ]; then turns=$(($5 * number)); else turns=$5; fi
        body "$number" "$4" "$turns"
    done
    echo "modvar $(names x "$3"): cell;"
    echo 'initialize begin'
    awk -v count="$3" 'BEGIN { for (i = 1; i <= count; i++) printf "init x%d with b%d;\n", i, (i - 1) % 4 + 1 }'
    echo 'end;'
    echo 'end.'
}

# The limit of firings, which ends the ring alone.
limit=1000000

# The wall clock of one run by so many workers: wall, and used for the processor time.
wall() {
    status=0
    /usr/bin/time -f '%e %U %S' -o "$folder/time" "$program" run --turns="$limit" --budget=100000000 --workers="$1" \
        <"$folder/input" >"$folder/out" 2>"$folder/err" || status=$?
    read -r wall user system <<END
$(tail -n 1 "$folder/time")
END
    used=$(awk "BEGIN { print $user + $system }")
}

counts='0 1 2 3 4 8'

# A line of the table: a name, and how many firings are due.
line() {
    : >"$folder/times"
    round=0
    while [ "$round" -lt "$rounds" ]; do
        for count in $counts; do
            wall "$count"
            want "$1, $count workers" 0 "$2" fire
            echo "$count $wall $used" >>"$folder/times"
            if [ "$round" -eq 0 ] && [ "$count" -eq 4 ]; then
                cat "$folder/input" "$folder/out" >"$folder/judged"
                if ! "$program" replay --budget=100000000 <"$folder/judged" >/dev/null 2>"$folder/err"; then
                    wrong "$1, $count workers: the trace is refused"
                fi
            fi
        done
        # The next round begins with the next number.
        counts=$(echo "$counts" | awk '{ first = $1; $1 = ""; sub(/^ /, ""); print $0, first }')
        round=$((round + 1))
    done
    sort -k1,1n -k2,2n "$folder/times" | awk -v name="$1" -v firings="$2" '
        { count[$1]++; wall[$1, count[$1]] = $2; used[$1] += $3; spent[$1] += $2 }
        END {
            plain = wall[0, 1]; middle = wall[0, int((count[0] + 1) / 2)]
            printf "%-40s %8.2f s", name, plain
            numbers = split("1 2 3 4 8", number, " ")
            for (i = 1; i <= numbers; i++) {
                n = number[i]; least = wall[n, 1]; median = wall[n, int((count[n] + 1) / 2)]
                printf "  %5.2f (%5.2f)", (least > 0 ? plain / least : 0), (median > 0 ? middle / median : 0)
            }
            printf "  %6.2f  %6.2f us\n", (spent[4] > 0 ? used[4] / spent[4] : 0), (wall[1, 1] - plain) * 1e6 / firings
        }'
}

printf '%-40s %10s  %13s  %13s  %13s  %13s  %13s  %6s  %s\n' 'times as fast as on one thread' 'one thread' 1 2 3 4 8 'at 4' 'a turn'
for turns in 0 100 1000 10000 100000; do
    firings=$(awk "BEGIN { f = int(6000000 / ($turns + 20) / 16); print (f > 16000 ? 16000 : f) }")
    tree systemprocess process 16 "$firings" "$turns" equal >"$folder/input"
    line "16 siblings, $firings firings of $turns turns" $((16 * firings))
done
for turns in 0 1000 10000; do
    firings=$(awk "BEGIN { f = int(6000000 / ($turns + 20) / 4); print (f > 64000 ? 64000 : f) }")
    tree systemprocess process 4 "$firings" "$turns" equal >"$folder/input"
    line "4 siblings, $firings firings of $turns turns" $((4 * firings))
done
tree systemprocess process 16 15 10000 unequal >"$folder/input"
line '16 siblings, 15 firings of 1 to 4 x 10000' $((16 * 15))
tree '' systemprocess 16 37 10000 equal >"$folder/input"
line '16 systems, 37 firings of 10000 turns' $((16 * 37))
"$program" make --stations=20 >"$folder/input"
limit=200000
line 'the ring of 20 stations' "$limit"
exit "$failed"
