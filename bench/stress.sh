#!/bin/sh
# Runs small trees by 2 to 8 workers, many times and with many seeds: the examples, without their delays, so that nobody waits for the clock.
# Some make, release, attach and detach modules as they go. Each run is to end within a minute, well or at a fault, and `replay` is to accept
# its trace. It is no part of the merge gate.
#
# usage: bench/stress.sh [PROGRAM [SEEDS]]
#
# PROGRAM is what `rt run` builds in crates/estelle_tool. There are 15 seeds where none is said, which makes some 2,000 runs.
# shellcheck source=bench/measure.sh
. "$(dirname "$0")/measure.sh"
seeds=${2:-15}
runs=0
for text in "$top"/examples/*.est; do
    sed 's/delay *([^)]*)//g' "$text" >"$folder/text"
    # (one shows clauses, and is no text without its delays)
    if ! "$program" check <"$folder/text" >/dev/null 2>&1; then continue; fi
    seed=0
    while [ "$seed" -lt "$seeds" ]; do
        for workers in 2 3 4 5 6 7 8; do
            name="$(basename "$text"), seed $seed, $workers workers"
            status=0
            timeout 60 "$program" run --turns=200 --seed="$seed" --workers="$workers" <"$folder/text" >"$folder/out" 2>"$folder/err" || status=$?
            case $status in
            0 | 7)
                cat "$folder/text" "$folder/out" >"$folder/input"
                timeout 60 "$program" replay <"$folder/input" >"$folder/judged" 2>"$folder/err" || wrong "$name: the trace is refused"
                ;;
            *) wrong "$name" ;;
            esac
            runs=$((runs + 1))
        done
        seed=$((seed + 1))
    done
done
echo "$runs runs"
exit "$failed"
