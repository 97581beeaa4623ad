#!/bin/sh
# Gives traces at the bounds of docs/FORMATS.md to `replay` of the built program, each with one line in question behind `start`: one
# within its bounds is a trace, though none of a run, and one beyond them is a bad line. The answers were worked by hand. The
# merge gate calls it (.ci/run).
#
# usage: bench/traces.sh [PROGRAM]
#
# PROGRAM is what `rt run` builds in crates/estelle_tool.
set -u
top=$(cd "$(dirname "$0")/.." && pwd)
program=${1:-$top/crates/estelle_tool/out/estelle_tool}
if [ ! -x "$program" ]; then
    echo "traces: no program $program: call rt run in crates/estelle_tool first" >&2
    exit 1
fi
tried=0
failed=0

# answers LINE WANTED: the answer to a trace in which this line stands behind `start`
answers() {
    tried=$((tried + 1))
    said=$({ cat "$top/examples/counter.est"; printf 'estelle trace 1\nstart\n%s\nend turns\n' "$1"; } | "$program" replay 2>&1)
    if [ "$said" != "estelle: $2" ]; then
        failed=$((failed + 1))
        echo "FAILED: $(echo "$1" | head -c 100): $said (wanted estelle: $2)"
    fi
}
# (an output or a drop belongs to the start, which is entry 1 and sends nothing; what else comes is entry 2)
of_start() { answers "$1" 'not a run: entry 1'; }
is_next() { answers "$1" 'not a run: entry 2'; }
is_bad() { answers "$1" 'bad trace line 3'; }
# value TEXT: an output with this value; bad_value TEXT
value() { of_start "lost /.o m($1)"; }
bad_value() { is_bad "lost /.o m($1)"; }
# so many brackets round a value
nested() { awk -v n="$1" 'BEGIN { for (i = 0; i < n; i++) printf "("; printf "1"; for (i = 0; i < n; i++) printf ")" }'; }

is_next 'fire / 4096'
is_bad 'fire / 4097'
is_bad 'fire / 0'
is_bad 'fire / 01'
is_bad 'fault / 0 Range'
is_next 'fire /18446744073709551615 1'
is_bad 'fire /18446744073709551616 1'
is_bad 'fire /0 1'
is_next 'select /1 now 18446744073709551615 takes -'
is_bad 'select / now 18446744073709551616 takes -'
is_next 'select / now 0 takes /1:1 /1/1:1 /2:1'
is_bad 'select / now 0 takes /2:1 /1:1'
is_bad 'select / now 0 takes /1:1 /1:2'
of_start 'drop 18446744073709551615'
is_bad 'drop 18446744073709551616'
of_start "$(printf 'drop 1\ndrop 2')"
answers "$(printf 'drop 2\ndrop 2')" 'bad trace line 4'
of_start 'lost /.o m'
is_bad 'lost /.o m()'
is_bad 'lost /.o end'
is_bad 'lost /.o M'
is_bad 'lost /.O m'
value 9223372036854775807
bad_value 9223372036854775808
value -9223372036854775807
bad_value -9223372036854775808
bad_value -0
bad_value +1
bad_value ' 1'
value '#4294967295'
bad_value '#4294967296'
value "'a'"
value "''''"
value 'chr(255)'
bad_value 'chr(256)'
bad_value 'chr(65)'
value '[]'
value '[0,255]'
bad_value '[256]'
bad_value '[1,1]'
bad_value '[2,1]'
value '?,true,{1,(2)}'
bad_value '()'
bad_value '{}'
value "$(nested 200)"
bad_value "$(nested 201)"

echo "$tried traces, $failed failed"
[ "$failed" -eq 0 ]
