# What the scripts that measure share; it is sourced, with the program's path as the script's first argument. GNU time is wanted,
# as /usr/bin/time. What is measured is processor time, user and system, so that other work on the machine disturbs it little.
# shellcheck shell=sh
set -eu
top=$(cd "$(dirname "$0")/.." && pwd)
program=${1:-$top/crates/estelle_tool/out/estelle_tool}
if [ ! -x "$program" ]; then
    echo "bench: no program $program: call rt run in crates/estelle_tool first" >&2
    exit 1
fi
folder=$(mktemp -d)
trap 'rm -rf "$folder"' EXIT
# shellcheck disable=SC2034 # (the scripts end with it)
failed=0

# Runs the program with these words on $folder/input, so often: seconds is the processor time of one run, memory its peak in kB,
# status the last one's.
run_times() {
    times=$1
    shift
    status=0
    # shellcheck disable=SC2016 # (the inner shell takes its own words)
    /usr/bin/time -f '%U %S %M' -o "$folder/time" sh -c '
        times=$1 program=$2 folder=$3 last=0
        shift 3
        while [ "$times" -gt 0 ]; do
            last=0
            "$program" "$@" <"$folder/input" >"$folder/out" 2>"$folder/err" || last=$?
            times=$((times - 1))
        done
        exit $last
    ' run "$times" "$program" "$folder" "$@" || status=$?
    read -r user system memory <<END
$(tail -n 1 "$folder/time")
END
    seconds=$(awk "BEGIN { printf \"%.4f\", ($user + $system) / $times }")
}

# Says that a run gave another answer than it is to give.
wrong() {
    echo "bench: $1: status $status, err '$(head -n 1 "$folder/err")', last line '$(tail -n 1 "$folder/out" | head -c 200)'" >&2
    # shellcheck disable=SC2034
    failed=1
}

# The last run is to have this status, and so many lines that begin with a word.
want() {
    lines=$(grep -c "^$4" "$folder/out") || true
    if [ "$status" -ne "$2" ] || [ "$lines" -ne "$3" ]; then wrong "$1 ($lines lines '$4' where $3 are due)"; fi
}

# A line of a table: a name, a size, how much was done in one run, and what that is called.
row() {
    awk -v name="$1" -v size="$2" -v count="$3" -v what="$4" -v seconds="$seconds" -v memory="$memory" 'BEGIN {
        rate = seconds > 0 ? sprintf("%.0f", count / seconds) : "-"
        printf "%-52s %9s %9.3f s %9.2f us %-9s %9s /s %8.1f MB\n", name, size, seconds, seconds * 1e6 / count, what, rate, memory / 1024
    }'
}

# Sizes and their seconds, one behind the other, for the growth.
series=
note() { series="$series $1 $seconds"; }

# The exponent with which the time grows from the first size to the last one, and from the one before the last.
growth() {
    # shellcheck disable=SC2086 # (a list of numbers)
    set -- "$1" $series
    series=
    awk -v name="$1" -v limit=1.1 'BEGIN {
        count = 0
        for (i = 2; i + 1 < ARGC; i += 2) { count++; size[count] = ARGV[i] + 0; time[count] = ARGV[i + 1] + 0 }
        if (count < 2 || time[1] <= 0) { printf "%-52s growth unknown\n", name; exit }
        whole = log(time[count] / time[1]) / log(size[count] / size[1])
        last = log(time[count] / time[count - 1]) / log(size[count] / size[count - 1])
        most = whole > last ? whole : last
        printf "%-52s growth %.2f over all, %.2f at the end%s\n", name, whole, last, (most > limit + 0 ? ": MORE THAN " limit : "")
    }' "$@"
}

# `x1, x2, .., xN`
names() { awk -v name="$1" -v count="$2" 'BEGIN { for (i = 1; i <= count; i++) printf "%s%s%d", (i > 1 ? ", " : ""), name, i }'; }

# A text for each of 1, 2, .., N, one a line, with # for the number and @ for the next one, which behind N is 1.
each() {
    awk -v count="$1" -v text="$2" 'BEGIN {
        for (i = 1; i <= count; i++) { line = text; gsub(/#/, i, line); gsub(/@/, i % count + 1, line); print line }
    }'
}
