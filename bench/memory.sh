#!/bin/sh
# Runs the built program over and over, each time with another one of its requests for memory refused, and fails where it answers
# anything but want of memory, with nothing on standard output, or what it answers where none is refused. It is no part of the merge
# gate.
#
# usage: bench/memory.sh [PROGRAM]
#
# PROGRAM is what `rt run` builds in crates/estelle_tool. A C compiler is wanted, as cc, or what CC names: a library that is loaded
# before the program's own refuses the request. There are some eight thousand runs, which take half a minute of processor time.
set -u
top=$(cd "$(dirname "$0")/.." && pwd)
program=${1:-$top/crates/estelle_tool/out/estelle_tool}
if [ ! -x "$program" ]; then
    echo "memory: no program $program: call rt run in crates/estelle_tool first" >&2
    exit 1
fi
folder=$(mktemp -d)
trap 'rm -rf "$folder"' EXIT

# It tells on descriptor 9 that it has refused one, since a run with fewer requests refuses none.
cat >"$folder/refuse.c" <<'END'
#include <stdlib.h>
#include <unistd.h>

extern void *__libc_malloc(size_t size);
extern void *__libc_realloc(void *block, size_t size);

/* The first request comes before there are threads. */
static int is_refused(void) {
    static long left;
    static int is_read;
    if (!is_read) {
        const char *text = getenv("REFUSED");
        left = text ? strtol(text, 0, 10) : 0;
        is_read = 1;
    }
    return __atomic_fetch_sub(&left, 1, __ATOMIC_SEQ_CST) == 1 && write(9, "x", 1) == 1;
}

void *malloc(size_t size) { return is_refused() ? 0 : __libc_malloc(size); }

void *realloc(void *block, size_t size) { return is_refused() ? 0 : __libc_realloc(block, size); }
END
if ! ${CC:-cc} -O2 -shared -fPIC -o "$folder/refuse.so" "$folder/refuse.c"; then
    echo 'memory: no library was made' >&2
    exit 1
fi
echo 'estelle: no memory' >"$folder/line"
failed=0

# call N WORD..: the program on $folder/input where its Nth request is refused, and none if that is 0
call() {
    refused=$1
    shift
    : >"$folder/told"
    REFUSED=$refused LD_PRELOAD=$folder/refuse.so "$program" "$@" <"$folder/input" >"$folder/out" 2>"$folder/err" 9>"$folder/told"
}

# What puts the lines of an output in order, where workers write them in any.
order=cat

# is_whole: the last call wrote what it writes where nothing is refused
is_whole() {
    $order "$folder/out" >"$folder/now"
    cmp -s "$folder/now" "$folder/whole.out" && cmp -s "$folder/err" "$folder/whole.err"
}

# refuse NAME WORD..: each request of this run in turn
refuse() {
    name=$1
    shift
    call 0 "$@"
    whole=$?
    $order "$folder/out" >"$folder/whole.out"
    mv "$folder/err" "$folder/whole.err"
    number=1
    wants=0
    while :; do
        call "$number" "$@"
        status=$?
        [ -s "$folder/told" ] || break
        if [ "$status" -eq 6 ] && [ ! -s "$folder/out" ] && cmp -s "$folder/err" "$folder/line"; then
            wants=$((wants + 1))
        elif [ "$status" -ne "$whole" ] || ! is_whole; then
            failed=$((failed + 1))
            echo "FAILED: $name, request $number: status $status (wanted 6 or $whole), err '$(head -c 200 "$folder/err")'"
        fi
        number=$((number + 1))
    done
    printf '%-40s %7d requests, %7d answered by want of memory\n' "$name" $((number - 1)) "$wants"
}

# example NAME COMMAND WORD..: of an example
example() {
    cp "$top/examples/$1.est" "$folder/input"
    name="$2 of $1"
    shift
    refuse "$name" "$@"
}

: >"$folder/input"
refuse 'words without a meaning' walk
refuse 'a ring of two made' make --stations=2
refuse 'a ring of two tried' trial --stations=2 --turns=4
example counter check
example counter show
example counter code
example counter run
example release run
example alternating_bit run --turns=8
example sort run --turns=8
order=sort
example primes run --turns=8 --workers=2
order=cat
"$program" run <"$top/examples/counter.est" >"$folder/trace"
cat "$top/examples/counter.est" "$folder/trace" >"$folder/input"
refuse 'replay of counter' replay
echo "$failed failed"
[ "$failed" -eq 0 ]
