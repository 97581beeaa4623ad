#!/bin/sh
# Runs each command that README.md, docs/MANUAL.md and examples/README.md show, with the built program, and fails where what it
# writes, or its status, is not what stands there. The merge gate calls it (.ci/run).
#
# usage: bench/commands.sh [PROGRAM]
#
# PROGRAM is what `rt run` builds in crates/estelle_tool. A session is a fenced block whose first line begins with `$ `: each such
# line is a command, which is run by sh at a place like the top of a clone, with its examples and tools. Behind it stands what it
# writes, to standard output and then to standard error. A line `...` is any lines, or none. A command that no `$ echo $?` follows
# ends with status 0. The sessions of one document are run in order in one folder, so that a later one finds what an earlier one wrote.
# Some show moments of the machine's clock, and a busy machine is late: a document that differs is tried three times.
set -u
top=$(cd "$(dirname "$0")/.." && pwd)
program=${1:-$top/crates/estelle_tool/out/estelle_tool}
if [ ! -x "$program" ]; then
    echo "commands: no program $program: call rt run in crates/estelle_tool first" >&2
    exit 1
fi
program=$(cd "$(dirname "$program")" && pwd)/$(basename "$program")
folder=$(mktemp -d)
trap 'rm -rf "$folder"' EXIT
tried=0
failed=0

# Runs the sessions of a document, and prints what differs. It leaves how many commands there are, and how many differ, in $folder.
compare() {
    document=$1
    room=$folder/$2.room
    clone=$folder/$2.clone
    shown=0
    failed=0
    mkdir "$room" "$clone"
    cp -R "$top/examples" "$top/tools" "$clone"
    ln -s "$program" "$clone/estelle"

    # Of each command a part of the script, what it is to write (NUMBER.wanted), and where it stands, the status that is wanted and
    # the command itself (list).
    awk -v room="$room" -v script="$room/script" -v list="$room/list" '
        function close_command() {
            if (count == 0 || written) return
            close(sprintf("%s/%03d.wanted", room, count))
            printf "%03d %s %s %s\n", count, at, wanted, command > list
            written = 1
        }
        /^```/ {
            if (!inside) { inside = 1; first = 1; session = 0 }
            else { inside = 0; close_command() }
            next
        }
        !inside { next }
        first { first = 0; session = /^\$ / }
        !session && /(^|[ |])\.\/estelle [a-z]/ { printf "%d\n", NR > (room "/unread") }
        !session { next }
        /^\$ / {
            # (the status of the command before is shown by this one)
            if ($0 == "$ echo $?" && count > 0) wanted = "-"
            close_command()
            count++; at = NR; command = substr($0, 3); wanted = 0; written = 0
            printf "{ %s\n} >\"%s/%03d.out\" 2>&1\n", command, room, count > script
            printf "last=$?; echo $last >\"%s/%03d.status\"; (exit $last)\n", room, count > script
            printf "" > sprintf("%s/%03d.wanted", room, count)
            next
        }
        { print > sprintf("%s/%03d.wanted", room, count) }
    ' "$top/$document"

    if [ -e "$room/unread" ]; then
        failed=$((failed + 1))
        echo "FAILED: $document: a command stands in no session, in line $(tr '\n' ' ' <"$room/unread")"
    fi
    if [ ! -e "$room/list" ]; then
        failed=$((failed + 1))
        echo "FAILED: $document shows no session"
        return 1
    fi
    (cd "$clone" && sh "$room/script" </dev/null)

    while read -r number line wanted command; do
        shown=$((shown + 1))
        status=$(cat "$room/$number.status")
        # The parts of what is wanted between the lines `...` stand in what was written in this order, the first at its beginning
        # and the last at its end.
        awk '
            BEGIN { parts = 0; length_of[0] = 0 }
            FNR == NR && $0 == "..." { parts++; length_of[parts] = 0; next }
            FNR == NR { length_of[parts]++; wanted[parts, length_of[parts]] = $0; next }
            { written[++lines] = $0 }
            function stands(part, place,   i) {
                for (i = 1; i <= length_of[part]; i++) if (wanted[part, i] != written[place + i]) return 0
                return 1
            }
            END {
                place = 0
                for (part = 0; part <= parts; part++) {
                    size = length_of[part]
                    last = lines - size
                    if (part == parts && parts > 0) { if (last < place) exit 1; place = last }
                    else if (part == 0 && parts == 0 && last != 0) exit 1
                    while (place <= last && !stands(part, place)) { if (part == 0 || part == parts) exit 1; place++ }
                    if (place > last) exit 1
                    place += size
                }
            }
        ' "$room/$number.wanted" "$room/$number.out" && is_same=yes || is_same=no
        # (awk takes an empty file for none, so that the other one would be the first)
        if [ ! -s "$room/$number.wanted" ]; then
            is_same=yes
            [ ! -s "$room/$number.out" ] || is_same=no
        fi
        if [ "$is_same" = no ] || { [ "$wanted" != - ] && [ "$status" -ne "$wanted" ]; }; then
            failed=$((failed + 1))
            echo "FAILED: $document, line $line: $command"
            echo "status $status (wanted $wanted)"
            diff "$room/$number.wanted" "$room/$number.out" | head -n 10
        fi
    done <"$room/list"
    echo "$shown $failed" >"$folder/counts"
    [ "$failed" -eq 0 ]
}

for document in README.md docs/MANUAL.md examples/README.md; do
    for attempt in 1 2 3; do
        echo '0 1' >"$folder/counts"
        said=$(compare "$document" "$attempt.$(basename "$(dirname "$document")").$(basename "$document")") && break
    done
    [ -z "$said" ] || printf '%s\n' "$said"
    read -r shown differ <"$folder/counts"
    tried=$((tried + shown))
    failed=$((failed + differ))
done
echo "$tried commands, $failed failed"
[ "$failed" -eq 0 ] && [ "$tried" -gt 0 ]
