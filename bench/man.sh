#!/bin/sh
# Makes docs/estelle.1 from the tables of docs/MANUAL.md (commands, options, statuses, lines of a trace, faults) and the form of a
# trace in docs/FORMATS.md, and fails where the file that stands there is another. It proves and runs nothing. The merge gate calls
# it (.ci/run).
#
# usage: bench/man.sh [--write]
#
# With --write the file is written.
set -u
top=$(cd "$(dirname "$0")/.." && pwd)
page=$top/docs/estelle.1
write=no
case ${1:-} in
'') ;;
--write) write=yes ;;
*)
    echo 'usage: bench/man.sh [--write]' >&2
    exit 2
    ;;
esac
folder=$(mktemp -d)
trap 'rm -rf "$folder"' EXIT

# The rows of the table whose head begins so, with a tab between cells.
table() {
    awk -v head="$1" '
        index($0, head) == 1 { inside = 1; getline; next }
        inside && !/^\|/ { exit }
        inside { sub(/^\| */, ""); sub(/ *\|$/, ""); gsub(/ \| /, "\t"); print }
    ' "$top/docs/MANUAL.md"
}
table '| command | reads |' >"$folder/commands"
table '| option | range |' >"$folder/options"
table '| status | line |' >"$folder/statuses"
table '| line | says |' >"$folder/lines"
table '| fault | what happened |' >"$folder/faults"
awk '/^## The trace/ { here = 1 } here && /^```/ { if (inside) exit; inside = 1; next } inside' "$top/docs/FORMATS.md" >"$folder/form"
for part in commands options statuses lines faults form; do
    if [ ! -s "$folder/$part" ]; then
        echo "man: no table of $part" >&2
        exit 1
    fi
done

# A text in roff: what stands in backquotes is bold.
roff='
    function plain(text) { gsub(/\\/, "\\e", text); gsub(/-/, "\\-", text); return text }
    function words(text,   out, bold) {
        text = plain(text); bold = 0; out = ""
        while (match(text, /`/)) {
            out = out substr(text, 1, RSTART - 1) (bold ? "\\fR" : "\\fB")
            bold = !bold; text = substr(text, RSTART + 1)
        }
        return "\\&" out text
    }
    BEGIN { FS = "\t" }
'
{
    cat <<'END'
.\" Made by bench/man.sh.
.TH ESTELLE 1 "" "estelle" "User Commands"
.SH NAME
estelle \- check and run specifications in Estelle, and judge their traces
.SH SYNOPSIS
END
    awk "$roff"'
        FNR == NR { split($1, part, /[` ]+/); must[part[2]] = $3 ~ /must be given/; next }
        {
            line = "\\fBestelle " substr($1, 2, length($1) - 2) "\\fR"
            count = split($4, option, /[` ]+/)
            for (i = 1; i <= count; i++) if (option[i] ~ /^--/) {
                one = "\\fB" plain(option[i]) "\\fR \\fIN\\fR"
                line = line " " (must[option[i]] ? one : "[" one "]")
            }
            if (FNR > 1) print ".br"
            print line
        }
    ' "$folder/options" "$folder/commands"
    cat <<'END'
.SH DESCRIPTION
Estelle (ISO/IEC 9074:1997) is the ISO language in which protocols are written as trees of communicating state machines.
.B estelle
reads a specification from standard input and writes its answer to standard output.
Where it refuses, it writes nothing there, and one line to standard error that says why and where.
.SS Commands
END
    awk "$roff"'{ print ".TP"; print words($1); print words("Reads " $2 ", and writes " $3 ".") }' "$folder/commands"
    cat <<'END'
.SS Options
Each is one word
.BI \-\-name= N
or two words
.BI \-\-name " N"
behind the command, in any order and at most once.
.I N
is a decimal number of at most 20 digits.
There are no short forms and no help words.
END
    awk "$roff"'{ print ".TP"; print words($1); print words($4 " (" $2 "; " $3 ($3 ~ /must be given/ ? "" : " where it is not given") ").") }' "$folder/options"
    cat <<'END'
.SS The trace
.nf
.RS
END
    awk "$roff"'{ print words($0) }' "$folder/form"
    cat <<'END'
.RE
.fi
.PP
By example:
END
    awk "$roff"'{ print ".TP"; print words($1); print words($2 ".") }' "$folder/lines"
    cat <<'END'
.SS Faults
END
    awk "$roff"'{ print ".TP"; print words($1); print words($2 ": " $3 ".") }' "$folder/faults"
    cat <<'END'
.SH EXIT STATUS
Each status with the line on standard error that comes with it.
END
    awk "$roff"'{ print ".TP"; print words("`" $1 "`" ($2 == "none" ? "" : "  " $2)); print words($3 ".") }' "$folder/statuses"
    cat <<'END'
.SH EXAMPLES
Run an example, and judge its trace:
.PP
.nf
.RS
estelle run < examples/request.est > trace
cat examples/request.est trace | estelle replay
.RE
.fi
.PP
Make other choices:
.PP
.nf
.RS
estelle run \-\-seed 7 \-\-turns 100 < examples/alternating_bit.est
.RE
.fi
.SH SEE ALSO
.I docs/MANUAL.md
goes from a first specification to a judged trace,
.I docs/LANGUAGE.md
has the language,
.I docs/RULES.md
each static rule with texts,
.I docs/FORMATS.md
the trace and each instruction of a listing.
.PP
ISO/IEC 9074:1997, ISO 7185.
END
} >"$folder/page"

if [ "$write" = yes ]; then
    cp "$folder/page" "$page"
elif diff "$folder/page" "$page"; then
    echo "docs/estelle.1 is as it is to be"
else
    echo "man: docs/estelle.1 is not what the tables give: bench/man.sh --write" >&2
    exit 1
fi
