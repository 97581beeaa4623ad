#!/bin/sh
# Looks up each crate, file, call, clause and definition that docs/PROMISES.md and the crates' README.md name in backquotes, and fails
# where one is gone. Each crate and each law is to stand in docs/PROMISES.md once, and each README.md to have its row there. The lines of a
# fenced block in a README.md are to stand one behind another in a source file. It proves nothing: that a clause says what the document
# says of it, a reader must see. The merge gate calls it (.ci/run).
#
# usage: bench/promises.sh
#
# What stands behind the name of a crate in bold letters, up to the next one or a heading, behind a heading that names a crate, or in a
# crate's README.md, is looked up in that crate and in those that its paragraph names besides, a lemma of these too, and a definition
# also in all on which they stand; what stands elsewhere, in all crates. Behind `clause` or `clauses`, and in the first cell of a row, it must be the name of a
# clause (`ensures NAME`) or of a part of a definition; in brackets right behind a call that of a clause of this call, or of a definition or
# a call; else it may be that of a type or a field too.
#
# Two kinds of rows are judged by the crate that they name. `| **[CRATE](../crates/CRATE/README.md)** | .. |` tells of a crate with a
# README.md. `| LAW, .. | CRATE | .. |` tells of laws of this crate, functions with a contract and no body; behind `clause` or `clauses`
# there must be one that each of them has.
set -u
top=$(cd "$(dirname "$0")/.." && pwd)
document=docs/PROMISES.md
folder=$(mktemp -d)
trap 'rm -rf "$folder"' EXIT
cd "$top" || exit 1

# Words of the language, the command line and the answers: the crate in whose paragraph they stand, and the word.
cat >"$folder/words" <<'END'
estelle_tree else
pascal_values mod
pascal_values 0..b-1
pascal_parser (
pascal_parser not
pascal_parser begin
type_parser trans
type_parser body
meaning_table any
body_program any
transition_expand any
estelle_printer show
estelle_printer make
spec_maker trial
body_code code
trace_replay replay
estelle_words clap
estelle_words --name=N
estelle_cli run
estelle_cli check
estelle_cli show
estelle_cli code
estelle_cli replay
estelle_tool replay
estelle_cli make
estelle_cli trial
estelle_cli accepted
estelle_cli accepted N
estelle_cli end.
END

# (a crate, and those on which it stands)
sed -n '/^#/d; s/^\([a-z0-9_]*\)[^:]*:/\1/p' crates.txt >"$folder/crates"
find .ci estelle README.md bench docs editors examples tools crates -name out -prune -o -print | sed 's|^\./||' >"$folder/files"

# What there is: a crate, a kind (`contract`, `clause` with its call, `code`, `definition` or `lemma`) and a name.
grep '^crates/[a-z0-9_]*/\(src/.*\.rt\|specs/.*\.antt\|proofs/[A-Za-z]*\.antt\)$' "$folder/files" | while read -r file; do
    awk -v crate="$(echo "$file" | cut -d/ -f2)" '
        function told(kind, name) { if (name != "" && name !~ /\.$/) print crate, kind, name }
        function first_name(text) { return match(text, /^[A-Za-z_][A-Za-z0-9_]*/) ? substr(text, 1, RLENGTH) : "" }
        # the text behind the type parameters at its beginning
        function behind_brackets(text,   depth, at, c) {
            if (text !~ /^</) return text
            for (at = 1; at <= length(text); at++) {
                c = substr(text, at, 1)
                if (c == "<") depth++
                if (c == ">" && --depth == 0) return substr(text, at + 2)
            }
            return ""
        }
        FILENAME ~ /\.rt$/ {
            text = $0
            if (text ~ /^[ \t]*\/\//) next
            if (match(text, /(^|[ \t])(ensures\*?|requires\*?|ghost) [a-z_0-9]+ *[{:=]/)) {
                part = substr(text, RSTART, RLENGTH); sub(/^[ \t]*[a-z]*\*? /, "", part); told("contract", first_name(part)); told("clause", call "." first_name(part))
            }
            if (text ~ /^(pub(\([a-z]*\))? )?(impl|trait)/) {
                owner = text
                sub(/^pub(\([a-z]*\))? /, "", owner)
                if (owner ~ / for /) sub(/^.* for &?/, "", owner)
                else { sub(/^(impl|trait) */, "", owner); owner = behind_brackets(owner) }
                owner = first_name(owner)
            } else if (text ~ /^}/) owner = ""
            if (text == "{}" && is_public) told("law", call)
            if (match(text, /(^|[ \t])fn [a-z_0-9]+/)) {
                part = substr(text, RSTART, RLENGTH); sub(/^[ \t]*fn /, "", part); told("code", part); call = part; is_public = text ~ /^pub fn/
                if (owner != "") told("code", owner "::" part)
            }
            if (match(text, /^[ \t]*(pub(\([a-z]*\))? )?(struct|enum|trait|type) [A-Za-z0-9_]+/)) {
                part = substr(text, RSTART, RLENGTH); sub(/^.* /, "", part); told("code", part)
            }
            if (text ~ /^    [A-Z][A-Za-z0-9]*(,|\(.*\),| \{)$/) { sub(/^ */, "", text); told("code", first_name(text)) }
            if (match(text, /^[ \t]*pub [a-z_0-9]+:/)) { part = substr(text, RSTART, RLENGTH - 1); sub(/^[ \t]*pub /, "", part); told("code", part) }
        }
        FILENAME ~ /\.antt$/ {
            text = $0
            if (text ~ /^[ \t]*(--|use |pub use |mod |pub mod )/) next
            if (match(text, /^[ \t]*((abbrev|record|data|unfoldable|pub) )*[A-Za-z_][A-Za-z0-9_]* (.*)?:|^[ \t]*((abbrev|record|data|unfoldable|pub) )+[A-Za-z_][A-Za-z0-9_]*/)) {
                part = text; sub(/^[ \t]*/, "", part)
                if (FILENAME ~ /\/proofs\//) {
                    if (part ~ /^pub /) { sub(/^pub ((abbrev|record) )?/, "", part); told("lemma", first_name(part)) }
                    next
                }
                while (part ~ /^(abbrev|record|data|unfoldable|pub) /) sub(/^[a-z]* /, "", part)
                told("definition", first_name(part))
            }
        }
    ' "$file"
done | sort -u >"$folder/index"

# shellcheck disable=SC2046 # (names of files hold no blanks)
awk -v document="$document" -v folder="$folder" '
    BEGIN {
        while ((getline line < (folder "/crates")) > 0) { split(line, w, " "); is_crate[w[1]] = 1; line = substr(line, length(w[1]) + 1); below[w[1]] = line }
        while ((getline line < (folder "/files")) > 0) is_file[line] = 1
        while ((getline line < (folder "/index")) > 0) { split(line, w, " "); there[w[1], w[2], w[3]] = 1; anywhere[w[2], w[3]] = 1 }
        while ((getline line < (folder "/words")) > 0) { at = index(line, " "); word[substr(line, 1, at - 1), substr(line, at + 1)] = 1 }
    }
    # the name has one of these kinds in a crate of the paragraph, or, unless it is to be a clause, is defined below one
    function is_there(name, kinds,   count, kind, i, c) {
        count = split(kinds, kind, " ")
        for (i = 1; i <= count; i++) {
            if (home == "-") { if (kind[i] != "lemma" && (kind[i], name) in anywhere) return 1 }
            else for (c in scope) if ((c, kind[i], name) in there) return 1
        }
        if (home == "-" || kinds !~ /code$/) return 0
        delete seen
        for (c in scope) if (is_below(name, c)) return 1
        return 0
    }
    # a crate, or one below it, defines the name
    function is_below(name, crate,   count, lower, i) {
        if (crate in seen) return 0
        seen[crate] = 1
        if ((crate, "definition", name) in there) return 1
        count = split(below[crate], lower, " ")
        for (i = 1; i <= count; i++) if (is_below(name, lower[i])) return 1
        return 0
    }
    function glob_found(name,   pattern, f, c) {
        pattern = name; gsub(/[.+]/, "[&]", pattern); gsub(/\*/, "[^/]*", pattern)
        for (f in is_file) {
            if (f ~ ("^(docs/|crates/)?" pattern "/?$")) return 1
            for (c in scope) if (f ~ ("^crates/" c "/" pattern "/?$")) return 1
            if (home == "-" && f ~ ("^crates/[a-z0-9_]*/" pattern "/?$")) return 1
        }
        return 0
    }
    function judge(name, is_clause, call,   bare) {
        tried++
        if ((home, name) in word) { used[home, name] = 1; return }
        if (name in is_crate && !is_clause) return
        if (name ~ /\// || name ~ /\.(md|antt|rt|sh)$/) {
            bare = name
            gsub(/^\.\/|\/$/, "", bare)
            if (bare in is_file || glob_found(bare)) return
        } else if (is_clause) { if (is_there(name, "contract definition lemma")) return }
        else if (call != "") { if (is_there(call "." name, "clause") || is_there(name, "definition code")) return }
        else if (is_there(name, "contract lemma definition code")) return
        failed++
        printf "FAILED: %s, the part that begins in line %d (%s): `%s`%s\n", part_of, start, home == "-" ? "any crate" : home, name,
            is_clause ? ", as a clause" : call == "" ? "" : ", of the call `" call "`"
    }
    function fail(what) { failed++; printf "FAILED: %s, the part that begins in line %d: %s\n", part_of, start, what }
    function tell(crate) { if (told[crate]++) fail("`" crate "` is told of twice") }
    # The row of a crate with a README.md
    function judge_row_of_crate(crate,   path, pieces, count, i) {
        path = "crates/" crate "/README.md"
        if (!(crate in is_crate)) fail("no crate `" crate "`")
        else if (!(path in is_file) || index(paragraph, "(../" path ")") == 0) fail("no link to " path)
        tell(crate)
        has_row[crate] = 1
        home = crate
        delete scope
        scope[crate] = 1
        count = split(substr(paragraph, index(paragraph, "README.md")), pieces, "`")
        for (i = 2; i <= count; i += 2) judge(pieces[i], 0, "")
        home = base
    }
    # The row of laws of a crate: the first cell, then the crate, then what they say, where only what stands behind `clause` is a clause.
    function judge_row_of_laws(cells, crate,   pieces, count, i, j, laws) {
        home = crate
        delete scope
        scope[crate] = 1
        count = split(cells[2], pieces, "`")
        for (i = 2; i <= count; i += 2) {
            tried++
            laws[pieces[i]] = 1
            if (!((crate, "law", pieces[i]) in there)) fail("`" pieces[i] "` is no law of `" crate "`")
            else if (law_told[crate, pieces[i]]++) fail("`" pieces[i] "` is told of twice")
        }
        count = split(cells[4], pieces, "`")
        for (i = 2; i <= count; i += 2) {
            if (pieces[i] in is_crate) scope[pieces[i]] = 1
            if (is_clause_at(pieces, i)) { tried++; for (j in laws) if (!((crate, "clause", j "." pieces[i]) in there)) fail("`" j "` has no clause `" pieces[i] "`") }
            else judge(pieces[i], 0, "")
        }
    }
    function close_paragraph(   pieces, count, i, cells, name) {
        if (paragraph == "") return
        if (part_of == document && match(paragraph, /^\| \*\*\[`[a-z_0-9]*`\]/)) {
            judge_row_of_crate(substr(paragraph, 7, RLENGTH - 8))
            paragraph = ""
            return
        }
        if (part_of == document && paragraph ~ /^\|/ && split(paragraph, cells, "|") == 5 && match(cells[3], /^ `[a-z_0-9]*` $/)) {
            name = substr(cells[3], 3, RLENGTH - 4)
            if (name in is_crate) {
                judge_row_of_laws(cells, name)
                home = base
                paragraph = ""
                return
            }
        }
        if (match(paragraph, /^\*\*`[a-z_0-9]*`\*\*/)) {
            home = substr(paragraph, 4, RLENGTH - 6)
            if (!(home in is_crate)) home = "-"
        }
        delete scope
        scope[home] = 1
        count = split(paragraph, pieces, "`")
        for (i = 2; i <= count; i += 2) if (pieces[i] in is_crate) {
            scope[pieces[i]] = 1
            if (part_of == document && pieces[i - 1] ~ /\*\*$/) tell(pieces[i])
        }
        for (i = 2; i <= count; i += 2) judge(pieces[i], is_clause_at(pieces, i), call_before(pieces, i))
        paragraph = ""
    }
    # it stands behind `clause` or `clauses`, or behind others that do, or in the first cell of a row
    function is_clause_at(pieces, i,   j, before) {
        if (paragraph ~ /^\|/) {
            for (j = 1; j < i; j++) before = before pieces[j]
            if (gsub(/\|/, "", before) == 1) return 1
        }
        for (j = i - 1; j > 0 && pieces[j] ~ /^(, | and |, and )$/; j -= 2) { }
        return pieces[j] ~ /clauses? $/
    }
    # the call behind which it stands in brackets
    function call_before(pieces, i,   j, name) {
        for (j = i - 1; j > 0 && pieces[j] ~ /^(, | and |, and )$/; j -= 2) { }
        if (j < 2 || pieces[j] != " (") return ""
        name = pieces[j - 1]; sub(/^.*::/, "", name)
        return name ~ /^[a-z_0-9]+$/ && !(name in is_crate) && is_there(name, "code") ? name : ""
    }
    FNR == 1 {
        close_paragraph()
        part_of = FILENAME
        base = "-"
        if (FILENAME != document) {
            base = FILENAME; sub(/^crates\//, "", base); sub(/\/.*/, "", base)
            if ($0 != "# " base) { failed++; printf "FAILED: %s does not begin with the name of its crate\n", FILENAME }
        }
        home = base
    }
    /^```/ { close_paragraph(); inside = !inside; if (inside) blocks++; next }
    inside { line = $0; gsub(/^[ \t]+|[ \t]+$/, "", line); print blocks, FILENAME, line > (folder "/blocks"); next }
    /^#/ {
        close_paragraph(); home = base
        count = split($0, part, "`")
        for (i = 2; i <= count; i += 2) if (part[i] in is_crate) home = part[i]
        next
    }
    /^$/ { close_paragraph(); next }
    /^\|/ { close_paragraph(); start = FNR; paragraph = $0; close_paragraph(); next }
    { if (paragraph == "") { start = FNR; paragraph = $0 } else paragraph = paragraph " " $0 }
    END {
        close_paragraph()
        for (c in is_crate) {
            if (!(c in told)) { failed++; printf "FAILED: %s has no part on `%s`\n", document, c }
            if (("crates/" c "/README.md") in is_file && !(c in has_row)) { failed++; printf "FAILED: %s has no row on the README.md of `%s`\n", document, c }
        }
        for (i in there) {
            split(i, w, SUBSEP)
            if (w[2] == "law" && !((w[1], w[3]) in law_told)) { failed++; printf "FAILED: %s has no row on the law `%s` of `%s`\n", document, w[3], w[1] }
        }
        for (i in word) if (!(i in used)) { failed++; split(i, w, SUBSEP); printf "FAILED: nothing about `%s` has the word `%s` of the list\n", w[1], w[2] }
        printf "%d names, %d failed\n", tried, failed
        exit failed > 0 || tried == 0
    }
' "$document" $(grep '^crates/[a-z0-9_]*/README\.md$' "$folder/files")
failed=$?

# ---- the calls that are shown

: >>"$folder/blocks"
# shellcheck disable=SC2046
awk -v blocks="$folder/blocks" '
    BEGIN {
        while ((getline line < blocks) > 0) {
            split(line, word, " "); b = word[1]
            if (b > count) count = b
            document[b] = word[2]
            wanted[b, ++size[b]] = substr(line, length(word[1]) + length(word[2]) + 3)
            if (size[b] == 1) is_first[wanted[b, 1]] = 1
        }
    }
    FNR == 1 { for (b in open) delete open[b] }
    {
        line = $0; gsub(/^[ \t]+|[ \t]+$/, "", line)
        for (b in open) {
            if (line == wanted[b, open[b] + 1]) { if (++open[b] == size[b]) { found[b] = 1; delete open[b] } }
            else delete open[b]
        }
        if (line in is_first) for (b = 1; b <= count; b++) if (line == wanted[b, 1] && !(b in found)) { if (size[b] == 1) found[b] = 1; else open[b] = 1 }
    }
    END {
        for (b = 1; b <= count; b++) if (!(b in found)) { failed++; printf "FAILED: %s: no source file has the lines from `%s` on\n", document[b], wanted[b, 1] }
        printf "%d calls, %d failed\n", count, failed
        exit failed > 0
    }
' $(grep '^crates/[a-z0-9_]*/src/.*\.rt$' "$folder/files") && exit "$failed"
exit 1
