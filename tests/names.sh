#!/bin/sh
# Every name in code style in docs/PROMISES.md and docs/SPECIFICATION.md exists: a definition or theorem in crates/ or
# include/, a crate, a file, a must-fail edit (crate/label) or a command. Names followed by a colon and a file
# (`a`, `b`: `crate/File`) are defined in that file. Every must-fail edit stands once in PROMISES. In docs/DECISIONS.md,
# README.md and CONTRIBUTING.md, which also quote code, single words and paths are looked up. Last, PROMISES lists what a
# reader must believe, and how many lines that is gets printed (tests/believed.awk).
set -u
cd "$(dirname "$0")/.." || exit 2
work=$(mktemp -d) || exit 2
trap 'rm -rf "$work"' EXIT

find . \( -path ./target -o -path ./.git \) -prune -o -print | sed 's|^\./||' >"$work/paths"

# "NAME crate/File" for each definition: in specs/ whatever has a type, in proofs/ what is public, in src/ functions,
# types, variants and constants
awk '
FNR == 1 {
    split(FILENAME, part, "/")
    kind = part[3]
    file = part[4]
    sub(/\.(antt|rt)$/, "", file)
    file = part[2] "/" file
    variants = 0
}
{ line = $0; sub(/^ +/, "", line) }
line ~ /^(--|\/\/)/ { next }
kind == "src" {
    if (variants && line ~ /^[A-Z]/) { name = line; sub(/[^A-Za-z0-9_].*/, "", name); print name, file }
    if ($0 ~ /^}/) variants = 0
    if (line ~ /^pub enum |^enum /) variants = 1
    if (match(line, /(^| )(fn|enum|struct|const) [A-Za-z0-9_]+/)) {
        name = substr(line, RSTART, RLENGTH)
        sub(/^.* /, "", name)
        print name, file
    }
    next
}
{
    public = 0
    while (line ~ /^(pub|abbrev|unfoldable|mutual) /) {
        if (line ~ /^pub /) public = 1
        sub(/^[a-z]+ /, "", line)
    }
    if (kind == "proofs" && !public) next
    if (line ~ /^(record|data) /) {
        split(line, word, " ")
        print word[2], file
    } else if (match(line, /^[^ (){}:,]+( [^ (){}:,]+)* :( |$)/)) {
        count = split(substr(line, 1, RLENGTH - 2), word, " ")
        for (i = 1; i <= count; i++) if (word[i] != ":") print word[i], file
    }
}' crates/*/specs/*.antt crates/*/proofs/*.antt crates/*/src/*.rt >"$work/names"
tr -c 'A-Za-z_0-9' '\n' <include/scalebench.h | sed -n '/^scalebench_/p; /^SCALEBENCH_/p' | sort -u |
    sed 's|$| include/scalebench|' >>"$work/names"

# The paragraphs, list items and table rows of the documents, one a line. Blocks of code are left out.
awk '
function put() { if (text != "") print document "\t" text; text = "" }
FNR == 1 { put(); document = FILENAME }
/^    / { put(); next }
/^$/ || /^\|/ || /^- / || /^#/ { put() }
{ line = $0; sub(/^ +/, "", line); text = text == "" ? line : text " " line }
END { put() }' docs/PROMISES.md docs/SPECIFICATION.md docs/DECISIONS.md README.md CONTRIBUTING.md >"$work/text"

awk -F '\t' '
function fail(what) { print what; failed++ }
# whether a text in code style is something that exists
function exists(x,   part, count) {
    if (x in name || x in crate) return 1
    sub(/\/$/, "", x)
    if (x in path || ("crates/calls/" x) in path) return 1
    count = split(x, part, "/")
    if (count == 2 && (inCrate(part[1], "specs/" part[2] ".antt") || inCrate(part[1], "proofs/" part[2] ".antt") ||
        inCrate(part[1], "src/" part[2] ".rt") || inCrate(part[1], "must-fail/" part[2] ".edit"))) return 1
    count = split(x, part, " ")
    return count > 1 && (part[1] in path || part[1] == "rt" && part[2] in command)
}
function inCrate(c, f) { return ("crates/" c "/" f) in path }
# whether a document that quotes code has more than a name there: an expression, an option, a pattern of names
function quotes(document, x) {
    return document !~ /PROMISES|SPECIFICATION/ && (x !~ /^[A-Za-z_.][A-Za-z0-9_.\/-]*$/ || x ~ /[A-Z][A-Z]/ || x in word ||
        x ~ /^\./ || (x ~ /\/$/))
}
FILENAME == ARGV[1] { path[$0] = 1; next }
FILENAME == ARGV[2] { split($0, field, " "); name[field[1]] = 1; defined[field[1], field[2]] = 1; next }
FILENAME == ARGV[3] { if (match($0, /^[a-z_]+( staticlib)?:/)) { sub(/[ :].*/, ""); crate[$0] = 1 }; next }
FNR == 1 {
    split("check ci doc fmt lib must-fail run tidy version", list, " "); for (i in list) command[list[i]] = 1
    # words of Rattle, antt, the kit and the system, and goals of proofs
    split("abbrev absurd arith break c cc cond cp drop flock get_or k let match omega p protected_symlinks pub refl return " \
        "rt rw search unfolding u8 unfoldable where _ loop-i-init loop-i-preserved " \
        "mark_output-requires overflow_add-i returns-then-label_at-eq0 Invariants.antt Answers.antt c.args.s.now " \
        "c.loop-i.invariant c.label_at.ensures.value", list, " ")
    for (i in list) word[list[i]] = 1
}
{
    rest = $2
    while (match(rest, /`[^`]+`/)) {
        x = substr(rest, RSTART + 1, RLENGTH - 2)
        rest = substr(rest, RSTART + RLENGTH)
        if (quotes($1, x)) continue
        if (exists(x)) passed++
        else fail($1 ": `" x "` is no definition, crate, file, edit or command")
        if ($1 ~ /PROMISES/) mentioned[x]++
    }
    rest = $2
    while (match(rest, /(`[^`]+`, )*`[^`]+`: `[a-z]+\/[A-Za-z_]+`/)) {
        x = substr(rest, RSTART, RLENGTH)
        rest = substr(rest, RSTART + RLENGTH)
        count = split(x, part, "`")
        file = part[count - 1]
        for (i = 2; i < count - 1; i += 2) {
            if ((part[i], file) in defined) passed++
            else fail($1 ": `" part[i] "` is not defined in " file)
        }
    }
}
END {
    for (p in path)
        if (p ~ /^crates\/[a-z]+\/must-fail\/.*\.edit$/) {
            split(p, part, "/")
            sub(/\.edit$/, "", part[4])
            x = part[2] "/" part[4]
            if (mentioned[x] == 1) passed++
            else fail("docs/PROMISES.md: the edit " x " stands there " (mentioned[x] + 0) " times")
        }
    print (passed + 0), (failed + 0)
}' "$work/paths" "$work/names" crates.txt "$work/text" >"$work/found"
sed '$d' "$work/found"
passed=$(tail -n 1 "$work/found")
failed=${passed#* }
passed=${passed% *}

awk -f tests/believed.awk docs/PROMISES.md crates/*/specs/*.antt crates/*/src/*.rt >"$work/believed" ||
    failed=$((failed + 1))
sed '/^docs/!s/^/to believe for /' "$work/believed"
passed=$((passed + 1))
echo "$passed passed, $failed failed"
[ "$failed" -eq 0 ]
