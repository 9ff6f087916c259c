# What a reader must believe. Starts from the words of a theorem, follows every name in a definition to its own
# definition, and stops at the definitions that docs/PROMISES.md lists as proved to mean something else. Each definition
# met must stand in the table of that theorem with its file, and each one there must be met. The first table is that of
# demand 3 and the numbers for C, the second that of lines and the bench program, which adds to the first. Prints what
# differs, then for each table "N definitions, M lines".
#
# Arguments: docs/PROMISES.md, then every specs/*.antt and the src/*.rt that declare types of definitions.

# the names in code style of a text, into list[1..n]
function quoted(text, list,   n) {
    n = 0
    while (match(text, /`[^`]+`/)) {
        list[++n] = substr(text, RSTART + 1, RLENGTH - 2)
        text = substr(text, RSTART + RLENGTH)
    }
    return n
}

# notes that a name of this file stands for a definition
function alias(name, definition) {
    meaning[file, name] = definition
    if (name ~ /^◌.*◌$/) {
        gsub(/◌/, "", name)
        meaning[file, name] = definition
    }
}

function begin(name) {
    current = file ":" name
    lines[current] = 0
    home[current] = file
    alias(name, current)
}

function add(line) {
    if (current == "") return
    lines[current]++
    text[current] = text[current] " " line
}

# a line "use Rattle.crate.specs.File.{a, b as c}"
function import(line,   crate, from, names, name, count, part, i, pair) {
    sub(/^use Rattle\./, "", line)
    crate = line
    sub(/\..*/, "", crate)
    sub(/^[^.]*\.specs\./, "", line)
    from = line
    sub(/\.\{.*/, "", from)
    names = line
    sub(/.*\{/, "", names)
    sub(/\}.*/, "", names)
    count = split(names, part, /, */)
    for (i = 1; i <= count; i++) {
        split(part[i], pair, / as /)
        name = pair[2] == "" ? pair[1] : pair[2]
        if (from ~ /^declared\./) {
            sub(/\.TheVariants$/, "", from)
            sub(/^declared\./, "", from)
            alias(name, crate "/lib:" from)
        } else
            alias(name, crate "/" from ":" pair[1])
    }
}

FNR == 1 {
    split(FILENAME, path, "/")
    file = path[4]
    sub(/\.(antt|rt)$/, "", file)
    file = path[2] "/" file
    current = ""
    block = -1
}
FILENAME ~ /PROMISES/ {
    if ($0 ~ /^\| to believe \|/) table = 1
    else if ($0 ~ /^\| to believe for lines /) table = 3
    else if ($0 ~ /^\| definition \| proved to mean/) table = 2
    else if ($0 !~ /^\|/) table = 0
    if (table == 1 || table == 3) {
        # names are followed by their file: `a`, `b`: `crate/File`
        rest = $0
        while (match(rest, /(`[^`]+`, )*`[^`]+`: `[a-z]+\/[A-Za-z_]+`/)) {
            group = substr(rest, RSTART, RLENGTH)
            rest = substr(rest, RSTART + RLENGTH)
            n = quoted(group, list)
            for (i = 1; i < n; i++) listed[list[n] ":" list[i]] = table
        }
    }
    if (table == 2) {
        split($0, cell, "|")
        n = quoted(cell[2], list)
        for (i = 1; i <= n; i++) proved[list[i]] = 1
    }
    next
}
FILENAME ~ /\.rt$/ {
    if ($0 ~ /^pub (enum|struct) /) { begin($3); block = 0 }
    if (block == 0) add($0)
    if ($0 ~ /^}/) { block = -1; current = "" }
    next
}
/^ *--/ || /^ *$/ { next }
/^use Rattle\./ { import($0); next }
/^use / || /^ *(module|mutual|infix|infixl|infixr|pub mod) / || /^ *(abbrev |unfoldable )*mutual$/ { next }
{
    match($0, /^ */)
    indent = RLENGTH
    line = substr($0, indent + 1)
    if (block >= 0 && indent > block) {
        # a field or a constructor
        if (data && match(line, /^[^:]+ : /)) {
            n = split(substr(line, 1, RLENGTH - 3), part, " ")
            for (i = 1; i <= n; i++) if (part[i] != "pub") alias(part[i], current)
        }
        add(line)
        next
    }
    block = -1
    bare = line
    marked = 0
    while (bare ~ /^(pub|abbrev|unfoldable) /) { marked = 1; sub(/^[a-z]+ /, "", bare) }
    if (bare ~ /^(record|data) [^{ ]/) {
        split(bare, part, " ")
        begin(part[2])
        data = part[1] == "data"
        block = indent
        add(bare)
    } else if (marked && match(bare, /^[^ (){}:,]+( [^ (){}:,]+)* :( |$)/)) {
        n = split(substr(bare, 1, RLENGTH - 1), part, " ")
        begin(part[1])
        for (i = 2; i < n; i++) if (part[i] != ":") alias(part[i], current)
        add(bare)
    } else
        add(line)
}
# follows the names from some definitions, and compares what is met with a table
function follow(roots, table, theorem,   n, i, j, d, e, w, short, count, total, queue, word, part) {
    n = split(roots, queue, " ")
    for (i = 1; i <= n; i++) {
        if (!(queue[i] in lines)) fail("`" queue[i] "` is no definition")
        met[queue[i]] = table
    }
    for (i = 1; i <= n; i++) {
        d = queue[i]
        count = split(text[d], word, /[ (){},;]+/)
        for (j = 1; j <= count; j++) {
            w = word[j]
            sub(/\.$/, "", w)
            if (w !~ /^\./) sub(/\..*/, "", w)
            if (w ~ /^\./ || !((home[d], w) in meaning)) continue
            e = meaning[home[d], w]
            short = e
            sub(/.*:/, "", short)
            if (e in met || !(e in lines) || short in proved) continue
            met[e] = table
            queue[++n] = e
        }
    }
    for (i = 1; i <= n; i++) {
        total += lines[queue[i]]
        split(queue[i], part, ":")
        if (listed[queue[i]] != table) fail("`" part[2] "` of " part[1] " is met from " theorem " and not listed")
    }
    for (d in listed)
        if (listed[d] == table && met[d] != table) {
            split(d, part, ":")
            fail("`" part[2] "` of " part[1] " is not met from " theorem)
        }
    print theorem ": " n " definitions, " total " lines"
}

function fail(what) { print "docs/PROMISES.md: " what; failed++ }

END {
    follow("calls/Claim:Agrees calls/Series:AllBring calls/Series:model_of calls/Series:empty_model " \
        "format/Format:AllBytes calls/Answers:answer_number calls/Answers:number_after", 1, "demand 3")
    follow("console/Machine:machine console/Input:Lines text/Grammar:CommandLine text/Grammar:WellFormed " \
        "text/Grammar:FirstBad text/Grammar:total_text text/Outcome:parsed text/Outcome:listed " \
        "scalebench/Typed:line_number bench/Output:Took bench/Output:Finished bench/Turns:ReadTurn bench/Turns:MetAll", 3,
        "lines and the bench program")
    exit failed > 0
}
