#!/bin/sh
# Makes docs/ARCHITECTURE.md from crates.txt: docs/architecture.sh >docs/ARCHITECTURE.md. tests/architecture.sh, part of
# the gate, compares the two.
set -u
cd "$(dirname "$0")/.." || exit 2
awk '
function trim(s) { gsub(/^ +| +$/, "", s); return s }
# whether crate a uses crate b through another crate that a uses
function through(a, b,   i) {
    for (i = 1; i <= count; i++)
        if (name[i] != b && (a, name[i]) in uses && (name[i], b) in uses) return 1
    return 0
}
/^# / { sections++; title[sections] = substr($0, 3); next }
/^[a-z]/ {
    line = $0
    job = ""
    if (match(line, /#.*/)) { job = trim(substr(line, RSTART + 1)); line = substr(line, 1, RSTART - 1) }
    colon = index(line, ":")
    crate = substr(line, 1, colon - 1)
    sub(/ .*/, "", crate)    # a static library has that word after its name
    number = split(trim(substr(line, colon + 1)), list, " ")
    count++
    name[count] = crate
    known[crate] = count
    what[count] = job
    section[count] = sections
    for (i = 1; i <= number; i++) {
        if (list[i] in known) {
            uses[crate, list[i]] = 1
            # whatever a crate below uses is used too
            for (j = 1; j < count; j++) if ((list[i], name[j]) in uses) uses[crate, name[j]] = 1
        } else kit[count] = kit[count] " " list[i]
    }
}
END {
    print "# Architecture"
    print ""
    print "Made from `crates.txt` by `docs/architecture.sh`; do not edit. An arrow goes from a crate to one that it uses. Arrows that"
    print "follow from others are left out."
    print ""
    print "```mermaid"
    print "graph TD"
    for (s = 1; s <= sections; s++) {
        print "  subgraph s" s "[\"" title[s] "\"]"
        for (i = 1; i <= count; i++) if (section[i] == s) print "    " name[i]
        print "  end"
    }
    for (i = 1; i <= count; i++)
        for (j = 1; j <= count; j++)
            if ((name[i], name[j]) in uses && !through(name[i], name[j])) {
                print "  " name[i] " --> " name[j]
                direct[i] = direct[i] (direct[i] == "" ? "" : ", ") name[j]
            }
    print "```"
    print ""
    print "The same in words, lowest first. The level is the length of the longest way down."
    for (i = 1; i <= count; i++) {
        level[i] = 0
        for (j = 1; j < i; j++) if ((name[i], name[j]) in uses && level[j] >= level[i]) level[i] = level[j] + 1
        if (level[i] > top) top = level[i]
    }
    for (s = 1; s <= sections; s++) {
        print ""
        print "## " title[s]
        print ""
        print "| level | crate | what | stands on |"
        print "|---|---|---|---|"
        for (l = 0; l <= top; l++)
            for (i = 1; i <= count; i++)
                if (section[i] == s && level[i] == l)
                    print "| " l " | " name[i] " | " what[i] " | " direct[i] (kit[i] == "" ? "" : "; of the kit:" kit[i]) " |"
    }
}' crates.txt
