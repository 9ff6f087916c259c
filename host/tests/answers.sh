#!/bin/sh
# What the host prints for each line, and its exit statuses.
# shellcheck source=host/tests/checks
. "$(dirname "$0")/checks"

nodes() { # a chain of so many nodes as text
    awk -v n="$1" 'BEGIN { for (i = 1; i < n; i++) printf "(1 "; printf "(1"; for (i = 0; i < n; i++) printf ")" }'
}

run 'a new book' 0 'end 0 0 0' --new book
equal 'the empty book' "$(tr -d '\000' <book | wc -c) $(wc -c <book)" "0 $book_bytes"
holds 'nothing else' book
cp book empty

input <<'LINES'
(add (1 (1) (1)))
(ask (1 (1) (1)))
(drop (1 (1) (2)))
(ask (2))
LINES
run 'the sample' 6 '1 done 2 2
2 approved
3 refused 15
4 not 1
end 4 2 2' book
told 'the sample' 'line 3: the tree is not approved'
told 'the sample' 'line 4: not approved: node 1, label 2, the top'
cp book sample
run 'again' 6 '1 refused 14
2 approved
3 refused 15
4 not 1
end 4 2 2' --new book
same 'a refused change leaves the file' book sample
printf '(ask (2))\n' | input
run 'lines that are only answered' 0 '1 not 1
end 1 2 2' book

# One command: its status is the answer.
input </dev/null
run 'no lines' 0 'end 0 2 2' book
run 'approved' 0 '1 approved
end 1 2 2' book '(ask (1 (1) (1)))'
run 'not approved' 1 '1 not 3
end 1 2 2' book '(ask (1 (1) (2)))'
told 'not approved' 'line 1: not approved: node 3, label 2, under 1'
run 'not approved below' 1 '1 not 4
end 1 2 2' book '(ask (1 (1 (1) (31)) (2)))'
told 'not approved below' 'line 1: not approved: node 4, label 31, under 1 > 1'
run 'not approved, but a part' 1 '1 not part
end 1 2 2' book '(ask (1))'
told 'not approved, but a part' 'line 1: not approved: part of an approved assembly'
run 'done' 0 '1 done 2 3
end 1 2 3' book '(add (7))'
run 'counted' 0 '1 total 2
end 1 2 3' book '(total)'
run 'refused' 6 '1 refused 14
end 1 2 3' book '(add (7))'
run 'malformed' 6 '1 form 6
end 1 2 3' book '(add 7)'
told 'malformed' 'from column 6 on: expected an assembly, which begins with "("'
run 'an end of line' 6 '1 form 10
end 1 2 3' book '(ask (1))
'
run 'quiet: approved' 0 '' --quiet book '(ask (7))'
run 'quiet: not approved' 1 '' -q book '(ask (8))'
run 'quiet: counted' 0 '' -q book '(total)'
equal 'quiet: counted, nothing is told' "$(cat "$folder/err")" ''
run 'quiet: done' 0 '' -q book '(drop (7))'
same 'quiet: saved' book sample
run 'quiet: refused' 6 '' -q book '(drop (7))'
equal 'quiet: refused, nothing is told' "$(cat "$folder/err")" ''
printf '(ask (8))\n(drop (7))\n(add\n%600s\n(total)\n' x | input
run 'quiet lines' 6 '' -q book
equal 'quiet lines, nothing is told' "$(cat "$folder/err")" ''
run 'quiet lines in a batch' 6 '' -q --batch book
equal 'quiet lines in a batch: told' "$(cat "$folder/err")" 'scalebench: nothing is saved: 3 of 5 lines refused'
input </dev/null
run 'quiet: no book' 3 '' -q none '(ask (7))'
told 'quiet: no book' 'cannot open none'

run 'a dry run' 0 '1 done 0 0
end 1 0 0' --dry-run book '(drop (1 (1) (1)))'
same 'a dry run leaves the file' book sample
run 'a dry run of a new book' 0 '1 done 1 1
end 1 1 1' --new --dry-run other '(add (1))'
holds 'a dry run begins no file' book empty sample
run 'back to nothing' 0 '1 done 0 0
end 1 0 0' book '(drop (1 (1) (1)))'
same 'the empty book again' book empty

# How many assemblies are approved.
printf '(total)\n(add (1 (1) (1)))\n(add (1 (1) (2)))\n(total)\n(drop (1 (1) (1)))\n(total)\n' | input
run 'totals' 0 '1 total 0
2 done 2 2
3 done 3 4
4 total 2
5 done 3 3
6 total 1
end 6 3 3' --dry-run book
printf '(t\n(tadd\n(tota\n(total\n(total )\n(totals)\n(total))\n' | input
run 'malformed totals' 6 '1 form 3
2 form 3
3 form 6
4 form 7
5 form 7
6 form 7
7 form 8
end 7 0 0' book
told 'malformed totals' 'line 7: not (add TREE), (drop TREE), (ask TREE) or (total) from column 8 on'

squares 5 >large
run 'a large total' 0 '1 total 4294967296
end 1 6 7' large '(total)'
squares 6 >larger
run 'over' 0 '1 total over
end 1 7 8' larger '(total)'
told 'over' 'line 1: more than 18446744073709551615 assemblies are approved'
rm large larger

# Lines that are malformed, refused by a call, or at the limits; a NUL, a CR, no final end of line.
{
    printf '(ask (65536))\n(ask (01))\n(add\n\n(ask (1)\n(ask (1)))\n(ask (1))\r\n(ask (1\0))\n(asc (1))\n(add  (1))\n'
    printf '(ask (0))\n(ask (1 (1) (1) (1) (1) (1) (1) (1) (1) (1)))\n(ask %s)\n(ask %s)\n' "$(nodes 48)" "$(nodes 49)"
    printf '(ask %s)\n%512s\n%513s\n%70000s\n(ask (1))' "$(nodes 120)" x x x
} | input
run 'lines' 6 '1 form 11
2 form 8
3 form 5
4 form 1
5 form 9
6 form 10
7 form 10
8 form 8
9 form 4
10 form 6
11 refused 2
12 refused 3
13 not 48
14 refused 1
15 refused 1
16 form 1
17 long
18 long
19 not 1
end 19 0 0' book
told 'malformed' 'line 1: not (add TREE)'
above=$(awk 'BEGIN { for (i = 1; i < 47; i++) printf "1 > "; print 1 }')
told 'the deepest node' "line 13: not approved: node 48, label 1, under $above"
told 'long' 'line 18: above 512 bytes'

# Labels of two bytes: those that differ in one byte, and the longest texts of a tree and of a node.
printf '(%s)\n' 'add (256 (65535) (1))' 'ask (256 (65535) (1))' 'ask (1 (65535) (1))' 'ask (256 (255) (1))' \
    'ask (256 (65535) (257))' 'add (65280 (65535) (1))' 'drop (256 (65535) (1))' 'drop (65280 (65535) (1))' | input
run 'labels of two bytes' 0 '1 done 3 3
2 approved
3 not 1
4 not 2
5 not 3
6 done 3 4
7 done 3 3
8 done 0 0
end 8 0 0' book
told 'labels of two bytes' 'line 4: not approved: node 2, label 255, under 256'
told 'labels of two bytes' 'line 5: not approved: node 3, label 257, under 256'
same 'labels of two bytes: nothing is left' book empty
widest=$(nodes 48 | sed 's/1/65535/g')
run 'the widest assembly' 1 '1 not 48
end 1 0 0' book "(ask $widest)"
told 'the widest assembly' "node 48, label 65535, under $(echo "$above" | sed 's/1/65535/g')"
run 'the widest assembly: added' 0 '1 done 48 48
end 1 48 48' book "(add $widest)"
run 'the widest assembly: its text' 0 "$widest" --tree 0 book
cp empty book

# Input and output that fail.
"$host" book <. >"$folder/out" 2>"$folder/err"
equal 'input that fails' "$? $(cat "$folder/out")" '5 end 0 0 0'
told 'input that fails' 'cannot read the input'
if [ -c /dev/full ]; then
    printf '(add (5))\n(add (6))\n' | "$host" book >/dev/full 2>"$folder/err"
    equal 'output that fails' $? 5
    told 'output that fails' 'line 1: cannot write the output'
    equal 'reported once' "$(wc -l <"$folder/err")" 1
    run 'what was saved before' 0 '1 approved
end 1 1 1' book '(ask (5))'
    "$host" --help >/dev/full 2>"$folder/err"
    equal 'help that cannot be printed' $? 5
fi
report
