#!/bin/sh
# Malformed lines: what was expected, in words.
# shellcheck source=host/tests/checks
. "$(dirname "$0")/checks"

"$host" --new book '(add (1))' >/dev/null
# line LINE COLUMN EXPECTED: as a command; quiet, nothing is told
line() {
    run "$1" 6 "1 form $2
end 1 1 1" book "$1"
    equal "$1: told" "$(cat ../err)" \
        "scalebench: line 1: not (add TREE), (drop TREE), (ask TREE) or (total) from column $2 on: expected $3"
    run "$1, quiet" 6 '' -q book "$1"
    equal "$1, quiet: told" "$(cat ../err)" ''
}
assembly='an assembly, which begins with "("'
label='a label from 1 to 65535'
limit='a label of at most 65535'
after='a digit, a space or ")"'
line '' 1 '"("'
line 'add (1)' 1 '"("'
line '(' 2 'add or drop or ask or total'
line '(x (1))' 2 'add or drop or ask or total'
line '(a' 3 'add or ask'
line '(ad (1))' 4 add
line '(asc (1))' 4 ask
line '(dr' 4 drop
line '(ask' 5 'a space'
line '(add(1))' 5 'a space'
line '(drop' 6 'a space'
line '(add ' 6 "$assembly"
line '(add 7)' 6 "$assembly"
line '(add  (1))' 6 "$assembly"
line '(add (' 7 "$label"
line '(add (x))' 7 "$label"
line '(add (-1))' 7 "$label"
line '(add ((1)))' 7 "$label"
line '(ask (65536))' 11 "$limit"
line '(ask (65540))' 11 "$limit"
line '(ask (700000))' 11 "$limit"
line '(ask (1 (99999)))' 14 "$limit"
line '(ask (01))' 8 'no digit after a 0 at the start of a label'
line '(ask (1 (00)))' 11 'no digit after a 0 at the start of a label'
line '(ask (10' 9 "$after"
line '(ask (10x))' 9 "$after"
line '(ask (1(2)))' 8 "$after"
line '(ask (1 ' 9 "$assembly"
line '(ask (1 2))' 9 "$assembly"
line '(ask (1  (2)))' 9 "$assembly"
line '(ask (1 (2) ' 13 "$assembly"
line '(ask (1 (2)' 12 'a space or ")"'
line '(ask (1 (2)(3)))' 12 'a space or ")"'
line '(ask (1)' 9 '")"'
line '(ask (1) (2))' 9 '")"'
line '(ask (1)))' 10 'the end of the line'
line '(ask (1)) ' 10 'the end of the line'
line '(t' 3 total
line '(total' 7 '")"'
line '(total (1))' 7 '")"'
line '(total) ' 8 'the end of the line'

# tree TEXT COLUMN EXPECTED: of --number
tree() {
    run "--number $1" 6 "form $2" --number "$1" book
    equal "--number $1: told" "$(cat ../err)" \
        "scalebench: not an assembly in brackets from column $2 on: expected $3"
    run "--number $1, quiet" 6 '' -q --number "$1" book
    equal "--number $1, quiet: told" "$(cat ../err)" ''
}
tree '' 1 "$assembly"
tree 7 1 "$assembly"
tree ')' 1 "$assembly"
tree '(' 2 "$label"
tree '()' 2 "$label"
tree '(65536)' 6 "$limit"
tree '(01)' 3 'no digit after a 0 at the start of a label'
tree '(7' 3 "$after"
tree '(7 ' 4 "$assembly"
tree '(1 (2)' 7 'a space or ")"'
tree '(1 (2) )' 8 "$assembly"
tree '(7))' 4 'nothing more'
tree '(7) ' 4 'nothing more'
tree '(7) (7)' 4 'nothing more'

# Bytes that no text has, and the longest line.
printf '(ask (1\0))\n(ask (1\377))\n%512s\n' x | "$host" book >../out 2>../err
equal 'other bytes' "$? $(cat ../out)" '6 1 form 8
2 form 8
3 form 1
end 3 1 1'
equal 'other bytes: told' "$(sed 's/.* on: //' ../err)" "expected $after
expected $after
expected \"(\""
report
