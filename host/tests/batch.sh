#!/bin/sh
# Many changes at once: all of them saved in one step, or none.
# shellcheck source=host/tests/checks
. "$(dirname "$0")/checks"

printf '(add (1))\n(add (2))\n(ask (2))\n(drop (1))\n(ask (1))\n' | input
run 'a batch' 0 '3 approved
5 not 1
end 5 1 1' --batch --new book
holds 'one file' book
run 'as lines' 0 '1 done 1 1
2 done 1 2
3 approved
4 done 1 1
5 not 1
end 5 1 1' --new lines
same 'the same book' book lines

printf '(add (3))\n(total)\n(drop (3))\n(total)\n' | input
run 'totals in a batch' 0 '2 total 2
4 total 1
end 4 1 1' --batch book
same 'totals in a batch: the same book' book lines

cp book before
bad() { # WHAT OUTPUT TEXT
    run "$1" 6 "$2" --batch book
    told "$1" "$3"
    told "$1" "scalebench: nothing is saved: "
    same "$1: nothing is saved" book before
}
printf '(add (3))\n(add (2))\n(add (4))\n' | input
bad 'a refused line' '2 refused 14
end 3 1 1' 'line 2: the tree is approved already'
told 'a refused line' 'nothing is saved: 1 of 3 lines refused'
printf '(add (3))\n(add 4)\n(add (5))\n\n' | input
bad 'malformed lines' '2 form 6
4 form 1
end 4 1 1' 'line 2: not (add TREE)'
told 'malformed lines' 'nothing is saved: 2 of 4 lines refused'
printf '(add (3))\n%600s\n' x | input
bad 'a long line' '2 long
end 2 1 1' 'line 2: above 512 bytes'
run 'a dry run of it' 6 '2 long
end 2 1 1' --batch --dry-run book

printf '(add (3))\n' | input
run 'a dry run' 0 'end 1 1 2' --batch --dry-run book
same 'a dry run saves nothing' book before
run 'quiet' 0 '' --batch -q --dry-run book
"$host" --batch book <. >../out 2>../err
equal 'input that fails' "$? $(cat ../out)" '5 end 0 1 1'
same 'input that fails: nothing is saved' book before
if [ -c /dev/full ]; then
    printf '(add (3))\n(ask (3))\n' | "$host" --batch book >/dev/full 2>../err
    equal 'output that fails' $? 5
    same 'output that fails: nothing is saved' book before
fi
(ulimit -f 8 && exec "$host" --batch book <../in >../out 2>../err)
equal 'no room' "$? $(cat ../out)" '5 '
told 'no room' 'line 1: cannot save book: File too large'
same 'no room: nothing is saved' book before
holds 'nothing beside' before book lines
input </dev/null
inode=$(stat -c %i book)
run 'no lines' 0 'end 0 1 1' --batch book
equal 'nothing to save' "$(stat -c %i book)" "$inode"

# 100,000 changes: 200 trees put in and taken out again and again, and one more at the end.
awk 'BEGIN {
    for (n = 0; n < 250; n++) {
        for (k = 1; k <= 200; k++) printf "(add (1 (%d) (%d)))\n", k % 20 + 1, int(k / 20) + 1
        for (k = 1; k <= 200; k++) printf "(drop (1 (%d) (%d)))\n", k % 20 + 1, int(k / 20) + 1
    }
    print "(add (77))"
}' >../many
began=$(date +%s)
timeout 120 "$host" --batch book <../many >../out 2>../err
equal '100,000 changes' "$? $(cat ../out ../err)" '0 end 100001 1 2'
echo "100,000 changes in one batch: $(($(date +%s) - began)) s"

cp before book
"$TESTS/terminal" "$host" --batch book <../many >../out
if [ $? -eq 77 ]; then
    skip 'the count at a terminal: there is none'
else
    equal 'the count at a terminal' "$(tr '\r' '\n' <../out | sed -n '2p;$p')" 'scalebench: 100 lines
scalebench: 100001 lines'
    printf '(add (3))\n(add (3))\n' | "$TESTS/terminal" "$host" --batch book >../out
    equal 'messages on lines of their own' "$(tr -d '\r' <../out)" 'scalebench: line 2: the tree is approved already
scalebench: 2 lines
scalebench: nothing is saved: 1 of 2 lines refused'
    "$TESTS/terminal" "$host" --batch -q book <../in >../out
    equal 'quiet at a terminal' "$(cat ../out)" ''
fi
report
