#!/bin/sh
# --restore: a copy becomes the book in one step, whatever the book holds and whoever uses it.
# shellcheck source=host/tests/checks
. "$(dirname "$0")/checks"

"$host" --new sample '(add (1))' >/dev/null
"$host" --backup copy sample
fresh() {
    cp sample book
    chmod 640 book
    "$host" -q book '(add (2))'
    cp book kept
}
fresh
run 'restored' 0 '' --restore copy book
equal 'restored: nothing is told' "$(cat ../err)" ''
same 'restored: the copy' book copy
equal 'restored: the permissions of the book' "$(stat -c %a book) $(stat -c %a copy)" '640 600'
run 'restored again' 0 '' --restore copy book
run 'and changed' 0 '1 done 1 2
end 1 1 2' book '(add (3))'
holds 'nothing beside' book copy kept sample

# Whatever the book holds.
for damage in 'head -c 5000 sample' 'zeros 11467' 'echo text' true; do
    $damage >book
    run "over $damage" 0 '' --restore copy book
    same "over $damage: the copy" book copy
done

# A copy that cannot be used leaves the book.
refused() { # WHAT STATUS TEXT COPY
    fresh
    run "$1" "$2" '' --restore "$4" book
    told "$1" "$3"
    same "$1: left" book kept
}
refused 'no copy' 3 'cannot open none: No such file or directory' none
head -c $((book_bytes - 1)) sample >short
refused 'a copy that is cut off' 3 'cannot use short: it is damaged (5)' short
zeros 11467 >old
refused 'a copy of the old width' 3 'cannot use old: it is a book of the old width' old
mkfifo pipe
refused 'a pipe' 3 'cannot open pipe: it is not a file' pipe
refused 'a folder' 3 'cannot open .: it is not a file' .
rm short old pipe
fresh
run 'the book itself' 0 '' --restore book book
same 'the book itself: left' book kept

# Where it cannot be put.
run 'no book' 3 '' --restore copy other
told 'no book' 'cannot open other: No such file or directory (--new begins a book)'
holds 'no book: none is begun' book copy kept sample
run 'no book, begun' 0 '' --new --restore copy other
same 'no book, begun: the copy' other copy
equal 'no book, begun: its mode' "$(stat -c %a other)" 644
rm other
run 'begun, where one is' 0 '' --new --restore copy book
same 'begun, where one is: the copy' book copy
fresh
chmod 444 book
run 'a book that nobody may write' 3 '' --restore copy book
told 'a book that nobody may write' 'cannot change book: '
chmod 640 book
same 'a book that nobody may write: left' book kept
ln book second
run 'a second hard link' 3 '' --restore copy book
rm second
ln -s book link
run 'through a link' 0 '' --restore copy link
same 'through a link: the book' book copy
equal 'through a link: it stays' "$(readlink link)" book
rm link
fresh
(ulimit -f 8 && exec "$host" --restore copy book >../out 2>../err)
equal 'no room' "$? $(cat ../out)" '5 '
told 'no room' 'cannot save book: File too large'
same 'no room: left' book kept

# Within a save: another host has the book, a step fails, the host is killed.
cp "$HOST-moments" ../moments
fresh
MOMENT="write:1:$host --wait 0 -q --restore copy book; echo \$? >../status" ../moments -q book '(add (3))' 2>../err
equal 'another host has the book' "$? $(cat ../status)" '0 4'
for step in write fchmod fsync renameat; do
    fresh
    MOMENT="$step:1:=5" ../moments --restore copy book 2>../err
    equal "$step fails" $? 5
    same "$step fails: left" book kept
    holds "$step fails: nothing beside" book copy kept sample
done
fresh
MOMENT="renameat:1:kill -KILL \$PPID" ../moments --restore copy book 2>../err
equal 'killed' $? 137
same 'killed: left' book kept
run 'after it' 0 '' --restore copy book
holds 'after it: nothing beside' book copy kept sample
rm book
MOMENT="renameat2:1:cp kept book" ../moments --new --restore copy book 2>../err
equal 'begun by another' $? 0
same 'begun by another: the copy' book copy

# While others ask and change: no one meets half a file.
"$host" --new other '(add (1 (1) (1)))' >/dev/null
awk 'BEGIN { for (k = 0; k < 2000; k++) print "(ask (1))" }' >../lines
"$host" book <../lines >../asked 2>/dev/null &
one=$!
awk 'BEGIN { for (k = 0; k < 100; k++) print "(add (5))\n(drop (5))" }' |
    "$host" --wait 60 book >../changed 2>/dev/null &
two=$!
k=0
restored=0
while [ $k -lt 50 ]; do
    k=$((k + 1))
    "$host" --wait 60 --restore other book && "$host" --wait 60 --restore copy book && restored=$((restored + 1))
done
equal 'restored while others use it' $restored 50
wait $one
equal 'the one that asks' "$? $(wc -l <../asked)" '0 2001'
wait $two
two=$?
equal 'the one that changes' "$([ $two -eq 0 ] || [ $two -eq 6 ]; echo $?) $(wc -l <../changed)" '0 201'
holds 'while others use it: nothing beside' book copy kept other sample

if can_change_user; then
    chown 1234:5678 book
    chmod 660 book
    run 'restored by root' 0 '' --restore copy book
    equal 'restored by root: owner and group stay' "$(mode book)" '660 1234 5678'
    as_nobody "$host" --restore sample book 2>../err
    equal 'by another user' $? 3
    told 'by another user' 'cannot change book: Permission denied'
else
    skip 'owners and groups: needs root and setpriv'
fi
report
