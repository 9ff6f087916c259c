#!/bin/sh
# Several hosts on one book: each change is made to the book as the others left it, and nobody waits to ask.
# shellcheck source=host/tests/checks
. "$(dirname "$0")/checks"

"$host" --new book '(add (1))' >/dev/null
answered() { [ -e "$1" ] && [ "$(wc -l <"$1")" -ge "$2" ]; } # FILE LINES

# Two people with one book open.
mkfifo ../first ../second
"$host" book <../first >../out1 2>&1 &
one=$!
"$host" book <../second >../out2 2>&1 &
two=$!
exec 3>../first 4>../second
echo '(add (7))' >&3
until_true answered ../out1 1
echo '(ask (7))' >&4
until_true answered ../out2 1
echo '(add (8))' >&4
until_true answered ../out2 2
echo '(ask (8))' >&3
until_true answered ../out1 2
run 'a third' 0 '1 done 1 4
end 1 1 4' book '(add (9))'
echo '(drop (7))' >&3
exec 3>&- 4>&-
wait $one
equal 'the first' "$? $(cat ../out1)" '0 1 done 1 2
2 approved
3 done 1 3
end 3 1 3'
wait $two
equal 'the second' "$? $(cat ../out2)" '0 1 approved
2 done 1 3
end 2 1 3'
holds 'nothing beside the book' book

# A host that saves has the book to itself; others may ask, and wait to change it. It stops until ../first has an end.
cp "$HOST-moments" ../moments
MOMENT='write:1:cat ../first >../seen' ../moments book '(add (7))' </dev/null >../out1 2>&1 &
one=$!
exec 3>../first
until_true test -e ../seen
run 'busy' 4 '' --wait 0 book '(add (8))'
if grep -q 'FLOCK' /proc/locks 2>/dev/null; then
    told 'busy' "line 1: cannot change book: another program has it (process $one, moments)"
else
    told 'busy' 'line 1: cannot change book: another program has it'
    skip 'who has the book: the system does not say'
fi
run 'busy for a second' 4 '' --wait 1 book '(add (8))'
run 'busy for a batch' 4 '' --batch --wait 0 book
told 'busy for a batch' 'scalebench: cannot change book: another program has it'
run 'asked meanwhile' 1 '1 not 1
end 1 1 3' book '(ask (7))'
run 'tried meanwhile' 0 '1 done 1 4
end 1 1 4' --dry-run book '(add (7))'
run 'checked meanwhile' 0 'book is sound: 1 state, 3 transitions' --check book
"$host" --wait 20 book '(add (10))' >../out2 2>&1 3>&- &
two=$!
sleep 0.2
exec 3>&-
wait $one
equal 'the one that saves' "$? $(cat ../out1)" '0 1 done 1 4
end 1 1 4'
wait $two
equal 'the one that waited' "$? $(cat ../out2)" '0 1 done 1 5
end 1 1 5'

# A batch takes the lock after all of its input is there, and is made to the book as it is then.
"$host" --batch book <../first >../out1 2>&1 &
one=$!
exec 3>../first
printf '(add (11))\n(ask (12))\n' >&3
run 'changed while a batch reads' 0 '1 done 1 6
end 1 1 6' --wait 0 book '(add (12))'
echo '(drop (12))' >&3
exec 3>&-
wait $one
equal 'the batch' "$? $(cat ../out1)" '0 2 approved
end 3 1 6'
"$host" -q book '(drop (11))'

# A book that is deleted or replaced while it is locked is not saved over.
for how in 'rm book' 'cp book other && mv other book'; do
    cp book kept
    MOMENT="write:1:$how" ../moments book '(add (11))' >../out1 2>../err
    equal "$how" "$? $(cat ../out1)" '5 '
    told "$how" 'cannot save book: another program has put another file in its place'
    [ "$how" = 'rm book' ] && mv kept book
    cmp -s book kept 2>/dev/null || [ "$how" = 'rm book' ]
    equal "$how: the new file stays" $? 0
    rm -f kept
    holds "$how: nothing beside" book
done

# A book that is replaced, written over or deleted while a host has it open.
rm -f ../out1
"$host" book <../first >../out1 2>../err &
one=$!
exec 3>../first
echo '(ask (12))' >&3
until_true answered ../out1 1
cp book other
"$host" -q other '(add (12))'
mv other book
echo '(ask (12))' >&3
until_true answered ../out1 2
cp book other
"$host" -q other '(drop (12))'
cat other >book
echo '(ask (12))' >&3
until_true answered ../out1 3
rm book
echo '(ask (12))' >&3
exec 3>&-
wait $one
equal 'answers from the file that is there' "$? $(cat ../out1)" '3 1 not 1
2 approved
3 not 1'
told 'answers from the file that is there' 'line 4: cannot open book: No such file'
mv other book

# Many hosts at once, and many that begin one book.
k=0
while [ $k -lt 12 ]; do
    k=$((k + 1))
    printf '(add (20 (%d)))\n(add (21 (%d)))\n(drop (20 (%d)))\n' $k $k $k |
        "$host" --wait 60 --new many >../many.$k 2>&1 &
done
wait
equal 'many hosts' "$(cat ../many.* | grep -c ' done ')" 36
equal 'what they leave' "$("$host" --check many)" 'many is sound: 2 states, 13 transitions'
holds 'many hosts: nothing beside' book many

if can_change_user; then
    cp book ours
    chmod 664 ours
    chown 0:65534 ours .
    chmod 775 .
    echo >ours.lock
    chmod 600 ours.lock
    as_nobody "$host" ours '(add (13))' >/dev/null 2>../err
    equal 'two users: the second' $? 0
    run 'two users: the first' 0 '' -q ours '(add (14))'
    as_nobody "$host" -q ours '(add (15))' 2>../err
    equal 'two users: the second again' "$? $(mode ours)" '0 664 65534 65534'
else
    skip 'two users: needs root and setpriv'
fi
report
