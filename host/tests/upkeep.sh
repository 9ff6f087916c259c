#!/bin/sh
# --check and --backup. What a check says of damaged books is in files.sh.
# shellcheck source=host/tests/checks
. "$(dirname "$0")/checks"

"$host" --new book '(add (1 (1) (2)))' >/dev/null
run 'a sound book' 0 'book is sound: 3 states, 3 transitions' --check book
"$host" --new one '(add (1))' >/dev/null
run 'one of each' 0 'one is sound: 1 state, 1 transition' --check one
rm one
run 'a quiet check' 0 '' --check -q book
run 'no book' 3 '' --check none
told 'no book' 'cannot open none'
chmod 444 book
run 'a book that nobody may write' 0 'book is sound: 3 states, 3 transitions' --check book

run 'a copy' 0 '' --backup copy book
same 'a copy is the book' copy book
equal 'a copy is private' "$(stat -c %a copy)" 600
chmod 644 book
cp book kept
"$host" -q book '(add (9))'
run 'a file that exists' 5 '' --backup copy book
told 'a file that exists' 'cannot back up to copy: it exists already'
same 'a file that exists: left' copy kept
run 'the book itself' 5 '' --backup book book
ln -s nothing link
run 'a link to nothing' 5 '' --backup link book
run 'a folder' 5 '' --backup . book
run 'no such folder' 5 '' --backup none/copy book
run 'no book to copy' 3 '' --backup other none
holds 'nothing else' book copy kept link

head -c 100 book >.scalebench-0123456789abcdef0123456789abcdef
run 'a copy after one that was killed' 0 '' --backup third book
holds 'what that one left is removed' book copy kept link third

# Copies while another host saves: each is the book between two changes.
{
    k=0
    while [ $k -lt 150 ]; do
        k=$((k + 1))
        echo "(add (2 ($k)))"
    done
} >../lines
"$host" book <../lines >../out1 2>&1 &
saver=$!
k=0
sound=0
while [ $k -lt 20 ]; do
    k=$((k + 1))
    "$host" --backup ../copy.$k book 2>../err && "$host" -q --check ../copy.$k && sound=$((sound + 1))
done
wait $saver
equal 'the host that saves' $? 0
equal 'copies meanwhile' $sound 20
report
