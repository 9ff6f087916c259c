#!/bin/sh
# Saves: what others put beside the book is left alone, the book keeps its owner, group and mode, and a save that
# cannot be made leaves the old book and nothing beside it.
# shellcheck source=host/tests/checks
. "$(dirname "$0")/checks"

"$host" --new sample '(add (1 (1) (1)))' >/dev/null
added='1 done 2 3
end 1 2 3'
fresh() {
    rm -rf ./* ./.scalebench-*
    cp ../sample book
}
mv sample ..

# Whatever has the names that hosts once wrote to.
for name in book.new book.lock; do
    fresh
    cp ../sample $name
    chmod 600 $name
    run "another book as $name" 0 "$added" book '(add (9))'
    same "another book as $name: left" $name ../sample
    fresh
    echo text >other
    ln other $name
    run "a hard link as $name" 0 "$added" book '(add (9))'
    equal "a hard link as $name: left" "$(cat other)" text
    fresh
    ln -s other $name
    run "a link as $name" 0 "$added" book '(add (9))'
    holds "a link as $name: not followed" book $name
    fresh
    mkfifo $name
    run "a pipe as $name" 0 "$added" book '(add (9))'
    fresh
    mkdir $name
    run "a folder as $name" 0 "$added" book '(add (9))'
    equal "a folder as $name: left" "$(ls $name)" ''
done

# What a killed save leaves is removed; what only looks like it is not.
stray=.scalebench-0123456789abcdef0123456789abcdef
fresh
head -c 5000 ../sample >$stray
run 'a stray' 0 "$added" book '(add (9))'
holds 'a stray is removed' book
for kind in mkdir mkfifo 'ln -s book'; do
    fresh
    $kind $stray
    run "$kind" 0 "$added" book '(add (9))'
    holds "$kind is left" book $stray
done
fresh
zeros $((book_bytes + 1)) >$stray
echo text >.scalebench-0123456789abcdef0123456789abcdeg
echo text >.scalebench-0123456789abcdef0123456789abcdef0
run 'other files' 0 "$added" book '(add (9))'
holds 'other files are left' book $stray .scalebench-0123456789abcdef0123456789abcdeg ${stray}0
if command -v flock >/dev/null; then
    fresh
    cp book $stray
    flock $stray "$host" book '(add (9))' >/dev/null
    holds 'what a living host writes is left' book $stray
else
    skip 'what a living host writes: needs flock'
fi
fresh
ln book $stray
run 'a second name that a killed host left' 0 "$added" book '(add (9))'
holds 'it is removed' book

# Modes. Nobody may write a book without write permission, root included.
for mode in 600 640 644 664 666 620 200; do
    [ "$(id -u)" -eq 0 ] || [ "$((mode / 100))" -ge 6 ] || continue
    fresh
    chmod $mode book
    run "mode $mode" 0 "$added" book '(add (9))'
    equal "mode $mode stays" "$(stat -c %a book)" $mode
done
for mode in 444 400 000; do
    fresh
    chmod $mode book
    [ "$(id -u)" -eq 0 ] || [ $mode != 000 ] || continue
    run "mode $mode" 3 '' book '(add (9))'
    run "mode $mode: a batch" 3 '' --batch book
    told "mode $mode" 'cannot change book: '
    run "mode $mode: asked" 0 '1 approved
end 1 2 2' book '(ask (1 (1) (1)))'
    equal "mode $mode stays" "$(stat -c %a book)" "$(printf '%o' 0$mode)"
    chmod 600 book
    same "mode $mode: left" book ../sample
done
rm -f book
(umask 077 && "$host" --new book </dev/null >/dev/null)
equal 'a new book has the mode that is asked for' "$(stat -c %a book)" 600
rm -f book
(umask 002 && "$host" --new book </dev/null >/dev/null)
equal 'so has another' "$(stat -c %a book)" 664

fresh
ln book second
run 'a second hard link' 3 '' book '(add (9))'
told 'a second hard link' 'it has a second name (hard link)'
same 'a second hard link: left' book ../sample
run 'a second hard link: asked' 0 '' -q book '(ask (1 (1) (1)))'
rm second
run 'without it' 0 "$added" book '(add (9))'

# No room: the signal of the limit does not end the host, and the message names the line.
fresh
printf '(ask (1 (1) (1)))\n(add (9))\n(ask (9))\n' >../in
(ulimit -f 8 && exec "$host" book <../in >../out 2>../err)
equal 'no room' "$? $(cat ../out)" '5 1 approved'
told 'no room' 'line 2: cannot save book: File too large'
same 'no room: left' book ../sample
(ulimit -f 8 && exec "$host" --new other <../in >../out 2>../err)
equal 'no room to begin' "$? $(cat ../out)" '5 '
told 'no room to begin' 'cannot begin other: File too large'
holds 'no room: nothing beside' book
(ulimit -f 8 && exec "$host" --backup copy book <../in >../out 2>../err)
equal 'no room for a copy' "$? $(ls)" '5 book'
input </dev/null
run 'a folder that cannot be written' 5 '' --new /proc/book
told 'a folder that cannot be written' 'cannot begin /proc/book'

# Users.
if can_change_user; then
    user() { as_nobody "$host" "$@" >../out 2>../err; }
    fresh
    chown 1234:5678 book
    chmod 660 book
    run 'root saves' 0 "$added" book '(add (9))'
    equal 'owner and group stay' "$(mode book)" '660 1234 5678'

    chown 65534:65534 .
    fresh
    user book '(add (9))'
    equal 'another user' "$? $(cat ../out)" '3 '
    told 'another user' 'cannot change book: Permission denied'
    same 'another user: left' book ../sample
    fresh
    chown 0:65534 book
    chmod 660 book
    user book '(add (9))'
    equal 'a book of the group' "$? $(mode book)" '0 660 65534 65534'
    fresh
    chmod 666 book
    user book '(add (9))'
    equal 'a group that cannot be given' "$? $(mode book)" '5 666 0 0'
    told 'a group that cannot be given' 'line 1: cannot save book: Operation not permitted'
    same 'a group that cannot be given: left' book ../sample
    holds 'a group that cannot be given: nothing beside' book
    fresh
    cp book $stray
    user --new own '(add (9))'
    holds 'the stray of another user is left' book $stray own

    chown 0:0 .
    fresh
    chmod 666 book
    user book '(add (9))'
    equal 'a folder of another user' "$? $(mode book)" '5 666 0 0'
    told 'a folder of another user' 'line 1: cannot save book: Permission denied'
    chmod 1777 .
    user book '(add (9))'
    equal 'a shared folder' "$? $(mode book)" '5 666 0 0'
    holds 'a shared folder: nothing beside' book
    same 'a shared folder: left' book ../sample
    chmod 755 .
else
    skip 'owners and groups: needs root and setpriv'
fi

fresh
"$TESTS/access" "$host"
lists=$?
if [ $lists -eq 77 ]; then
    skip 'access lists: the file system has none'
else
    equal 'access lists' $lists 0
fi
report
