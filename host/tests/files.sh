#!/bin/sh
# Files that are no book, and paths that lead to one.
# shellcheck source=host/tests/checks
. "$(dirname "$0")/checks"

run 'no book' 3 '' book
told 'no book' 'cannot open book: No such file or directory (--new begins a book)'
run 'no book in a batch' 3 '' --batch book
told 'no book in a batch' '(--new begins a book)'
run 'no book that may be begun' 3 '' --dry-run book
told 'no book that may be begun' '(--new begins a book)'
# Nothing that only looks at a book begins one.
for how in --check '--widen book' '--backup copy' '--number (1)' '--tree 0' --list '--restore book'; do
    # shellcheck disable=SC2086 # the option and its value are words
    run "no book: $how" 3 '' $how book
    equal "no book: $how: told" "$(cat "$folder/err")" 'scalebench: cannot open book: No such file or directory'
done
holds 'nothing is left'
"$host" --new sample '(add (1 (1) (1)))' >/dev/null

run 'a name that ends as a folder' 3 '' --new none/
run 'a folder' 3 '' --new .
told 'a folder' 'it is not a file'
run 'no such folder' 3 '' --new nowhere/book
ln -s nowhere link
run 'a link to nothing' 3 '' --new link
mkfifo pipe
run 'a pipe' 3 '' --new pipe '(add (1))'
told 'a pipe' 'it is not a file'
run 'a device' 3 '' /dev/null '(add (1))'
holds 'all as before' sample link pipe
rm link pipe

# Damaged files: each is refused with the reason, and left as it is.
damaged() { # WHAT REASON
    cp damage kept
    for command in '(add (9))' '(ask (9))'; do
        run "$1" 3 '' damage "$command"
        told "$1" "cannot use damage: it is damaged $2"
    done
    same "$1: left" damage kept
    run "$1: a batch" 3 '' --batch damage
    run "$1: a check" 3 "$(sed -n 's/^scalebench: cannot use damage: it/damage/p' "$folder/err")" --check damage
    equal "$1: a check has no message" "$(cat "$folder/err")" ''
    run "$1: a quiet check" 3 '' --check --quiet damage
    run "$1: a copy" 3 '' --backup copy damage
    holds "$1: nothing is left" damage kept sample
}
: >damage
damaged 'an empty file' '(5): the table is not 12491 bytes long'
head -c $((book_bytes - 1)) sample >damage
damaged 'a short file' '(5): the table is not 12491 bytes long'
{ cat sample; printf x; } >damage
damaged 'a long file' '(5): the table is not 12491 bytes long'
poke() { # OFFSET OCTAL: one byte of a copy of the sample
    cp sample damage
    printf '%b' "\\0$2" | dd of=damage bs=1 seek="$1" conv=notrunc 2>/dev/null
}
poke 0 311
damaged '201 states' '(7): a field of the table is out of its range'
poke $((book_bytes - 1)) 001
damaged 'the last byte' '(7): '
poke 202 001
damaged 'a transition too few' '(7): '
poke 2 000
damaged 'nothing approved' '(10): some state of the table has no approved tree'
poke $((head_bytes + line_bytes - 1)) 002
damaged 'a state without trees' '(9): some state of the table has no tree'
rm damage kept

# A link is followed, and so is one to a link in another folder.
mkdir inner
cp sample inner/target
ln -s target inner/first
ln -s inner/first front
run 'through links' 0 '1 done 2 3
end 1 2 3' front '(add (5))'
equal 'the links stay' "$(readlink front) $(readlink inner/first)" 'inner/first target'
run 'what it leads to' 0 '1 approved
end 1 2 3' inner/target '(ask (5))'
(cd / && "$host" "$folder/work/sample" '(ask (1 (1) (1)))') >"$folder/out" 2>"$folder/err"
equal 'a whole path' "$? $(head -n 1 "$folder/out")" '0 1 approved'
name=$(printf '%255s' x | tr ' ' x)
run 'the longest name' 0 '1 done 1 1
end 1 1 1' --new "$name" '(add (5))'
run 'a name too long' 3 '' --new "x$name"
holds 'nothing beside them' "$name" front inner inner/first inner/target sample

if can_change_user; then
    mkdir -m 711 shut
    cp sample shut/book
    run 'a folder that is only searched' 0 '' -q shut/book '(ask (1 (1) (1)))'
    as_nobody "$host" shut/book '(ask (1 (1) (1)))' >"$folder/out" 2>"$folder/err"
    equal 'asked by another user' "$? $(head -n 1 "$folder/out")" '0 1 approved'
    chmod 600 shut/book
    as_nobody "$host" shut/book '(ask (1))' >"$folder/out" 2>"$folder/err"
    equal 'a private book' "$? $(cat "$folder/out")" '3 '
    told 'a private book' 'cannot open shut/book: Permission denied'
else
    skip 'folders and books of another user: needs root and setpriv'
fi
report
