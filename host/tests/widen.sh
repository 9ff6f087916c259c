#!/bin/sh
# --widen: a book with labels of one byte becomes one with labels of two. The second implementation's reader of old
# books makes the old ones, answers for them and says what is wrong with damaged ones.
# shellcheck source=host/tests/checks
. "$(dirname "$0")/checks"
old_bytes=11467
old_reader() { "$TESTS/old" "$@" 2>"$folder/err"; }

# Old books: of no assembly; the modules of README; every label that had one byte; all choices of eight children; mixed.
: >../none
printf '(add (10 (20 (30))))\n(add (10 (21 (31))))\n' >../modules
awk 'BEGIN {
    for (k = 1; k <= 255; k++) printf "(add (%d))\n", k
    for (k = 1; k <= 255; k += 2) printf "(add (%d (%d)))\n", 256 - k, k
}' >../labels
awk 'BEGIN {
    for (bits = 0; bits < 256; bits++) {
        printf "(add (200"
        for (k = 1; k <= 128; k *= 2) printf " (%d)", 250 + int(bits / k) % 2
        print "))"
    }
    print "(add (255 (250)))"
}' >../family
awk 'BEGIN {
    for (k = 1; k <= 150; k++)
        printf "(add (%d (%d (%d)) (%d)))\n", 1 + k * 7 % 250, 1 + k * 11 % 9, 1 + k % 4, 250 - k * 3 % 5
}' >../mixed

# widened NAME SUM SIZE: the old book of these lines, whose sum is that of the file that version 0.5.0 leaves, and the
# new one of it: the same set in the same order, the same answers, and the book that these lines make today.
widened() {
    old_reader make <"../$1" >"$1"
    equal "$1: as version 0.5.0 leaves it" "$? $(cksum <"$1")" "0 $2 $old_bytes"
    cp "$1" ../kept
    run "$1: widened" 0 '' --widen "$1" "$1.new"
    equal "$1: widened, nothing is told" "$(cat "$folder/err")" ''
    same "$1: the old book is left" "$1" ../kept
    equal "$1: the new one" "$(wc -c <"$1.new") $(stat -c %a "$1.new")" "$book_bytes 600"
    run "$1: its size" 0 "$1.new is sound: $3" --check "$1.new"
    "$host" --batch --new afresh <"../$1" >/dev/null
    same "$1: as made today" "$1.new" afresh
    rm afresh
    old_reader list "$1" >../want
    equal "$1: read as an old one" $? 0
    run "$1: the same assemblies" 0 "$(cat ../want)" --list "$1.new"
    sort "../$1" >../lines
    sort ../want | cmp -s - ../lines
    equal "$1: those that were put in" $? 0
    # All assemblies, each with another label at the top and in the last leaf, as the top alone and with one more child;
    # and the total.
    {
        sed 's/^(add/(ask/' ../want
        sed 's/^(add (\([0-9]*\)/(ask (1\1/' ../want
        sed 's/^(add/(ask/; s/\(.*\)(\([0-9]*\))/\1(1\2)/' ../want
        sed 's/^(add (\([0-9]*\).*/(ask (\1))/' ../want
        sed 's/^(add \(.*\)))$/(ask \1 (65535)))/' ../want
        printf '(ask (%s))\n' 1 255 256 257 '1 (255)' '256 (1)' 65535
        echo '(total)'
    } >../questions
    old_reader answer "$1" <../questions >../want
    equal "$1: answers of the old one" $? 0
    equal "$1: the same answers" "$("$host" "$1.new" <../questions 2>/dev/null | sed '$d')" "$(cat ../want)"
    rm "$1.new"
}
widened none 1773763118 '0 states, 0 transitions'
widened modules 12810189 '4 states, 5 transitions'
widened labels 3320635845 '129 states, 383 transitions'
widened family 675654734 '3 states, 259 transitions'
widened mixed 1765900693 '46 states, 195 transitions'

# An old book is named as one, and nothing else is done with it.
words='a book of the old width, with labels of one byte (--widen makes a new one of it)'
cp modules ../kept
for command in '(ask (10))' '(add (10))' '(total)'; do
    run "an old book: $command" 3 '' modules "$command"
    told "an old book: $command" "scalebench: cannot use modules: it is $words"
done
run 'an old book: a batch' 3 '' --batch modules
run 'an old book: begun' 3 '' --new modules
run 'an old book: a dry run' 3 '' --dry-run modules '(add (10))'
run 'an old book: a copy' 3 '' --backup copy modules
run 'an old book: a list' 3 '' --list modules
run 'an old book: a tree' 3 '' --tree 0 modules
run 'an old book: a number' 3 '' --number '(10)' modules
told 'an old book: a number' "cannot use modules: it is $words"
run 'an old book: a check' 3 "modules is $words" --check modules
equal 'an old book: a check has no message' "$(cat "$folder/err")" ''
run 'an old book: a quiet check' 3 '' --check -q modules
same 'an old book: left' modules ../kept
holds 'an old book: nothing beside' none modules labels family mixed

# What is no old book.
refused() { # WHAT TEXT: OLD is the file `bad`
    cp bad ../kept
    run "$1" 3 '' --widen bad new
    told "$1" "$2"
    same "$1: left" bad ../kept
    holds "$1: nothing is made" none modules labels family mixed bad
}
run 'no old book' 3 '' --widen nothing new
told 'no old book' 'cannot open nothing: No such file or directory'
run 'a folder' 3 '' --widen . new
told 'a folder' 'cannot open .: it is not a file'
mkfifo pipe
run 'a pipe' 3 '' --widen pipe new
rm pipe
"$host" --batch --new bad <../modules >/dev/null
refused 'a book of this width' 'cannot widen bad: it is not 11467 bytes long, as books of the old width are'
for length in 0 1 203 11466; do
    head -c $length modules >bad
    refused "$length bytes" 'it is not 11467 bytes long'
done
{ cat modules; zeros 1; } >bad
refused 'a byte too many' 'it is not 11467 bytes long'
poke() { # OFFSET BYTE: one byte of a copy of the old book of the modules
    cp modules bad
    bytes "$2" | dd of=bad bs=1 seek="$1" conv=notrunc 2>/dev/null
}
poke 203 0
refused 'a label 0' 'cannot widen bad: it is damaged (7): a field of the table is out of its range'
poke 11466 1
refused 'the last byte' 'cannot widen bad: it is damaged (7): '
poke 203 32
refused 'labels that fall' 'cannot widen bad: it is damaged (8): '
poke 4 0
refused 'nothing approved' 'cannot widen bad: it is damaged (10): '
poke 213 2
refused 'a state without trees' 'cannot widen bad: it is damaged (9): '
{
    bytes 2 0 1
    zeros 198
    bytes 0 3 1 0 0 0 0 0 0 0 0 0 1 2 1 1 0 0 0 0 0 0 0 2 2 1 2 0 0 0 0 0 0 0 2
    zeros $((old_bytes - 203 - 3 * 11))
} >bad
refused 'a loop' 'cannot widen bad: it is damaged (11): '

# Bytes changed one at a time: widened exactly if the old reader takes the book, else refused by the same number.
taken=0
numbers=
for offset in 0 1 2 4 5 200 201 202 203 204 205 213 214 215 224 225 226 227 235 236 237 238 246 247 248 257 258 300; do
    for byte in 0 1 2 3 4 5 20 30 32 255; do
        poke $offset $byte
        if old_reader list bad >/dev/null; then
            taken=$((taken + 1))
            "$host" --widen bad new 2>/dev/null
            equal "byte $offset is $byte" "$? $("$host" --list new)" "0 $(old_reader list bad)"
            rm -f new
        else
            number=$(sed -n 's/^old: bad: refused //p' "$folder/err")
            numbers="$numbers $number"
            run "byte $offset is $byte" 3 '' --widen bad new
            told "byte $offset is $byte" "cannot widen bad: it is damaged ($number): "
        fi
    done
done
equal 'both were met' "$([ $taken -gt 9 ] && echo "$numbers" | tr ' ' '\n' | sort -nu | tr '\n' ' ')" ' 7 8 9 10 12 13 '
rm bad

# Where the new book may not stand.
cp family there
cp modules ../kept
run 'a file that exists' 5 '' --widen modules there
told 'a file that exists' 'cannot widen to there: it exists already'
same 'a file that exists: left' there family
run 'the old book itself' 5 '' --widen modules modules
same 'the old book itself: left' modules ../kept
ln -s nothing link
run 'a link to nothing' 5 '' --widen modules link
run 'a folder that exists' 5 '' --widen modules .
run 'no such folder' 5 '' --widen modules nowhere/new
(ulimit -f 8 && exec "$host" --widen modules new >../out 2>../err)
equal 'no room' "$? $(cat ../out)" '5 '
told 'no room' 'cannot widen to new: File too large'
holds 'nothing is made' none modules labels family mixed there link
rm there link

# Links are followed, names are shown, closed descriptors do no harm, and what a killed host left is removed.
ln -s modules link
chmod 444 modules
head -c 100 family >.scalebench-0123456789abcdef0123456789abcdef
run 'through a link, of a book that nobody may write' 0 '' -q --widen link new
(exec <&- >&- 2>&- && "$host" --widen modules second)
equal 'no descriptors' $? 0
same 'no descriptors: whole' new second
holds 'the strays are gone' none modules labels family mixed link new second
run 'and changed' 0 '1 done 5 7
end 1 5 7' new '(add (65535 (20 (30))))'
if can_change_user; then
    chmod 600 mixed
    chmod 777 .
    as_nobody "$host" --widen mixed third 2>../err
    equal 'an old book of another user' $? 3
    told 'an old book of another user' 'cannot open mixed: Permission denied'
    as_nobody "$host" --widen modules third 2>../err
    equal 'made by another user' "$? $(mode third)" '0 600 65534 65534'
else
    skip 'old books of another user: needs root and setpriv'
fi
report
