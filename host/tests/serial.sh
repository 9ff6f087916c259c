#!/bin/sh
# --number, --tree and --list: the number of an assembly, the assembly that has a number, and all of them in a row.
# shellcheck source=host/tests/checks
. "$(dirname "$0")/checks"

printf '(add (%s))\n' '1 (1) (1)' '1 (1) (2)' '1 (2) (1)' '1 (2) (2)' '2 (1) (2)' 7 | "$host" -q --batch --new book
cp book kept
chmod 444 book
all='(7)
(1 (1) (1))
(1 (1) (2))
(1 (2) (1))
(1 (2) (2))
(2 (1) (2))'
number=0
printf '%s\n' "$all" >../all
while read -r tree; do
    run "the assembly of $number" 0 "$tree" --tree $number book
    run "the number of $tree" 0 $number --number "$tree" book
    number=$((number + 1))
done <../all
equal 'six assemblies' $number 6
run 'a list' 0 "$(printf '%s\n' "$all" | sed 's/.*/(add &)/')" --list book
equal 'a list: nothing is told' "$(cat "$folder/err")" ''
for number in 6 18446744073709551615; do
    run "the number $number" 6 'refused 19' --tree $number book
    told "the number $number" 'scalebench: the number is not below the number of approved trees'
done
run 'leading zeros' 0 '(1 (1) (1))' --tree 00000000000000000000001 book

run 'not approved' 1 'not 3' --number '(1 (1) (3))' book
told 'not approved' 'scalebench: not approved: node 3, label 3, under 1'
run 'a part' 1 'not part' --number '(1)' book
told 'a part' 'scalebench: not approved: part of an approved assembly'
run 'label 0' 6 'refused 2' --number '(0)' book
told 'label 0' 'scalebench: both bytes of a label are 0'
malformed() { # TREE COLUMN
    run "malformed: $1" 6 "form $2" --number "$1" book
    told "malformed: $1" "not an assembly in brackets from column $2 on"
}
malformed '' 1
malformed 7 1
malformed '(7' 3
malformed '(7))' 4
malformed '(7) ' 4
malformed '(7))))' 4
malformed '(7) (7)' 4
malformed ')' 1
malformed '(65536)' 6
malformed '(655350)' 7
malformed '(1 (1)' 7
malformed '(1 (2) )' 8
malformed "$(printf '%506s' x)" 1
run 'long' 6 'long' --number "$(printf '%507s' x)" book
told 'long' 'above 506 bytes'
run 'very long' 6 'long' --number "$(printf '%99999s' x)" book

run 'quiet: a number' 0 '' -q --number '(7)' book
run 'quiet: not approved' 1 '' -q --number '(1)' book
run 'quiet: a tree' 0 '' -q --tree 0 book
run 'quiet: no tree' 6 '' -q --tree 6 book
run 'quiet: a list' 0 '' -q --list book
run 'quiet: malformed' 6 '' -q --number '(7' book
equal 'quiet: malformed, nothing is told' "$(cat "$folder/err")" ''
run 'a number, no book' 3 '' --number '(7)' none
told 'a number, no book' 'cannot open none'
run 'a tree, no book' 3 '' --tree 0 none
run 'a list, no book' 3 '' --list none
head -c $((book_bytes - 1)) book >short
run 'a damaged book' 3 '' --list short
told 'a damaged book' 'cannot use short: it is damaged (5)'
rm short
same 'the book is left' book kept
rm -f kept

"$host" --new empty </dev/null >/dev/null
run 'the list of an empty book' 0 '' --list empty
run 'a tree of an empty book' 6 'refused 19' --tree 0 empty
run 'a number of an empty book' 1 'not 1' --number '(1)' empty

# More assemblies than there are numbers; in the second book the leaves are approved too.
squares 6 >over
{
    bytes 7 1
    tail -c +3 over
} >leaves
run 'a list of too many' 6 'refused 18' --list over
told 'a list of too many' 'more than 18446744073709551615 trees are approved, so they have no numbers'
run 'a tree of too many' 6 'refused 18' --tree 0 over
run 'a number of too many' 6 'refused 18' --number '(1)' leaves
run 'not one of too many' 1 'not part' --number '(1)' over

# Assemblies of more than 48 modules: chains of 1 to 60 modules, and one assembly of 2^200 - 1.
chains() { # PLACES STATES CLASS: each state under the next at so many places; the last is approved, others by CLASS
    awk -v places="$1" -v states="$2" -v class="$3" 'BEGIN {
        printf "%d", states
        for (q = 1; q <= 200; q++) printf " %d", q < states ? class : q == states
        printf " 0 %d 0 1 0 0 0 0 0 0 0 0 0 1", states
        for (q = 1; q < states; q++) {
            printf " 0 1 %d", places
            for (k = 1; k <= 8; k++) printf " %d", k <= places ? q : 0
            printf " %d", q + 1
        }
    }' >../numbers
    # shellcheck disable=SC2046 # the bytes are words
    bytes $(cat ../numbers)
    zeros $((book_bytes - head_bytes - line_bytes * $2))
}
chains 1 60 1 >sixty
run 'the last that fits' 0 "$(awk 'BEGIN { for (i = 0; i < 47; i++) printf "(1 "; printf "(1"
    for (i = 0; i < 48; i++) printf ")" }')" --tree 47 sixty
run 'the first that does not fit' 6 'refused 20' --tree 48 sixty
told 'the first that does not fit' 'scalebench: the tree has more than 48 nodes'
"$host" --list sixty >../out 2>../err
equal 'a list with a gap' "$? $(wc -l <../out) $(cat ../err)" \
    '6 48 scalebench: numbers 48 to 59: the tree has more than 48 nodes
scalebench: 12 of 60 assemblies are not listed'
chains 2 200 0 >great
run 'one great assembly' 6 'refused 20' --tree 0 great
run 'a list of it' 6 '' --list great
equal 'a list of it: told' "$(cat ../err)" 'scalebench: number 0: the tree has more than 48 nodes
scalebench: 1 of 1 assemblies is not listed'

# 10,000 assemblies, ten leaves for each of four places: listed, and put in again one by one in either order.
# shellcheck disable=SC2046 # the bytes are words
{
    bytes 5 0 0 0 0 1
    zeros 195
    bytes 0 41 $(awk 'BEGIN { for (k = 0; k < 40; k++) print 0, 1 + k, "0 0 0 0 0 0 0 0 0", 1 + int(k / 10) }')
    bytes 0 50 4 1 2 3 4 0 0 0 0 5
    zeros $((book_bytes - head_bytes - line_bytes * 41))
} >many
run 'a book of 10,000' 0 '1 total 10000
end 1 5 41' many '(total)'
began=$(date +%s)
"$host" --list many >../list 2>../err
equal 'a list of 10,000' "$? $(cat ../err)" '0 '
equal 'a list of 10,000: each once' "$(sort -u ../list | wc -l) $(wc -l <../list)" '10000 10000'
equal 'a list of 10,000: its ends' "$(sed -n '1p;$p' ../list)" '(add (50 (1) (11) (21) (31)))
(add (50 (10) (20) (30) (40)))'
equal 'a list of 10,000: in its middle' "$(sed -n 1235p ../list)" '(add (50 (2) (13) (24) (35)))'
run 'a number in its middle' 0 1234 --number '(50 (2) (13) (24) (35))' many
run 'a tree in its middle' 0 '(50 (2) (13) (24) (35))' --tree 1234 many
for order in cat tac; do
    $order ../list | "$host" --batch --new copy >../out 2>../err
    equal "10,000 put in again, $order" "$? $(cat ../out ../err)" '0 end 10000 5 41'
    same "the same book, $order" copy many
    rm copy
done
echo "10,000 assemblies listed and put in again twice: $(($(date +%s) - began)) s"
"$TESTS/terminal" "$host" --list many >../out
if [ $? -eq 77 ]; then
    skip 'the count at a terminal: there is none'
else
    equal 'the count at a terminal' "$(tr '\r' '\n' <../out | sed -n '2p;$p')" 'scalebench: 1000 of 10000 assemblies
scalebench: 10000 of 10000 assemblies'
    "$TESTS/terminal" "$host" -q --list many >../out
    equal 'quiet at a terminal' "$(cat ../out)" ''
fi
if [ -c /dev/full ]; then
    "$host" --list many >/dev/full 2>../err
    equal 'a list that cannot be written' $? 5
    told 'a list that cannot be written' 'cannot write the output'
    "$host" --tree 5 many >/dev/full 2>../err
    equal 'a tree that cannot be written' $? 5
    "$host" --number '(50 (1) (11) (21) (31))' many >/dev/full 2>../err
    equal 'a number that cannot be written' $? 5
fi
report
