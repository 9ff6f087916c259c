#!/bin/sh
# --list of some numbers, and of more numbers without a listing than anyone waits for. Whole lists are in serial.sh.
# shellcheck source=host/tests/checks
. "$(dirname "$0")/checks"

# Two labels for each of 60 modules one below the other, and the lowest alone: numbers 0 and 1, then 2^60 that no
# listing holds.
# shellcheck disable=SC2046 # the bytes are words
{
    bytes 60 1
    zeros 58
    bytes 1
    zeros 140
    bytes 0 120 $(awk 'BEGIN {
        print "0 1 0 0 0 0 0 0 0 0 0 1 0 2 0 0 0 0 0 0 0 0 0 1"
        for (label = 1; label <= 2; label++)
            for (q = 1; q < 60; q++) print 0, label, 1, q, "0 0 0 0 0 0 0", q + 1
    }')
    zeros $((book_bytes - head_bytes - line_bytes * 120))
} >deep
run 'the book' 0 '1 total 1152921504606846978
end 1 60 120' deep '(total)'
two='(add (1))
(add (2))'
words='the tree has more than 48 nodes'

# A gap is reported while it is passed, and an interrupt loses nothing that was listed. A shell lets what it starts in
# the background ignore some signals; timeout does not, and sends on what it gets. In the foreground it sends it once:
# else the group gets it too, and a second interrupt ends the host before it says how far it came.
reported() { grep -q 'so far' ../err; }
for signal in INT TERM HUP; do
    case $signal in INT) status=130 ;; TERM) status=143 ;; *) status=129 ;; esac
    : >../err
    timeout --foreground --preserve-status 60 "$host" --list deep >../out 2>../err &
    lister=$!
    until_true reported
    kill -$signal $lister
    wait $lister 2>/dev/null
    equal "$signal while it passes a gap" "$? $(cat ../out)" "$status $two"
    equal "$signal: reported before" "$(sed -n 1p ../err)" "scalebench: numbers 2 to 1001 so far: $words"
    told "$signal: how far it came" 'scalebench: interrupted before number '
done
timeout --foreground --preserve-status -s INT 0.3 "$host" -q --list deep >../out 2>../err
equal 'interrupted, quiet' "$? $(cat ../out)" '130 '

# Some numbers.
run 'both that can be listed' 0 "$two" --list 0 1 deep
equal 'both that can be listed: nothing is told' "$(cat ../err)" ''
run 'the second' 0 '(add (2))' --list 1 1 deep
run 'quiet' 0 '' -q --list 0 1 deep
run 'one in the gap' 6 '' --list 2 2 deep
equal 'one in the gap: told' "$(cat ../err)" "scalebench: number 2: $words
scalebench: 1 of 1 assemblies is not listed"
run 'into the gap' 6 '(add (2))' --list 1 9 deep
equal 'into the gap: told' "$(cat ../err)" "scalebench: numbers 2 to 9: $words
scalebench: 8 of 9 assemblies are not listed"
run 'far into the gap' 6 '' --list 2 3001 deep
equal 'far into the gap: told' "$(cat ../err)" "scalebench: numbers 2 to 1001 so far: $words
scalebench: numbers 2 to 3001: $words
scalebench: 3000 of 3000 assemblies are not listed"
none='the number is not below the number of approved trees'
run 'over the end' 6 '' --list 1152921504606846977 18446744073709551615 deep
equal 'over the end: told' "$(cat ../err)" "scalebench: number 1152921504606846977: $words
scalebench: 1 of 1 assemblies is not listed
scalebench: numbers 1152921504606846978 to 18446744073709551615: $none"
"$host" --new book '(add (7))' >/dev/null
run 'beyond the end' 6 '' --list 1 1 book
equal 'beyond the end: told' "$(cat ../err)" "scalebench: number 1: $none"
run 'all and more' 6 '(add (7))' --list 0 5 book
equal 'all and more: told' "$(cat ../err)" "scalebench: numbers 1 to 5: $none"
run 'all' 0 '(add (7))' --list 0 0 book
run 'after the book' 0 '(add (7))' 0 0 book --list
run 'a name like a number' 3 '' --list 5
squares 6 >over
run 'no numbers' 6 'refused 18' --list 0 0 over
if [ -c /dev/full ]; then
    "$host" --list 0 5 book >/dev/full 2>../err
    equal 'a list that cannot be written' $? 5
fi
report
