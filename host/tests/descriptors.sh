#!/bin/sh
# Descriptors 0 to 2 closed: nothing that is printed gets into a file that the host opens.
# shellcheck source=host/tests/checks
. "$(dirname "$0")/checks"

"$host" --new sample '(add (1))' >/dev/null
try() { # WHAT WANT: after a run with some descriptors closed
    equal "$1" "$(cat ../status)" "$2"
    equal "$1: the book" "$("$host" --check book)" 'book is sound: 1 state, 2 transitions'
    holds "$1: nothing beside" book sample
    cp sample book
}
cp sample book
input </dev/null
(exec <&- && "$host" book '(add (2))' >../out 2>../err; echo $? >../status)
try 'no input, a command' 0
(exec >&- && "$host" book '(add (2))' 2>../err; echo $? >../status)
try 'no output' 5
told 'no output' 'cannot write the output: Bad file descriptor'
(exec >&- && "$host" -q book '(add (2))' 2>../err; echo $? >../status)
try 'no output, quiet' 0
(exec 2>&- && "$host" book '(add (2))' >../out; echo $? >../status)
try 'no messages' 0
(exec <&- >&- && "$host" book '(add (2))' 2>../err; echo $? >../status)
try 'neither input nor output' 5
(exec <&- >&- 2>&- && "$host" book '(add (2))'; echo $? >../status)
try 'none at all' 5
(exec <&- >&- 2>&- && "$host" -q book '(add (2))'; echo $? >../status)
try 'none at all, quiet' 0
(exec <&- && "$host" book >../out 2>../err; echo $? >../status)
told 'no input, lines' 'cannot read the input: Bad file descriptor'
equal 'no input, lines' "$(cat ../status ../out)" '5
end 0 1 1'
same 'no input, lines: left' book sample
(exec <&- >&- 2>&- && "$host" --backup copy book; echo $? >../status)
equal 'a copy' "$(cat ../status)" 0
same 'a copy: whole' copy book
report
