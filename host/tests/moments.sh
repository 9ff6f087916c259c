#!/bin/sh
# What may happen within a save: another host comes between two of its steps, or a step fails.
# The commands in single quotes are for the shell of that moment.
# shellcheck disable=SC2016
# shellcheck source=host/tests/checks
. "$(dirname "$0")/checks"

"$host" --new ../sample '(add (1))' >/dev/null
cp "$HOST-moments" ../moments
# at MOMENT WHAT STATUS OUTPUT ARGUMENTS..: as run, but something happens at that moment
at() {
    happens=$1
    what=$2
    status=$3
    want=$4
    shift 4
    MOMENT=$happens HOST=$host ../moments "$@" <../in >../out 2>../err
    equal "$what: status" $? "$status"
    equal "$what: output" "$(cat ../out)" "$want"
}
fresh() {
    rm -rf ./* ./.scalebench-*
    cp ../sample book
}
three='1 done 1 3
end 1 1 3'

# The lock of the book is call 1 of flock, that of the draft call 2.
fresh
at 'flock:1:$HOST -q book "(add (2))"' 'saved before the lock' 0 "$three" book '(add (3))'
fresh
at 'flock:1:$HOST -q book "(add (2))" && sleep 0.1' 'saved before the lock of a batch' 0 'end 0 1 2' --batch book
fresh
at 'flock:1:rm book' 'deleted before the lock' 3 '' book '(add (3))'
told 'deleted before the lock' 'line 1: cannot change book: No such file'
holds 'deleted before the lock: nothing beside'
fresh
at 'flock:2:rm .scalebench-*' 'a draft taken for a stray' 0 '1 done 1 2
end 1 1 2' book '(add (3))'
fresh
at 'flock:1:=37' 'a file system without locks' 3 '' book '(add (3))'
told 'a file system without locks' 'cannot lock book: '
fresh
at 'flock:2:=37' 'no lock for the draft' 5 '' book '(add (3))'
same 'no lock for the draft: left' book ../sample
holds 'no lock for the draft: nothing beside' book

# Nobody else may read a draft before it is whole.
fresh
at 'write:1:stat -c %a .scalebench-* >../modes' 'a draft' 0 '' -q book '(add (3))'
at 'fchmod:1:stat -c %a .scalebench-* >>../modes' 'a written draft' 0 '' -q book '(add (4))'
at 'renameat:1:stat -c %a .scalebench-* >>../modes' 'a whole draft' 0 '' -q book '(add (5))'
equal 'modes of a draft' "$(cat ../modes)" '600
600
644'

# Each step fails: the book stays and nothing is left.
for step in write fchmod fsync renameat; do
    fresh
    at "$step:1:=5" "$step fails" 5 '' book '(add (3))'
    told "$step fails" 'line 1: cannot save book: Input/output error'
    same "$step fails: left" book ../sample
    holds "$step fails: nothing beside" book
done
fresh
at 'write:1:=4' 'an interrupted write' 0 '1 done 1 2
end 1 1 2' book '(add (3))'

# An interrupt within a save waits for the report. A quiet host reports by its status alone.
two='1 done 1 2
end 1 1 2'
for moment in write:1 renameat:1 fsync:2; do
    for signal in INT TERM HUP; do
        fresh
        case $signal in INT) status=130 ;; TERM) status=143 ;; *) status=129 ;; esac
        at "$moment:kill -$signal \$PPID" "$signal at $moment" $status "$two" book '(add (3))'
        holds "$signal at $moment: nothing beside" book
        run "$signal at $moment: saved" 0 '' -q book '(ask (3))'
    done
    fresh
    at "$moment:kill -INT \$PPID" "quiet, an interrupt at $moment" 0 '' -q book '(add (3))'
    run "quiet, an interrupt at $moment: saved" 0 '' -q book '(ask (3))'
    fresh
    printf '(add (3))\n(add (4))\n' | input
    at "$moment:kill -INT \$PPID" "lines, an interrupt at $moment" 130 '1 done 1 2' book
    run "lines, an interrupt at $moment: the first is saved" 0 '' -q book '(ask (3))'
    run "lines, an interrupt at $moment: the second is not made" 1 '' -q book '(ask (4))'
    fresh
    at "$moment:kill -INT \$PPID" "quiet lines, an interrupt at $moment" 130 '' -q book
    run "quiet lines, an interrupt at $moment: the second is not made" 1 '' -q book '(ask (4))'
    fresh
    at "$moment:kill -INT \$PPID" "a batch, an interrupt at $moment" 130 'end 2 1 3' --batch book
    run "a batch, an interrupt at $moment: saved" 0 '' -q book '(ask (4))'
    fresh
    at "$moment:kill -INT \$PPID" "a quiet batch, an interrupt at $moment" 0 '' -q --batch book
    input </dev/null
done
for moment in write:1 renameat2:1 fsync:2; do
    fresh
    at "$moment:kill -INT \$PPID" "a copy, an interrupt at $moment" 0 '' --backup copy book
    same "a copy, an interrupt at $moment: made" copy book
    holds "a copy, an interrupt at $moment: nothing beside" book copy
done
fresh
at 'renameat2:1:kill -INT $PPID' 'a new book, an interrupt' 130 '' --new other '(add (3))'
holds 'a new book, an interrupt: nothing beside' book other
run 'a new book, an interrupt: empty' 0 'other is sound: 0 states, 0 transitions' --check other
fresh
at 'flock:1:kill -TERM $PPID' 'an interrupt before a save' 143 '' book '(add (3))'
same 'an interrupt before a save: left' book ../sample
fresh
at 'renameat:1:kill -KILL $PPID' 'a kill within a save' 137 '' book '(add (3))'
equal 'a kill within a save leaves its draft' "$(find . -name '.scalebench-*' | wc -l)" 1
run 'after it' 0 '1 done 1 2
end 1 1 2' book '(add (3))'
holds 'after it: nothing beside' book

# Two hosts begin one book, also without a rename that leaves what exists.
fresh
at 'renameat2:1:$HOST -q --new other "(add (2))"' 'begun by another' 0 '1 done 1 2
end 1 1 2' --new other '(add (3))'
holds 'begun by another: nothing beside' book other
fresh
at 'renameat2:1:=22' 'a file system without such a rename' 0 '1 done 1 1
end 1 1 1' --new other '(add (3))'
holds 'a file system without such a rename: nothing beside' book other
equal 'its links' "$(stat -c %h other)" 1
fresh
at 'renameat2:1:cp book copy' 'a copy that another program makes first' 5 '' --backup copy book
told 'a copy that another program makes first' 'cannot back up to copy: File exists'
same 'a copy that another program makes first: left' copy book
holds 'a copy that another program makes first: nothing beside' book copy

# So it is with a book that is made of an old one, and each step of that may fail.
fresh
zeros 11467 >old
at 'renameat2:1:cp book new' 'a new book that another program makes first' 5 '' --widen old new
told 'a new book that another program makes first' 'cannot widen to new: File exists'
same 'a new book that another program makes first: left' new book
holds 'a new book that another program makes first: nothing beside' book new old
for step in write fchmod fsync renameat2; do
    fresh
    zeros 11467 >old
    at "$step:1:=5" "widening: $step fails" 5 '' --widen old new
    told "widening: $step fails" 'cannot widen to new: Input/output error'
    holds "widening: $step fails: nothing beside" book old
done
fresh
zeros 11467 >old
at 'renameat2:1:=22' 'widening without such a rename' 0 '' --widen old new
run 'widening without such a rename: made' 0 'new is sound: 0 states, 0 transitions' --check new
holds 'widening without such a rename: nothing beside' book old new
report
