#!/bin/sh
# Nobody has at any moment of a save a right to the draft that he has not to the book.
# shellcheck source=host/tests/checks
. "$(dirname "$0")/checks"

cp "$HOST-moments" ../moments
"$host" --new ../sample '(add (1))' >/dev/null
fresh() { # MODE, OWNER:GROUP, permissions in the list: user, group, mask, others; none if there is no list
    rm -rf ./* ./.scalebench-* ../calls
    cp ../sample book
    chmod "$1" book
    [ "$(id -u)" -ne 0 ] || chown "$2" book
    [ $# -eq 2 ] || "$TESTS/access" book "$3" "$4" "$5" "$6"
}
# calls WHAT WANT: the calls on the draft after its bytes are written, each with the mode and the list that it leaves
calls() {
    CALLS=../calls ../moments -q book '(add (2))'
    equal "$1: saved" $? 0
    equal "$1: each call" "$(sed -n '/^write draft/,/^renameat/s/ draft / /p' ../calls | sed 's/ *$//')" "$2"
}
us=$(id -u):$(id -g)

fresh 664 "$us"
calls 'no list' 'write 600
fremovexattr 600
fchmod 664
fsync 664'
equal 'no list: kept' "$(stat -c %a book)" 664

if [ "$(id -u)" -eq 0 ]; then # a book that its owner may not read
    fresh 260 "$us"
    calls 'fewer rights than a draft' 'write 600
fchmod 200
fremovexattr 200
fchmod 260
fsync 260'
fi

fresh 600 "$us" 6 0 6 0
lists=$?
if [ $lists -eq 77 ]; then
    skip 'access lists: the file system has none'
else
    equal 'a list for the book' $lists 0
    calls 'a list without rights for the group' 'write 600
fremovexattr 600
fsetxattr 600 66000
fchmod 660 66060
fsync 660 66060'
    fresh 600 "$us" 0 6 7 4
    calls 'a list with a user who is shut out' 'write 600
fremovexattr 600
fsetxattr 600 60600
fchmod 674 60674
fsync 674 60674'
    fresh 600 "$us" 6 4 0 4
    calls 'a list with an empty mask' 'write 600
fremovexattr 600
fsetxattr 600 66400
fchmod 604 66404
fsync 604 66404'
    fresh 640 "$us"
    "$TESTS/access" . 6 6 6 6 default
    calls 'the list of a folder' 'write 600 66600
fremovexattr 600
fchmod 640
fsync 640'
    cd .. && rm -rf work && mkdir work && cd work || exit 2

    # What is set is looked at before the rename.
    for change in 'chmod 660 .scalebench-*' 'chmod 600 book' "$TESTS/access .scalebench-* 6 6 6 0" \
        "$TESTS/access book 6 4 6 0"; do
        fresh 640 "$us" 6 0 4 0
        cp book ../kept
        MOMENT="fsync:1:$change" ../moments -q book '(add (2))' 2>../err
        equal "$change" $? 5
        told "$change" 'line 1: cannot save book: its permissions change meanwhile or cannot be kept'
        same "$change: left" book ../kept
        holds "$change: nothing beside" book
    done
    fresh 640 "$us" 6 0 4 0
    MOMENT='fsetxattr:1:=5' ../moments -q book '(add (2))' 2>../err
    equal 'a list that cannot be set' $? 5
    told 'a list that cannot be set' 'cannot save book: Input/output error'
    holds 'a list that cannot be set: nothing beside' book
fi

# A member of the book's group, who may not write the book, tries to open the draft at each moment; so does an owner.
if can_change_user && [ $lists -ne 77 ]; then
    cat >../try <<'TRY'
#!/bin/sh
for draft in .scalebench-*; do
    setpriv --reuid="$1" --regid="$2" --clear-groups sh -c ': >>"$1"' sh "$draft" 2>/dev/null && echo opened >>../opened
    setpriv --reuid="$1" --regid="$2" --clear-groups sh -c ': <"$1"' sh "$draft" 2>/dev/null && echo read >>../opened
done
true
TRY
    chmod 755 ../try
    # shut WHAT USER GROUP CALL..: the book stands there; nobody gets at its draft before these calls
    shut() {
        what=$1
        user=$2
        group=$3
        shift 3
        cp -a book ../model
        for call in "$@"; do
            cp -a ../model book
            : >../opened
            MOMENT="$call:../try $user $group" ../moments -q book '(add (2))'
            equal "$what, before $call" "$? $(cat ../opened)" '0 '
        done
    }
    steps='fremovexattr:1 fchown:1 fsetxattr:1 fchmod:1 fchmod:2 fsync:1 renameat:1'
    # shellcheck disable=SC2086 # the steps are words
    {
        fresh 660 0:65534 6 0 6 0
        shut 'a member of the group' 65533 65534 $steps
        fresh 660 1234:65534 0 0 6 6
        shut 'a user who is shut out' 12345 12345 $steps
        fresh 060 65533:65534
        shut 'an owner without rights' 65533 65533 $steps
    }
    fresh 660 0:65534 6 6 6 0
    : >../opened
    MOMENT='renameat:1:../try 65533 65534' ../moments -q book '(add (2))'
    equal 'who may write the book gets at its draft' "$(cat ../opened)" 'opened
read'
else
    skip 'a member of the group: needs root, setpriv and access lists'
fi
report
