#!/bin/sh
# What killed hosts left is looked for before the book is locked, and no more of it than takes little time.
# shellcheck source=host/tests/checks
. "$(dirname "$0")/checks"

"$host" --new ../sample '(add (1))' >/dev/null
cp "$HOST-moments" ../moments
plant() { # COUNT: so many drafts that nobody writes
    awk -v n="$1" 'BEGIN { for (k = 1; k <= n; k++) printf ".scalebench-%032x\n", k }' | xargs touch
}
left() { find . -name '.scalebench-*' | wc -l; }
cp ../sample book

plant 250
CALLS=../calls ../moments -q book '(add (2))'
equal 'many strays: saved' "$? $(left)" '0 150'
equal 'many strays: none is looked at under the lock' \
    "$(sed -n '/^flock book/,/^renameat/p' ../calls | grep -c '^flock draft\|^unlinkat')" 1
equal 'many strays: each is tried before' "$(sed '/^flock book/,$d' ../calls | grep -c '^flock draft')" 100
printf '(add (3))\n(add (4))\n(add (5))\n' | "$host" -q book
equal 'a host looks for them once' "$? $(left)" '0 50'
run 'a copy' 0 '' --backup copy book
equal 'a copy removes them too' "$(left)" 0
rm copy

# Among other files a stray is found.
(mkdir many && cd many && cp ../../sample book && awk 'BEGIN { for (k = 0; k < 500; k++) print k }' | xargs touch)
head -c 100 book >many/.scalebench-0123456789abcdef0123456789abcdef
run 'among other files' 0 '' -q many/book '(add (2))'
equal 'among other files: found' "$(find many -name '.scalebench-*')" ''
rm -r many

# The second name that a host of another user left, who was killed when it began the book.
if [ "$(id -u)" -eq 0 ]; then
    chown 1234 book
    ln book .scalebench-0123456789abcdef0123456789abcdef
    run 'a second name' 0 '' -q book '(add (6))'
    holds 'a second name: removed' book
    ln book .scalebench-0123456789abcdef0123456789abcdef
    ln book other
    run 'a third name' 3 '' -q book '(add (7))'
    told 'a third name' 'it has a second name (hard link)'
    holds 'a third name: left' book other
    rm other
    plant 200
    find . -name '.scalebench-*' -exec chown 1234 {} +
    CALLS=../calls2 ../moments -q book '(add (7))'
    equal 'strays of another user' "$? $(left) $(grep -c '^unlinkat' ../calls2)" '0 200 0'
else
    skip 'a second name that another user left: needs root'
fi
report
