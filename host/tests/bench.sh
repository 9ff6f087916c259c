#!/bin/sh
# The script `bench`, beside a program that is built already: its command line, and an output that is closed.
# shellcheck source=host/tests/checks
. "$(dirname "$0")/checks"

mkdir -p ../tree/tools ../tree/target/bin
cp "$here/../../bench" ../tree/
printf '#!/bin/sh\n' >../tree/tools/prove
printf '#!/bin/sh\ncat >/dev/null && echo end 0 0 0\n' >../tree/target/bin/bench
chmod 755 ../tree/tools/prove ../tree/target/bin/bench
bench=$folder/tree/bench
closed='bench: write: Bad file descriptor (standard output is closed)'

"$bench" </dev/null >../out 2>../err
equal 'no arguments' "$? $(cat ../out ../err)" '0 end 0 0 0'
for first in '' x -x; do
    "$bench" "$first" x </dev/null >../out 2>../err
    equal "'$first' and x" "$? $(cat ../out ../err)" \
        "2 bench: unknown argument: ${first:-''} (--help shows how to use it)"
    "$bench" "$first" </dev/null >../out 2>../err
    equal "'$first'" "$? $(cat ../out)" '2 '
done
"$bench" --help >../out 2>../err
equal 'help' "$? $(sed -n 1p ../out)" '0 usage: bench <INPUT'
(exec >&- && "$bench" </dev/null 2>../err)
equal 'a closed output' "$? $(cat ../err)" "1 $closed"
(exec >&- && "$bench" --help 2>../err)
equal 'a closed output: help' "$? $(cat ../err)" "1 $closed"
(exec >&- && "$bench" x 2>../err)
equal 'a closed output: a wrong argument' $? 2
(exec >&- 2>&- && "$bench" </dev/null)
equal 'all outputs closed' $? 1
(exec 2>&- && "$bench" </dev/null >../out)
equal 'no messages' "$? $(cat ../out)" '0 end 0 0 0'
report
