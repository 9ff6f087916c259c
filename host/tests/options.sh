#!/bin/sh
# The command line, the help, the version, and names in messages.
# shellcheck source=host/tests/checks
. "$(dirname "$0")/checks"

wrong() { # WHAT TEXT ARGUMENTS..
    what=$1
    text=$2
    shift 2
    run "$what" 2 '' "$@"
    told "$what" "$text"
}
wrong 'no arguments' 'no book named'
wrong 'a bad option' 'unknown option: --nwe' --nwe book
wrong 'a bad letter' 'unknown option: -n' -n book
wrong 'letters together' 'unknown option: -qh' -qh book
wrong 'too many arguments' 'too many arguments: (ask (2))' book '(ask (1))' '(ask (2))'
wrong 'options only' 'no book named' --new
wrong 'no seconds' 'a value is missing after --wait' book --wait
wrong 'no number' 'not a number of seconds up to 86400: x' --wait x book
wrong 'a negative number' 'not a number of seconds' --wait -1 book
wrong 'a great number' 'not a number of seconds' --wait 86401 book
wrong 'a greater number' 'not a number of seconds' --wait 99999999999999999999 book
wrong 'no copy named' 'a value is missing after --backup' book --backup
wrong 'check and back up' 'do not go together' --check --backup copy book
wrong 'check with a command' 'take no COMMAND' --check book '(ask (1))'
wrong 'check of a new book' 'change nothing' --check --new book
wrong 'no assembly' 'a value is missing after --number' book --number
wrong 'no serial number' 'a value is missing after --tree' book --tree
for number in '' x 1x -1 +1 ' 1' 0x1 18446744073709551616 99999999999999999999999; do
    wrong "the serial number '$number'" 'not a number up to 18446744073709551615: ' --tree "$number" book
done
wrong 'a number and a tree' 'do not go together' --number '(1)' --tree 0 book
wrong 'no old book' 'a value is missing after --widen' book --widen
wrong 'an old book alone' 'no book named' --widen old
wrong 'widen and back up' 'do not go together' --widen old --backup copy book
wrong 'widen with a command' 'take no COMMAND' --widen old book '(ask (1))'
wrong 'widen to a new book' 'change nothing' --widen old --new book
wrong 'nothing to restore' 'a value is missing after --restore' book --restore
wrong 'no book to restore' 'no book named' --restore copy
wrong 'restore and back up' 'do not go together' --restore copy --backup copy book
wrong 'restore with a command' '--restore takes no COMMAND' --restore copy book '(ask (1))'
wrong 'restore in a dry run' '--restore takes no COMMAND, --batch or --dry-run' --dry-run --restore copy book
wrong 'restore in a batch' '--restore takes no COMMAND, --batch or --dry-run' --batch --restore copy book
wrong 'a list and a check' 'do not go together' --list --check book
wrong 'a tree with a command' 'take no COMMAND' --tree 0 book '(ask (1))'
wrong 'a list of a new book' 'change nothing' --list --new book
wrong 'a list of a batch' 'change nothing' --list --batch book
wrong 'a list from one number' '--list takes FROM and TO or neither' --list 5 book
wrong 'a list that ends before it begins' 'the first number to be listed is above the last: 5' --list 5 4 book
wrong 'a list from no number' 'not a number up to 18446744073709551615: x' --list x 4 book
wrong 'a list to no number' 'not a number up to 18446744073709551615: 18446744073709551616' \
    --list 0 18446744073709551616 book
wrong 'a list of four' 'too many arguments: more' --list 0 4 book more
wrong 'numbers without a list' 'too many arguments: book' 0 4 book
wrong 'a batch with a command' 'takes no COMMAND' --batch book '(ask (1))'
holds 'nothing is begun'

for option in -h --help; do
    "$host" $option >"$folder/out" 2>"$folder/err"
    equal "$option" "$? $(head -c 17 "$folder/out") $(wc -c <"$folder/err")" '0 usage: scalebench 0'
done
equal 'help within 80 columns' "$(awk 'length > 80' "$folder/out")" ''
for word in --new --batch --dry-run --wait --check --backup --restore --number --tree --list --widen \
    --quiet -q --help -h --version; do
    grep -q -- "$word" "$folder/out"
    equal "help names $word" $? 0
done
for status in 0 1 2 3 4 5 6; do
    grep -q "^  $status  " "$folder/out"
    equal "help names status $status" $? 0
done

version=$(sed -n 's/^#define SCALEBENCH_VERSION "\(.*\)"$/\1/p' "$here/../../include/scalebench.h")
run 'the version is the header'"'s" 0 "scalebench $version" --version
equal 'the changes are those of this version' "$(sed -n '/^## /{s/^## //p;q}' "$here/../../CHANGELOG.md")" "$version"

run 'a name like an option' 0 'end 0 0 0' --new -- --book
equal 'its file' "$(wc -c <./--book)" "$book_bytes"

# Names with bytes that a terminal would obey.
name=$(printf 'a\033[31mb\tc\177d\\e')
run 'a name with control bytes' 3 '' "$name"
told 'a name with control bytes' 'cannot open a\x1b[31mb\x09c\x7fd\x5ce: No such file or directory (--new begins'
run 'such an option' 2 '' "--$name"
told 'such an option' 'unknown option: --a\x1b[31mb'
run 'an empty name' 3 '' ''
told 'an empty name' "cannot open ''"
"$host" --new "$name" </dev/null >/dev/null
run 'a check of such a name' 0 'a\x1b[31mb\x09c\x7fd\x5ce is sound: 0 states, 0 transitions' --check "$name"
name=$(printf 'B\303\274ch \302\233 \377')
run 'a name that is not ASCII' 3 '' "$name"
told 'a name that is not ASCII' 'cannot open B\xc3\xbcch \xc2\x9b \xff:'
if locale -a 2>/dev/null | grep -qi '^C\.utf-\?8$'; then
    LC_ALL=C.UTF-8 "$host" "$name" 2>"$folder/err"
    told 'a name in UTF-8' "$(printf 'cannot open B\303\274ch')"' \xc2\x9b \xff:'
    # Each character, in UTF-8: right-to-left override, isolate, mark, zero-width space, joiner, byte order mark, soft
    # hyphen, an accent by itself, a filler, a variation selector, a tag.
    for bytes in '342 200 256' '342 201 246' '342 200 217' '342 200 213' '342 200 215' '357 273 277' '302 255' \
        '314 210' '343 205 244' '357 270 217' '363 240 201 201'; do
        name=$(for byte in $bytes; do printf '%b' "\\0$byte"; done)
        want=$(for byte in $bytes; do printf '\\x%02x' "0$byte"; done)
        LC_ALL=C.UTF-8 "$host" "a${name}b" 2>"$folder/err"
        told "a hidden character in a name: $bytes" "cannot open a${want}b: "
    done
    name=$(printf '\327\251\346\234\254\342\202\254')
    LC_ALL=C.UTF-8 "$host" "$name" 2>"$folder/err"
    told 'letters of other scripts' "cannot open $name: "
else
    skip 'a name in UTF-8: no such locale'
fi
long=$(printf '%100000s' x | tr ' ' '\001')
run 'a very long name' 3 '' "$long"
told 'a very long name' 'cannot open \x01\x01'
report
