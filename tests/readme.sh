#!/bin/sh
# The examples of README run as they stand there: the lines for the bench program with what they print, and the commands
# for the host, one after another.
set -u
cd "$(dirname "$0")/.." || exit 2
root=$PWD
folder=$(mktemp -d) || exit 2
trap 'rm -rf "$folder"' EXIT
passed=0
failed=0

# equal WHAT GOT WANT
equal() {
    if [ "$2" = "$3" ]; then
        passed=$((passed + 1))
    else
        failed=$((failed + 1))
        printf '%s: got\n%s\nwant\n%s\n' "$1" "$2" "$3"
    fi
}

# section TITLE: the indented lines of a section, without what indents them
section() { sed -n "/^## $1\$/,/^## /s/^    //p" README.md; }

# Lines on the left, and from column 37 on what is printed for them; a sample ends with the last line that is printed.
section Run | awk -v folder="$folder" '
    BEGIN { sample = 1 }
    length > 36 && substr($0, 35, 2) == "  " {
        line = substr($0, 1, 36)
        sub(/ *$/, "", line)
        if (line != "") print line >(folder "/" sample ".in")
        print substr($0, 37) >(folder "/" sample ".out")
        if (substr($0, 37) ~ /^end /) sample++
    }'
for sample in 1 2; do
    equal "sample $sample" "$(./bench <"$folder/$sample.in")" "$(cat "$folder/$sample.out")"
done
equal 'two samples' "$(find "$folder" -name '*.out' | wc -l)" 2
equal 'the first is the file named' "$(cat "$folder/1.in")" "$(cat crates/bench/stdin)"
equal 'the second is the file named' "$(cat "$folder/2.in")" "$(cat tests/bench/modules.in)"

# The host is built here and tried in an empty folder.
ln -s "$root/target" "$folder/target"
section 'Keep a book' >"$folder/commands"
commands=0
while IFS= read -r command; do
    [ -n "$command" ] || continue
    commands=$((commands + 1))
    place=$folder
    [ "$command" != host/build ] || place=$root
    (cd "$place" && eval "$command") </dev/null >"$folder/out" 2>"$folder/err"
    equal "$command" "$? $(cat "$folder/err")" '0 '
    # An option with its values, without the path, the book and the comment.
    case $(expr "$command" : '[^ ]* \(--[a-z]*.*\) approved.book') in
    "--number '(7)'") equal 'its number' "$(cat "$folder/out")" 0 ;;
    '--tree 0') equal 'its assembly' "$(cat "$folder/out")" '(7)' ;;
    --list) equal 'all assemblies' "$(grep -c '^(add ' "$folder/out")" 3 ;;
    '--list 1 2') equal 'two of them' "$(grep -c '^(add ' "$folder/out")" 2 ;;
    esac
done <"$folder/commands"
equal 'commands' "$([ $commands -ge 12 ] && echo enough)" enough
cmp -s "$folder/copy.book" "$folder/approved.book"
equal 'the copy is the book' $? 0
equal 'the old book' "$("$folder/target/host/scalebench" --check "$folder/new.book" | sed 's/.* is //')" \
    'sound: 0 states, 0 transitions'
equal 'help is where README says' "$(target/host/scalebench --help | head -c 17)" 'usage: scalebench'

echo "$passed passed, $failed failed"
[ "$failed" -eq 0 ]
