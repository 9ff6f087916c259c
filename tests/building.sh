#!/bin/sh
# What builds the library and the bench program: it builds again if a source is newer, shows how far the proof is, and
# reports in its own name what fails. A copy of the scripts stands beside a prover that only pretends.
set -u
cd "$(dirname "$0")/.." || exit 2
tools/prove bench && tools/prove scalebench || exit 1
repository=$PWD
folder=$(mktemp -d) || exit 2
trap 'rm -rf "$folder"' EXIT
passed=0
failed=0

# equal WHAT GOT WANT
equal() {
    if [ "$2" = "$3" ]; then
        passed=$((passed + 1))
    else
        failed=$((failed + 1))
        printf '%s: got\n%s\nwant\n%s\n' "$1" "$2" "$3"
    fi
}

mkdir -p "$folder/tree/tools" "$folder/bin" "$folder/elsewhere"
for crate in low scalebench bench other; do mkdir -p "$folder/tree/crates/$crate/src"; done
cp bench "$folder/tree/"
cp tools/prove "$folder/tree/tools/"
cp -R host include "$folder/tree/"
cat >"$folder/tree/crates.txt" <<'CRATES'
# Three of these are needed for the bench program, two for the library.
low:    # the lowest
scalebench staticlib: low
bench: scalebench io
other: low
CRATES
echo source >"$folder/tree/crates/low/src/lib.rt"
cat >"$folder/bin/rt" <<'PROVER'
#!/bin/sh
# The steps that it is asked for are noted in the file `steps`. What they make stands in out/.
crate=$(basename "$PWD")
echo "$crate:$*" >>../../../steps
[ ! -e ../../../broken ] || { echo 'low is NOT PROVED'; exit 1; }
mkdir -p out
[ "$crate" != bench ] || cp "$REAL/target/bin/bench" out/
[ "$crate" != scalebench ] || cp "$REAL/target/staticlib/libscalebench.a" out/
PROVER
chmod +x "$folder/bin/rt"
REAL=$repository
export REAL
real_path=$PATH
cd "$folder/elsewhere" || exit 2
tree=$folder/tree
steps() { # how often the prover ran since the last time
    [ ! -e "$folder/steps" ] || tr '\n' ' ' <"$folder/steps"
    rm -f "$folder/steps"
}

# Without a prover.
mkdir "$folder/tools"
for tool in awk basename cat cp dirname env find grep head mkdir printf readlink rm sed sh tail touch tr wc; do
    found=$(command -v $tool) && case $found in /*) ln -s "$found" "$folder/tools/$tool" ;; esac
done
env PATH="$folder/tools" "$tree/bench" </dev/null >out 2>err
equal 'no prover' "$? $(cat out err)" '1 bench: cannot prove and build it: rt is not on the path'
PATH=$folder/bin:$real_path

# The first run, through a symbolic link.
ln -s ../tree/bench link
ln -s "$PWD/link" second
echo '(ask (1))' | ./second >out 2>err
equal 'the first run' "$? $(cat out)" '0 1 not 1
end 1 0 0'
equal 'how far it is' "$(grep -c 'bench: [123] of 3 crates proved' err)" 3
equal 'the first run proves' "$(steps)" 'low:lib scalebench:lib bench:run '
"$tree/bench" </dev/null >out 2>err
equal 'the second run' "$? $(cat out err) $(steps)" '0 end 0 0 0 '
sleep 0.01
echo more >>"$tree/crates/low/src/lib.rt"
"$tree/bench" </dev/null >out 2>err
equal 'after an edit' "$? $(cat out) $(steps)" '0 end 0 0 0 low:lib scalebench:lib bench:run '
"$tree/bench" </dev/null >out 2>err
equal 'built again' "$(cat out err) $(steps)" 'end 0 0 0 '
touch "$folder/broken"
rm -f "$tree/target/bin/bench"
"$tree/bench" </dev/null >out 2>err
equal 'a proof that fails' "$? $(cat out) $(grep -c 'NOT PROVED' err) $(steps)" '1  1 low:lib '
equal 'a proof that fails, in words' "$(sed -n 's/; .*//;$p' err)" 'bench: not proved (rt lib in crates/low: exit 1)'
rm "$folder/broken"
"$tree/bench" </dev/null >out 2>err
steps >/dev/null

for option in -h --help; do
    "$tree/bench" $option >out 2>err
    equal "$option" "$? $(head -n 1 out) $(awk 'length > 80' out err)" '0 usage: bench <INPUT '
done
"$tree/bench" --verbose </dev/null >out 2>err
equal 'an unknown argument' "$? $(cat out err)" '2 bench: unknown argument: --verbose (--help shows how to use it)'

# What the program reports becomes a status.
"$tree/bench" <. >out 2>err
equal 'reading that fails' "$? $(cat out) $(grep -c '^bench: read: ' err)" '1 end 0 0 0 1'
if [ -c /dev/full ]; then
    echo '(ask (1))' | "$tree/bench" 2>err >/dev/full
    equal 'writing that fails' "$? $(grep -c '^bench: write: ' err)" '1 1'
fi

# The library, for the host and by itself.
"$tree/tools/prove" scalebench 2>err
equal 'the library' "$? $(grep -c 'scalebench: [12] of 2 crates proved' err) $(steps)" '0 2 low:lib scalebench:lib '
"$tree/host/build" 2>err
equal 'the host' "$? $(cat err) $(steps)" '0  '
sleep 0.01
touch "$tree/crates/low/src/lib.rt"
"$tree/host/build" 2>err
equal 'the host after an edit' "$? $(steps)" '0 low:lib scalebench:lib '
rm "$tree/crates/low/src/lib.rt"
"$tree/host/build" 2>err
equal 'the host after a source is gone' "$? $(steps)" '0 low:lib scalebench:lib '
"$tree/target/host/scalebench" --version >out
equal 'the host runs' $? 0
"$tree/tools/prove" 2>err
equal 'nothing to prove' $? 2

echo "$passed passed, $failed failed"
[ "$failed" -eq 0 ]
