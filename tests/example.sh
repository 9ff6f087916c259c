#!/bin/sh
# The program in the comment of include/scalebench.h compiles as it stands there and prints what the comment says; the
# header compiles in C++ without a warning, if there is a compiler for it.
set -u
cd "$(dirname "$0")/.." || exit 2
tools/prove scalebench || exit 1
mkdir -p target/tests
example=target/tests/example
passed=0
sed -n '/^ \* A whole program/,/^ \*\/$/s/^ \*     //p' include/scalebench.h >$example.c
want=$(sed -n 's/^ \* A whole program. It prints "\(.*\)"\.$/\1/p' include/scalebench.h)
gcc -std=c11 -O2 -Wall -Wextra -Werror -pedantic -Iinclude -o $example $example.c \
    target/staticlib/libscalebench.a || exit 1
got=$($example) || exit 1
if [ -z "$want" ] || [ "$got" != "$want" ]; then
    echo "prints '$got', the comment says '$want'"
    echo "0 passed, 1 failed"
    exit 1
fi
passed=$((passed + 1))

if command -v g++ >/dev/null; then
    cp $example.c $example.cc
    if ! g++ -Wall -Wextra -Wpedantic -Wconversion -Wsign-conversion -Wold-style-cast -Wuseless-cast -Werror \
        -Iinclude -o $example-cc $example.cc target/staticlib/libscalebench.a || [ "$($example-cc)" != "$want" ]; then
        echo "$passed passed, 1 failed"
        exit 1
    fi
    passed=$((passed + 1))
else
    echo 'skipped: no C++ compiler'
fi
echo "$passed passed, 0 failed"
