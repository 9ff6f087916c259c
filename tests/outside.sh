#!/bin/sh
# What the archive for C asks of its host: memcpy and memset, and nothing else. A terminal's firmware may have no more.
set -u
cd "$(dirname "$0")/.." || exit 2
tools/prove scalebench || exit 1
asked=$(nm -u target/staticlib/libscalebench.a | awk 'NF == 2 { print $2 }' | sort -u | tr '\n' ' ') || exit 1
if [ "$asked" = 'memcpy memset ' ]; then
    echo "1 passed, 0 failed"
else
    echo "the archive asks its host for: $asked"
    echo "0 passed, 1 failed"
    exit 1
fi
