#!/bin/sh
# docs/ARCHITECTURE.md is what docs/architecture.sh makes of crates.txt.
set -u
cd "$(dirname "$0")/.." || exit 2
if docs/architecture.sh | cmp -s - docs/ARCHITECTURE.md; then
    echo "1 passed, 0 failed"
else
    echo "docs/ARCHITECTURE.md is not up to date: docs/architecture.sh >docs/ARCHITECTURE.md"
    echo "0 passed, 1 failed"
    exit 1
fi
