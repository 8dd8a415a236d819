#!/bin/sh
# Whether docs/HEADLINE.md and the pages that it names are what tests/headline.py writes of the definitions as they are.
set -eu

cd "$(dirname "$0")/.."
if ! command -v python3 >/dev/null; then
    echo "skipped docs/HEADLINE.md: no python3"
    exit 0
fi
if python3 tests/headline.py --check; then
    echo "ok docs/HEADLINE.md"
else
    echo "not ok docs/HEADLINE.md"
    exit 1
fi
