#!/bin/sh
# Prints the table of docs/GATE.md: lines by crate, and edits that must fail. Run anywhere:
#
#     bench/gate_lines.sh
#
# Lines count comments, empty lines and what contracts take. Tests are src/tests.rt, src/tests/, files whose names end in tests.rt,
# and the crates whose names end in _tests. Laws are the lines of definitions in files whose names end in Laws or Spellings. A standard
# input of known answers counts for nothing.
set -eu
cd "$(dirname "$0")/.."

# The lines of the files of the folder $1 that the further words of `find` choose.
lines() {
    folder=$1
    shift
    if [ -d "$folder" ]; then
        find "$folder" -type f "$@" -exec cat {} + | wc -l
    else
        echo 0
    fi
}

# The number $1 with a comma before its last three digits.
grouped() {
    echo "$1" | sed -E 's/([0-9])([0-9]{3})$/\1,\2/'
}

echo "| Crate | Code and contracts | Tests | Definitions (of them laws) | Proofs | Edits that must fail |"
echo "|---|---|---|---|---|---|"
sed -n 's/^\([a-z0-9_]*\)\( staticlib\)*:.*/\1/p' crates.txt | while read -r crate; do
    at=crates/$crate
    tests=$(lines "$at/src" -name '*.rt' '(' -name '*tests.rt' -o -path '*/tests/*' -o -path '*_tests/src/*' ')')
    code=$(($(lines "$at/src" -name '*.rt') - tests))
    specs=$(lines "$at/specs" -name '*.antt')
    laws=$(lines "$at/specs" '(' -name '*Laws.antt' -o -name '*Spellings.antt' ')')
    proofs=$(lines "$at/proofs" -name '*.antt')
    edits=$(find "$at" -path '*/must-fail/*.edit' | wc -l)
    echo "| \`$crate\` | $(grouped "$code") | $(grouped "$tests") | $(grouped "$specs") ($(grouped "$laws") laws) | $(grouped "$proofs") | $edits |"
done
