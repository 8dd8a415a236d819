#!/bin/sh
# Runs the built program again and again, and refuses it another request for memory each time, the first, the second and so on. Each
# run has to write `error: Memory` and end with 7, until one has all its memory: that one has to answer as the program does.
# (Before the program has its words it has nothing to write on: then it only ends with 7.) Prints `ok NAME` or `not ok NAME` for each
# input, and ends with 1 where a run ended otherwise.
set -eu

home=$(cd "$(dirname "$0")/.." && pwd)
# shellcheck source=tests/shared/building.sh
. "$home/tests/shared/building.sh"
# shellcheck source=tests/shared/fail_alloc.sh
. "$home/tests/shared/fail_alloc.sh"
work=$(mktemp -d)
trap 'rm -rf "$work"' EXIT
make_fail_alloc || exit 0
build transfer_app
failed=0
printf 'error: Memory\n' >"$work/memory"

# Puts the input of the case $2 of tests/vectors/$1 into the file input.
input_of() {
    awk -F '|' -v name="$2" '$1 == name { print $3 }' "$home/tests/vectors/$1" >"$work/field"
    [ -s "$work/field" ] || exit 1
    printf '%b' "$(cat "$work/field")" >"$work/input"
}

# Runs the program with the further words, the request $1 refused.
refused() {
    number=$1
    shift
    code=0
    FAIL_ALLOC=$number LD_PRELOAD=$work/fail_alloc.so "$program" "$@" <"$work/input" >"$work/found" || code=$?
}

# Each request of the program with the words behind $1 is refused in turn.
each_refused() {
    name=$1
    shift
    "$program" "$@" <"$work/input" >"$work/due" || exit 1
    number=0 good=yes code=7
    while [ "$code" -eq 7 ] && [ "$number" -lt 10000 ]; do
        number=$((number + 1))
        refused "$number" "$@"
        if [ "$code" -eq 7 ] && [ -s "$work/found" ] && ! cmp -s "$work/memory" "$work/found"; then
            good=no
            echo "request $number: $(head -n 1 "$work/found" | cut -c 1-60)" >&2
        fi
    done
    if [ $good = yes ] && [ "$code" -eq 0 ] && [ "$number" -gt 5 ] && cmp -s "$work/due" "$work/found"; then
        echo "ok $name: $((number - 1)) requests"
    else
        echo "not ok $name: request $number, code $code"
        failed=1
    fi
}

input_of transfers.txt "no content, and an empty password"
each_refused no_content transfer "" q 1 1
input_of transferred_keys.txt "three counts of 2,048"
each_refused two_certificates_and_a_key transfer changeit hunter42 2048 14336
each_refused sample_3 sample 3

# A public key that is read, written and digested: a case of known_answers fails for each request that is refused, or the program ends
# with 2 where it cannot read the case.
public_key_refused() {
    number=0 code=1
    while { [ "$code" -eq 1 ] || [ "$code" -eq 2 ]; } && [ "$number" -lt 10000 ]; do
        number=$((number + 1))
        refused "$number"
    done
    if [ "$code" -eq 0 ] && [ "$number" -gt 5 ] && cmp -s "$work/due" "$work/found"; then
        echo "ok public_key: $((number - 1)) requests"
    else
        echo "not ok public_key: request $number, code $code"
        failed=1
    fi
}

program=$home/crates/known_answers/out/known_answers
if [ -x "$program" ]; then
    grep -m 2 '^spki' "$home/tests/vectors/public_keys.txt" >"$work/input"
    echo '2 passed, 0 failed' >"$work/due"
    public_key_refused
else
    echo "skipped public_key: known_answers is not built"
fi

exit "$failed"
