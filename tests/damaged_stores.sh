#!/bin/sh
# Runs the built program on every line of vectors/damaged_stores.txt and compares output and exit code with what is due.
# Prints `ok NAME` or `not ok NAME` for each, and ends with 1 where one differs.
set -eu

home=$(cd "$(dirname "$0")/.." && pwd)
# shellcheck source=tests/shared/building.sh
. "$home/tests/shared/building.sh"
# shellcheck source=tests/shared/statuses.sh
. "$home/tests/shared/statuses.sh"
if [ -n "${PROGRAM-}" ]; then
    program=$PROGRAM
else
    build transfer_app
fi
work=$(mktemp -d)
trap 'rm -rf "$work"' EXIT
failed=0

# A line with the label $1 for each of the items $2, which commas part.
lines() {
    if [ "$2" != - ]; then
        echo "$2" | tr , '\n' | sed "s/^/$1 /"
    fi
}

# The text that is due for the status $1, the certificates $2 and the documents $3.
due_text() {
    if [ "$1" != Done ]; then
        echo "error: $1"
    else
        lines cert "$2"
        lines key "$3"
    fi
}

# Runs the program with the password $2 and the limit $3 on the input in the file $7; the status $4, the certificates $5 and the
# documents $6 are due.
check() {
    code=0
    "$program" transfer "$2" new 3 "$3" <"$7" >"$work/found" || code=$?
    due_text "$4" "$5" "$6" >"$work/due"
    if [ "$code" = "$(code_of "$4")" ] && cmp -s "$work/due" "$work/found"; then
        echo "ok $1"
    else
        echo "not ok $1: due is $4, found is $code, $(head -n 1 "$work/found" | cut -c 1-60)"
        failed=1
    fi
}

while read -r name password limit status _ certificates documents line store; do
    case $name in
        '#'*) continue ;;
    esac
    echo "$store" >"$work/input"
    case $line in
        -) ;;
        empty) echo >>"$work/input" ;;
        *) echo "$line" >>"$work/input" ;;
    esac
    check "$name" "$password" "$limit" "$status" "$certificates" "$documents" "$work/input"
done <"$home/tests/vectors/damaged_stores.txt"

# A store may have 16,777,215 octets; these are zeros, and no store.
head -c 33554430 /dev/zero | tr '\0' 0 >"$work/input"
check zeros_16777215 p 1 Malformed - - "$work/input"
printf 00 >>"$work/input"
check zeros_16777216 p 1 TooLong - - "$work/input"

exit "$failed"
