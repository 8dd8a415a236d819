#!/bin/sh
# Runs the built program on every line of vectors/transfers.txt and vectors/transferred_keys.txt, and compares output and exit code
# with what is due. Prints `ok NAME` or `not ok NAME` for each, and ends with 1 where one differs.
set -eu

home=$(cd "$(dirname "$0")/.." && pwd)
# shellcheck source=tests/shared/building.sh
. "$home/tests/shared/building.sh"
# shellcheck source=tests/shared/statuses.sh
. "$home/tests/shared/statuses.sh"
if [ -n "${PROGRAM-}" ]; then
    program=$PROGRAM
else
    build transfer_app
fi
work=$(mktemp -d)
trap 'rm -rf "$work"' EXIT
failed=0

# Runs the program with the words $1, of which - is an empty one.
run() (
    set -f
    words=$1
    set --
    for word in $words; do
        [ "$word" != - ] || word=
        set -- "$@" "$word"
    done
    "$program" "$@"
)

# Runs the case $1, the words $2 over $work/input, and compares with the status $3 and the text in $work/due.
try() {
    code=0
    run "$2" <"$work/input" >"$work/found" || code=$?
    if [ "$code" = "$(code_of "$3")" ] && cmp -s "$work/due" "$work/found"; then
        echo "ok $1"
    else
        echo "not ok $1: due is $3, found is $code, $(head -n 1 "$work/found" | cut -c 1-60)"
        failed=1
    fi
}

cat "$home/tests/vectors/transfers.txt" "$home/tests/vectors/transferred_keys.txt" >"$work/cases"
while IFS='|' read -r name words input status text; do
    case $name in
        '#'*) continue ;;
    esac
    printf '%b' "$input" >"$work/input"
    printf '%b' "$text" >"$work/due"
    try "$name" "$words" "$status"
done <"$work/cases"

# As many digits as are read, which are a store that is too long, and one octet more.
head -c 67108864 /dev/zero | tr '\0' 0 >"$work/input"
echo "error: TooLong" >"$work/due"
try "67,108,864 octets of input" "transfer p q 1 9" TooLong
printf 0 >>"$work/input"
echo "error: InputTooLong" >"$work/due"
try "67,108,865 octets of input" "transfer p q 1 9" InputTooLong


# Without a second line the octets come from the system: two runs write two documents, whose initialization vectors differ.
grep '^three counts of 2,048|' "$work/cases" | cut -d '|' -f 3 | sed 's/\\n.*//' >"$work/input"
sealed=0
for number in 1 2; do
    code=0
    run "transfer changeit hunter42 2048 14336" <"$work/input" >"$work/drawn-$number" || code=$?
    if [ "$code" = "$(code_of Done)" ] && grep -q '^key [0-9a-f]*$' "$work/drawn-$number"; then
        sealed=$((sealed + 1))
    fi
done
vector() { grep '^key' "$1" | sed 's/.*0410\([0-9a-f]\{32\}\).*/\1/'; }
if [ "$sealed" = 2 ] && [ "$(vector "$work/drawn-1")" != "$(vector "$work/drawn-2")" ]; then
    echo "ok the system's random octets"
else
    echo "not ok the system's random octets: two runs draw the same, or end with $code"
    failed=1
fi

# The file of random octets must not be read in the place of a standard input that is closed.
echo "error: ReadFault" >"$work/due"
code=0
run "transfer p q 1 9" <&- >"$work/found" || code=$?
if [ "$code" = "$(code_of ReadFault)" ] && cmp -s "$work/due" "$work/found"; then
    echo "ok a closed standard input"
else
    echo "not ok a closed standard input: found is $code, $(head -c 60 "$work/found")"
    failed=1
fi

exit "$failed"
