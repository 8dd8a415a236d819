#!/bin/sh
# Runs the built programs rekey, inventory and passdb on every line of vectors/programs.txt, and compares output and exit code with what
# is due. Prints `ok PROGRAM: NAME` or `not ok PROGRAM: NAME` for each, and ends with 1 where one differs.
set -eu

home=$(cd "$(dirname "$0")/.." && pwd)
# shellcheck source=tests/shared/building.sh
. "$home/tests/shared/building.sh"
# shellcheck source=tests/shared/statuses.sh
. "$home/tests/shared/statuses.sh"
work=$(mktemp -d)
trap 'rm -rf "$work"' EXIT
failed=0
for name in rekey inventory passdb; do
    build "$name"
done

# Runs the program $program with the arguments $1, of which ~ is an empty one.
run() (
    set -f
    words=$1
    set --
    for word in $words; do
        [ "$word" != '~' ] || word=
        set -- "$@" "$word"
    done
    "$home/crates/$program/out/$program" "$@"
)

# Runs the case $1, the arguments $2 over $work/input, and compares with the status $3 and the text in $work/due.
try() {
    code=0
    run "$2" <"$work/input" >"$work/found" || code=$?
    if [ "$code" = "$(code_of "$3")" ] && cmp -s "$work/due" "$work/found"; then
        echo "ok $program: $1"
    else
        echo "not ok $program: $1: due is $3, found is $code, $(head -n 1 "$work/found" | cut -c 1-60)"
        failed=1
    fi
}

while IFS='|' read -r name words input status text; do
    case $name in
        '#'*) continue ;;
    esac
    program=${name%%: *}
    printf '%b' "$input" >"$work/input"
    printf '%b' "$text" >"$work/due"
    try "${name#*: }" "$words" "$status"
done <"$home/tests/vectors/programs.txt"

# Where `-` stands for the octets to be drawn they come from the system: two runs make two hashes, whose salts differ.
program=passdb
printf '\nadd bob s3cret\n' >"$work/input"
made=0
for number in 1 2; do
    code=0
    run 'passdb 1000 -' <"$work/input" >"$work/drawn-$number" || code=$?
    if [ "$code" = "$(code_of Done)" ] && grep -q '^bob:[$]pbkdf2-sha256[$]i=1000,l=32[$]' "$work/drawn-$number"; then
        made=$((made + 1))
    fi
done
salt() { grep '^bob:' "$1" | cut -d '$' -f 4; }
if [ "$made" = 2 ] && [ "$(salt "$work/drawn-1")" != "$(salt "$work/drawn-2")" ]; then
    echo "ok passdb: the system's random octets"
else
    echo "not ok passdb: the system's random octets: two runs draw the same, or end with $code"
    failed=1
fi

exit "$failed"
