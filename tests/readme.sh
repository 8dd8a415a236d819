#!/bin/sh
# shellcheck disable=SC2154 # tests/shared/checks.sh sets names
# Whether the first screen of README.md is what the command writes.
set -eu

home=$(cd "$(dirname "$0")/.." && pwd)
work=$(mktemp -d)
trap 'rm -rf "$work"' EXIT
# shellcheck source=tests/shared/checks.sh
. "$home/tests/shared/checks.sh"

store=examples/openssl-default/store.p12
echo battery-staple >"$work/password"
echo new-password >"$work/new"

# What comes between the lines of README.md that begin with these two commands, or the end of the block.
between() {
    awk -v first="\$ $1" -v last="$2" 'index($0, last) == 1 { shown = 0 } shown { print } index($0, first) == 1 { shown = 1 }' "$home/README.md"
}
first_screen() {
    ends 0 check "$home/$store" --password-file "$work/password" && between "./pkcs12 before-proof check $store" '$' |
        grep -v '^Password of ' >"$work/due" && cmp "$work/due" "$work/said" || return 1
    ends 0 export "$home/$store" --password-file "$work/password" --new-password-file "$work/new" --rounds 1 --out "$work/pem" &&
        between 'ls /tmp/pem' '`' >"$work/due" && ls "$work/pem" >"$work/said" && [ -s "$work/said" ] && cmp "$work/due" "$work/said"
}
holds the_first_screen_of_the_readme first_screen

exit "$failed"
