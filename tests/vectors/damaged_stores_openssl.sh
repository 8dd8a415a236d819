#!/bin/sh
# Asks OpenSSL about the stores of damaged_stores.txt, so that the answers stated there rest on more than one witness:
# it opens each store that is Done, finds the MAC of each MacMismatch wrong, and finds the MAC of each DecryptFailed right but
# a content or a key that does not open. The other causes are not compared: OpenSSL has no limit, takes zero iterations, and reads more
# than DER. Prints `ok NAME` or `not ok NAME` for each, and ends with 1 where one differs.
set -eu

here=$(cd "$(dirname "$0")" && pwd)
work=$(mktemp -d)
trap 'rm -rf "$work"' EXIT
failed=0

# The octets of the hexadecimal digits on standard input.
octets() {
    tr -d '\n' | tr a-f A-F | basenc --base16 --decode
}

# What OpenSSL finds in the store in $work/store under the password $1. It is told to open the keys too where $2 is DecryptFailed: other
# keys than failing ones are not compared, since it reads fewer forms of them.
found() {
    if [ "$2" = DecryptFailed ]; then
        set -- "$1" -nocerts -nodes
    else
        set -- "$1" -noout
    fi
    password=$1
    shift
    if openssl pkcs12 -in "$work/store" "$@" -passin "pass:$password" >"$work/printed" 2>"$work/told"; then
        echo Done
    elif grep -q 'Mac verify error' "$work/told"; then
        echo MacMismatch
    else
        echo DecryptFailed
    fi
}

while read -r name password _ status _ _ _ _ store; do
    case $status in
        Done | MacMismatch | DecryptFailed)
            echo "$store" | octets >"$work/store"
            answer=$(found "$password" "$status")
            if [ "$answer" = "$status" ]; then
                echo "ok $name"
            else
                echo "not ok $name: stated is $status, OpenSSL finds $answer"
                failed=1
            fi
            ;;
    esac
done <"$here/damaged_stores.txt"

exit "$failed"
