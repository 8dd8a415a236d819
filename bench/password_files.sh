#!/bin/sh
# The command passdb on files of many names, whose entries have 1,000 rounds: `list`, `check` of a name in the middle, and `change`, which
# writes the file anew. And a login on a file of one name, by the program and by the installed command.
set -eu
home=$(cd "$(dirname "$0")/.." && pwd)
runs=${RUNS:-5}
program=${PROGRAM:-$home/crates/passdb_command/out/passdb_command}
[ -x "$program" ] || {
    echo "bench: the program is not built: run ./passdb build" >&2
    exit 1
}
work=$(mktemp -d)
trap 'rm -rf "$work"' EXIT
printf p >"$work/password"
printf p >"$work/new-password"

# A file of $1 names, each with the password `p` and one salt for all.
make_file() {
    "${PYTHON:-python3}" - "$1" >"$work/users" <<'END'
import base64
import hashlib
import sys


def encoded(octets):
    return base64.b64encode(octets).decode().rstrip("=")


salt = bytes(range(16))
digest = encoded(hashlib.pbkdf2_hmac("sha256", b"p", salt, 1000, 32))
for at in range(int(sys.argv[1])):
    print(f"user-{at:07}:$pbkdf2-sha256$i=1000,l=32${encoded(salt)}${digest}")
END
}

printf '%10s %12s %10s %10s %10s %10s\n' names octets list check change MiB
for names in 1000 10000 100000; do
    make_file "$names"
    name=user-$(printf %07d $((names / 2)))
    list=$("$home/bench/measure.py" "$runs" /dev/null "$program" list "$work/users")
    check=$("$home/bench/measure.py" "$runs" /dev/null "$program" check "$work/users" "$name" --rounds 1000 --password-file "$work/password")
    change=$("$home/bench/measure.py" "$runs" /dev/null "$program" change "$work/users" "$name" --rounds 1000 \
        --password-file "$work/password" --new-password-file "$work/new-password")
    printf '%10s %12s %10s %10s %10s %10s\n' "$names" "$(wc -c <"$work/users")" "${list% *}" "${check% *}" "${change% *}" "${change#* }"
done

# One name of so many rounds; `check` with the default of 600,000 makes an entry anew that has fewer.
one_name() {
    ROUNDS=$1 "${PYTHON:-python3}" - >"$work/$1" <<'PYTHON'
import base64
import hashlib
import os

rounds = int(os.environ["ROUNDS"])
salt, digest = (base64.b64encode(octets).decode().rstrip("=") for octets in (
    bytes(range(16)), hashlib.pbkdf2_hmac("sha256", b"p", bytes(range(16)), rounds, 32)))
print(f"ann:$pbkdf2-sha256$i={rounds},l=32${salt}${digest}")
PYTHON
}
# `SECONDS MIB` of the command $1 on a copy of the file $2, with the further words.
on_copy() {
    command=$1
    file=$2
    shift 2
    # shellcheck disable=SC2016
    "$home/bench/measure.py" "$runs" /dev/null sh -c 'cp "$1" "$2" && shift 2 && exec "$@"' sh "$work/$file" "$work/copy" "$command" "$@"
}
one_name 600000
one_name 599999
one_name 1000
# What is installed is the program of this tree.
"$home/passdb" install "$work/prefix" >"$work/told" 2>&1 || {
    cat "$work/told" >&2
    exit 1
}
printf '\n%-44s %10s %10s\n' 'one name' program installed
for row in '600000 check' '599999 check, which makes the entry anew' '599999 check --no-renew' '1000 check --rounds 1000' '1000 list'; do
    rounds=${row%% *}
    words=${row#* }
    set -- "${words%%,*}"
    # shellcheck disable=SC2086
    set -- $1
    subcommand=$1
    shift
    case $subcommand in
        check) set -- check "$@" --password-file "$work/password" -- "$work/copy" ann ;;
        *) set -- list -- "$work/copy" ;;
    esac
    taken=$(on_copy "$program" "$rounds" "$@")
    wrapped=$(on_copy "$work/prefix/bin/passdb" "$rounds" "$@")
    printf '%-44s %10s %10s\n' "$rounds rounds: $words" "${taken% *}" "${wrapped% *}"
done
