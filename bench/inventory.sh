#!/bin/sh
# How the time of listing grows with the number of certificates: the program `inventory`, and `./pkcs12 list`.
# The least of RUNS runs (5); the sizes are 100 to 10,000.
set -eu
home=$(cd "$(dirname "$0")/.." && pwd)
runs=${RUNS:-5}
for program in "$home/crates/inventory/out/inventory" "$home/crates/pkcs12/out/pkcs12"; do
    [ -x "$program" ] || {
        echo "bench: $program is not built: run rt run in its crate" >&2
        exit 1
    }
done
work=$(mktemp -d)
trap 'rm -rf "$work"' EXIT
printf 'p\n' >"$work/password"

# `SECONDS MIB` of the words after the first, with the standard input $1.
measured() {
    "$home/bench/measure.py" "$runs" "$@"
}

printf '%-12s %13s %10s %10s %8s %10s %8s\n' kind certificates octets inventory MiB list MiB
for kind in chain alternating keys; do
    for count in 100 1000 3000 10000; do
        store=$work/store
        "$home/bench/make_inventory_store.py" "$kind" "$count" "$store"
        octets=$(wc -c <"$store" | tr -d ' ')
        inventory=$(measured "$store.hex" "$home/crates/inventory/out/inventory" inventory p 100000000)
        list=$(measured /dev/null "$home/pkcs12" list "$store" --password-file "$work/password")
        # shellcheck disable=SC2086
        printf '%-12s %13s %10s %10s %8s %10s %8s\n' "$kind" "$count" "$octets" $inventory $list
    done
done
