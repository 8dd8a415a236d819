#!/bin/sh
# What the command ./pkcs12 takes, by its built program, or by PROGRAM: `check` beside `openssl pkcs12`, `check` and `list` by the number of
# private keys, `list` of many keys of one chain, `export` into deep folders, the memory of `export`, and what the wrapper of an installed
# command adds. Needs Python 3 with the package cryptography.
set -eu

home=$(cd "$(dirname "$0")/.." && pwd)
PROGRAM=${PROGRAM:-$home/crates/pkcs12/out/pkcs12}
[ -x "$PROGRAM" ] || {
    echo "bench: the program is not built: run ./pkcs12 build" >&2
    exit 1
}
# shellcheck source=bench/common.sh
. "$home/bench/common.sh"
echo p >"$work/password"
echo q >"$work/new-password"

# `SECONDS MIB` of the subcommand $1, with its options, on the store $2.
takes() {
    # shellcheck disable=SC2086
    "$home/bench/measure.py" "$runs" /dev/null "$program" $1 "$work/$2" --password-file "$work/password"
}
# The same of `export` of the store $2 into a folder of $1.
exports_to() {
    # shellcheck disable=SC2016
    "$home/bench/measure.py" "$runs" /dev/null sh -c 'out=$1/out-$$ && shift && exec "$@" --out "$out"' sh "$1" "$program" export "$work/$2" \
        --password-file "$work/password" --new-password-file "$work/new-password" --rounds 1
}
# The same of one run of `export` with the further words, into a folder that is not there.
exports() {
    store=$1
    shift
    # shellcheck disable=SC2016
    "$home/bench/measure.py" 1 /dev/null sh -c 'rm -rf "$1/out" && shift && exec "$@"' sh "$work" "$program" export "$work/$store" \
        --out "$work/out" --password-file "$work/password" --new-password-file "$work/new-password" --rounds 1 --most-files 1000000 "$@"
}

row 'two contents of 600,000 rounds' seconds MiB
make_store contents-aes 600000 two
measured '  check' takes check two
! have_openssl || measured '  openssl pkcs12 -nokeys' openssls two
echo

row 'private keys of one round, and as many certificates' seconds MiB
for number in 6000 60000; do
    make_store pairs "$number" pairs
    measured "  $number: check" takes check pairs
    measured "  $number: list" takes list pairs
done
echo

row 'one chain that each of as many private keys begins' seconds MiB
for number in 1000 5000; do
    "$home/bench/make_inventory_store.py" chains "$number" "$work/chains"
    measured "  $number: list" takes list chains
    measured "  $number: list --json" takes 'list --json' chains
done
echo

# Each folder above the output is looked at, and each file is made below the folder that is held open.
row 'export of 1,000 private keys, each into a file' seconds MiB
make_store keys 1000 keys
deep=$work
for folders in 0 10 100; do
    while [ "$(printf '%s' "${deep#"$work"}" | tr -dc / | wc -c)" -lt "$folders" ]; do
        deep=$deep/a
    done
    mkdir -p "$deep"
    measured "  $folders folders deeper" exports_to "$deep" keys
done
echo

# A row for `export` of $2 of the kind $1, with the further words.
memory() {
    label="  $1 $2${3+ }${3-}"
    make_store "$1" "$2" store
    shift 2
    mebibytes=$(exports store "$@")
    mebibytes=${mebibytes#* }
    octets=$(wc -c <"$work/store")
    row "$label" "$mebibytes" "$(awk -v mebibytes="$mebibytes" -v octets="$octets" 'BEGIN { printf "%.2f", mebibytes * 1048576 / octets }')"
}
row 'export, stores by make_bench_store.py' MiB 'for an octet'
memory plain 16000000
memory sealed 10000000
memory sealed-aes 10000000
memory certificates 10000
memory certificates 10000 --one-file
memory long-keys 10000
memory long-keys 10000 --one-file
memory keys 60000 --one-file
memory short 24000 --one-file
memory short-aes 24000 --one-file
# None of its certificates is one, and each has a warning.
memory pairs 60000 --one-file 2>/dev/null
echo

# What is installed is the program of this tree.
[ "$PROGRAM" = "$home/crates/pkcs12/out/pkcs12" ] || exit 0
row 'what the wrapper of an installed command adds' seconds MiB
CC=/nowhere/cc "$home/pkcs12" install "$work/prefix" >"$work/told" 2>&1 || {
    cat "$work/told" >&2
    exit 1
}
make_store smallest 1 smallest
program=$work/prefix/lib/pkcs12/pkcs12
measured '  the program' takes check smallest
program=$work/prefix/bin/pkcs12
measured '  the installed command' takes check smallest
