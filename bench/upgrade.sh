#!/bin/sh
# pkcs12_upgrade of the library for C, on stores of private keys under AES-256 that are upgraded in as many rounds as they had: beside
# pkcs12_transfer_pem, which derives as many keys, beside the derivations alone by libcrypto, and beside `openssl pkcs8`, which opens and seals one
# key, once for each key (the last by 50 of them). The least of RUNS runs (3), in milliseconds of a processor. The library is that of `rt lib` in
# crates/pkcs12_c.
set -eu

home=$(cd "$(dirname "$0")/.." && pwd)
crate=$home/crates/pkcs12_c
runs=${RUNS:-3}
work=$(mktemp -d)
trap 'rm -rf "$work"' EXIT

"$crate/link/make_library.sh" "$work"
"${CC:-cc}" -O2 -I"$crate/include" "$home/bench/c_library/ours.c" "$work/libpkcs12.a" -o "$work/ours"
"${CC:-cc}" -O2 -Wno-deprecated-declarations "$home/bench/c_library/derivations.c" -lcrypto -o "$work/derivations"
echo p >"$work/p"

# The least number that the further words print.
least() {
    for _ in $(seq "$runs"); do "$@"; done | sort -n | head -n 1
}
openssl genpkey -algorithm EC -pkeyopt ec_paramgen_curve:P-256 -out "$work/key.pem" 2>/dev/null
# What `openssl pkcs8` takes for one key of $1 rounds that is sealed in as many, in microseconds.
one_key() {
    openssl pkcs8 -topk8 -in "$work/key.pem" -out "$work/sealed.pem" -passout pass:p -v2 aes-256-cbc -v2prf hmacWithSHA256 -iter "$1"
    "${PYTHON:-python3}" -c '
import resource
import subprocess
import sys

for number in range(50):
    subprocess.run(["openssl", "pkcs8", "-topk8", "-in", sys.argv[1], "-passin", "pass:p", "-passout", "pass:q", "-v2", "aes-256-cbc", "-v2prf",
        "hmacWithSHA256", "-iter", sys.argv[2]], check=True, stdout=subprocess.DEVNULL)
taken = resource.getrusage(resource.RUSAGE_CHILDREN)
print(round((taken.ru_utime + taken.ru_stime) / 50 * 1e6))' "$work/sealed.pem" "$1"
}
# A row for $2 keys of the kind $1 with $3 rounds.
row() {
    "$home/bench/make_bench_store.py" "$1" "$3" "$work/store"
    upgrade=$(least "$work/ours" "$work/store" "$work/p" "$3" 3 upgrade)
    transfer=$(least "$work/ours" "$work/store" "$work/p" "$3" 3)
    libcrypto=$(least "$work/derivations" "$2" "$3" "$3" 3)
    one=$(least one_key "$3")
    awk -v keys="$2" -v rounds="$3" -v a="$upgrade" -v b="$transfer" -v c="$libcrypto" -v d="$one" 'BEGIN {
        printf "%6s %8s %10.1f %10.1f %7.2f %10.1f %7.2f %10.1f %7.2f\n",
            keys, rounds, a / 1000, b / 1000, a / b, c / 1000, a / c, d * keys / 1000, a / d / keys }'
}
printf '%6s %8s %10s %10s %7s %10s %7s %10s %7s\n' keys rounds upgrade transfer ratio libcrypto ratio openssl ratio
row keys-aes 10 2048
row keys-aes 10 100000
row hundred-keys-aes 100 2048
row thousand-keys-aes 1000 2048
