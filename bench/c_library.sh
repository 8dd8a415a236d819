#!/bin/sh
# A call of the library for C, beside libcrypto and beside Python's cryptography: each in one process, CALLS times (1000), the least of
# RUNS runs (3), in microseconds of a processor. libcrypto is measured as it is, without the processor's instructions for hashes
# (SHA-NI), and without all of those that it asks for (AVX, AES and others too). Keys are sealed in 2,048 rounds; those of the store of
# 1,000 keys of count 1 in one round, and there a hundredth of the calls is made; libcrypto seals those keys once as their octets are and
# once parsed. Python makes a tenth of the calls. The library is that of `rt lib` in crates/pkcs12_c. The store of many keys needs Python's
# cryptography.
set -eu

home=$(cd "$(dirname "$0")/.." && pwd)
crate=$home/crates/pkcs12_c
calls=${CALLS:-1000}
runs=${RUNS:-3}
work=$(mktemp -d)
trap 'rm -rf "$work"' EXIT

"$crate/link/make_library.sh" "$work"
"${CC:-cc}" -O2 -I"$crate/include" "$home/bench/c_library/ours.c" "$work/libpkcs12.a" -o "$work/ours"
"${CC:-cc}" -O2 "$home/bench/c_library/openssl.c" -lcrypto -o "$work/openssl" 2>/dev/null ||
    echo "without libcrypto: its headers are not there" >&2

# The least number that the further words print.
least() {
    for _ in $(seq "$runs"); do "$@" 2>/dev/null || :; done | sort -n | head -n 1
}
row() {
    printf '%-22s %6s %10s %10s %14s %14s %10s\n' "$@"
}
# A row under the name $1 for the store $2, whose password is in the file $3: keys are sealed in $4 rounds, in $5 calls. A further word
# is one for openssl.c, and the store is then none for Python, which gives one key of a store.
measure() {
    name=$1 store=$2 password=$3 rounds=$4 count=$5
    shift 5
    ours=$(least "$work/ours" "$store" "$password" "$rounds" "$count")
    theirs=- plain=- bare=- python=-
    if [ -x "$work/openssl" ]; then
        theirs=$(least "$work/openssl" "$store" "$password" "$rounds" "$count" "$@")
        plain=$(OPENSSL_ia32cap=:~0x20000000 least "$work/openssl" "$store" "$password" "$rounds" "$count" "$@")
        bare=$(OPENSSL_ia32cap=0:0 least "$work/openssl" "$store" "$password" "$rounds" "$count" "$@")
    fi
    [ $# -gt 0 ] || python=$(least "${PYTHON:-python3}" "$home/bench/c_library/pyca.py" "$store" "$password" "$((count / 10 + 1))")
    row "$name" "$count" "${ours:--}" "${theirs:--}" "${plain:--}" "${bare:--}" "${python:--}"
}
row store calls ours libcrypto 'without SHA-NI' 'without any' Python
for name in openssl-default openssl-key keytool-default cryptography-default; do
    measure "$name" "$home/examples/$name/store.p12" "$home/examples/$name/password" 2048 "$calls"
done
echo p >"$work/p"
if "$home/bench/make_bench_store.py" keys 1000 "$work/keys" 2>/dev/null; then
    measure '1,000 keys' "$work/keys" "$work/p" 1 "$((calls / 100 + 1))" keys
    measure '1,000 keys, parsed' "$work/keys" "$work/p" 1 "$((calls / 100 + 1))" parsed
else
    echo "without the store of many keys: Python's cryptography is not there" >&2
fi
