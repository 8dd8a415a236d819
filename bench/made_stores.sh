#!/bin/sh
# Making stores of many certificates, under Triple DES and SHA-1 with counts of 2,048: `PFX::new_with_cas`, called by the program known_answers,
# beside `openssl pkcs12 -export` with the same counts and algorithms. known_answers reads the certificates in hexadecimal and compares the
# store with one that Python made; OpenSSL reads them in PEM.
set -eu
# shellcheck source=bench/common.sh
. "$(dirname "$0")/common.sh"
have_openssl || {
    echo "bench: there is no openssl" >&2
    exit 1
}
maker=$home/crates/known_answers/out/known_answers
[ -x "$maker" ] || {
    echo "bench: the program is not built: run rt run in crates/known_answers" >&2
    exit 1
}
example=$home/examples/openssl-default
openssl pkey -inform DER -in "$example/key-0.der" -out "$work/key.pem"
openssl x509 -inform DER -in "$example/cert-0.der" -out "$work/cert.pem"

# A row for a store of a certificate, its key, and $1 certificates beside.
made() {
    PYTHONPATH=$home/tests:$home/tests/vectors python3 - "$example" "$1" >"$work/case" <<'END'
import sys
from pathlib import Path
from pkcs12_stores import row

folder, others = Path(sys.argv[1]), int(sys.argv[2])
certificate, key = [(folder / name).read_bytes() for name in ("cert-0.der", "key-0.der")]
row(certificate, key, "changeit", "a", bytes(range(24)), [certificate] * others)
END
    number=0
    while [ "$number" -lt "$1" ]; do
        cat "$work/cert.pem"
        number=$((number + 1))
    done >"$work/others.pem"
    "$home/bench/compare.py" "$runs" "$work/case" "$maker" -- /dev/null \
        openssl pkcs12 -export -inkey "$work/key.pem" -in "$work/cert.pem" -certfile "$work/others.pem" -name a -passout pass:changeit \
        -keypbe PBE-SHA1-3DES -certpbe PBE-SHA1-3DES -macalg sha1 -iter 2048 -maciter -out /dev/null >"$work/both"
    awk -v others="$1" '{ cpu[NR] = $2; memory[NR] = $3 } END {
        printf "%12s %14s %10s %8.2f %10s\n", others, cpu[1], cpu[2], cpu[1] / cpu[2], memory[1] }' "$work/both"
}

printf '%12s %14s %10s %8s %10s\n' "certificates" "this program" "OpenSSL" ratio MiB
for others in 1 10 100 1000 10000; do
    made "$others"
done
