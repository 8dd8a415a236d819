#!/bin/sh
# A store with a private key, as OpenSSL 3 writes it by default and with 600,000 rounds: opened, and the key sealed with as many rounds; beside
# `openssl pkcs12 | openssl pkcs8`, which does the same.
set -eu
# shellcheck source=bench/common.sh
. "$(dirname "$0")/common.sh"
have_openssl || {
    echo "bench: there is no openssl to make the store" >&2
    exit 1
}

examples=$home/examples/openssl-default
openssl x509 -inform DER -in "$examples/cert-0.der" -out "$work/cert.pem"
openssl pkey -inform DER -in "$examples/key-0.der" -out "$work/key.pem"

# A row for a store of $1 rounds.
keyed() {
    openssl pkcs12 -export -inkey "$work/key.pem" -in "$work/cert.pem" -iter "$1" -passout pass:p -out "$work/keyed"
    basenc --base16 --wrap=0 "$work/keyed" >"$work/keyed.hex"
    "$home/bench/compare.py" "$runs" "$work/keyed.hex" "$program" transfer p q "$1" 100000000 -- /dev/null \
        sh -c "openssl pkcs12 -in '$work/keyed' -nodes -passin pass:p | openssl pkcs8 -topk8 -v2 aes-256-cbc -iter $1 -passout pass:q" >"$work/both"
    awk -v rounds="$1" '{ cpu[NR] = $2 } END { printf "%-24s %12s %12s %8.2f\n", rounds, cpu[1], cpu[2], cpu[1] / cpu[2] }' "$work/both"
}

printf '%-24s %12s %12s %8s\n' "rounds" "this program" "OpenSSL" ratio
keyed 2048
keyed 600000
