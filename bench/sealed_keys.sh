#!/bin/sh
# A store of many private keys, each sealed under a password of its document: beside `openssl pkcs8 -topk8` once for each key.
# KEYS is their number, ROUNDS the rounds of each document.
set -eu
# shellcheck source=bench/common.sh
. "$(dirname "$0")/common.sh"
have_openssl || {
    echo "bench: there is no openssl to compare with" >&2
    exit 1
}
keys=${KEYS:-100}
rounds=${ROUNDS:-600000}
make_store keys "$keys" keys

# Seals a key of the store so often, by OpenSSL.
cat >"$work/each" <<END
number=0
while [ "\$number" -lt $keys ]; do
    openssl pkcs8 -topk8 -inform DER -in '$home/examples/openssl-key/key-0.der' -v2 aes-256-cbc \\
        -v2prf hmacWithSHA256 -iter $rounds -passout pass:q
    number=\$((number + 1))
done
END

# A row under the label $1, where the environment of OpenSSL has the further words.
sealed() {
    label=$1
    shift
    "$home/bench/compare.py" "$runs" "$work/keys.hex" "$program" transfer p q "$rounds" 100000000 -- /dev/null \
        env "$@" sh "$work/each" >"$work/both"
    awk -v label="$label" '{ cpu[NR] = $2 } END { printf "%-44s %12s %12s %8.2f\n", label, cpu[1], cpu[2], cpu[1] / cpu[2] }' "$work/both"
}

printf '%-44s %12s %12s %8s\n' "$keys keys, $rounds rounds each" "this program" "OpenSSL" ratio
sealed "OpenSSL as it is" -u OPENSSL_ia32cap
sealed "OpenSSL without the SHA instructions" OPENSSL_ia32cap=:~0x20000000
