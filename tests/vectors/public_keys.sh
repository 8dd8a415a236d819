#!/bin/sh
# Writes public keys of OpenSSL for the tests of the crate spki.
#
# Run at the top of the repository, with OpenSSL 3:
#
#     sh tests/vectors/public_keys.sh
#
# It writes tests/vectors/public_keys.txt: for each kind of key a comment with its name and the parameters of its algorithm as
# OpenSSL writes them by themselves, and a line with the SubjectPublicKeyInfo and the SHA-256 digest of that, in hexadecimal. The
# keys are random: a new run writes others. Last run with OpenSSL 3.0.19.
set -eu

. tests/vectors/openssl_rows.sh
rows=tests/vectors/public_keys.txt

# A key of the name $1, whose algorithm has the parameters $2, made by the further words of `genpkey`.
row() {
    name=$1
    parameters=$2
    shift 2
    openssl genpkey "$@" -out "$work/key" 2>/dev/null
    openssl pkey -in "$work/key" -pubout -outform DER -out "$work/public"
    {
        echo "# $name: ${parameters:-no parameters}"
        echo "spki-fingerprint $(digits <"$work/public")00 = !Malformed"
        echo "spki-fingerprint $(digits <"$work/public") = $(openssl pkey -pubin -inform DER -in "$work/public" -outform DER | sha256sum | cut -d ' ' -f 1)"
    } >>"$rows"
}

curve() {
    row "$1" "$(openssl ecparam -name "$1" -outform DER | digits)" -algorithm EC -pkeyopt "ec_paramgen_curve:$1"
}

cat >"$rows" <<'END'
# Public keys of OpenSSL, written by tests/vectors/public_keys.sh with OpenSSL 3.0.19: of each its SubjectPublicKeyInfo, and the
# SHA-256 digest of that; with an octet more it is refused. A comment says of which kind it is, and the parameters of its algorithm.
END
row RSA 0500 -algorithm RSA -pkeyopt rsa_keygen_bits:2048
curve P-256
curve P-384
curve P-521
row Ed25519 "" -algorithm ED25519
row X25519 "" -algorithm X25519
openssl dsaparam -out "$work/parameters" 2048 2>/dev/null
row DSA "$(openssl dsaparam -in "$work/parameters" -outform DER | digits)" -paramfile "$work/parameters"
row "RSA of 4096 bits" 0500 -algorithm RSA -pkeyopt rsa_keygen_bits:4096
