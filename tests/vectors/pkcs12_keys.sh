#!/bin/sh
# Writes known answers of the derivation of PKCS#12 (RFC 7292 appendix B.2) with SHA-1: those of OpenSSL.
#
# Run at the top of the repository, with OpenSSL 3:
#
#     sh tests/vectors/pkcs12_keys.sh > tests/vectors/pkcs12_keys.txt
#
# Passwords are in UTF-16 with two octets of zero behind, as `bmp_string` gives them. Last run with OpenSSL 3.0.19; a new run
# writes the same file.
set -eu

# The number $1 as DER writes it: one octet, or two.
number() {
    if [ "$1" -lt 128 ]; then
        printf '%02x' "$1"
    else
        printf '%04x' "$1"
    fi
}

# $5 octets under the password $1, the salt $2, in $3 rounds, with the identifier $4.
row() {
    key=$(openssl kdf -keylen "$5" -kdfopt digest:SHA1 -kdfopt "hexpass:$1" -kdfopt "hexsalt:$2" -kdfopt "iter:$3" -kdfopt "id:$4" PKCS12KDF |
        tr -d ':\n' | tr 'A-F' 'a-f')
    echo "pkcs12-key $1 $2 $(number "$3") $(number "$4") $(number "$5") = $key"
}

echo "# Known answers of the derivation of PKCS#12, written by tests/vectors/pkcs12_keys.sh."
echo
echo "# OpenSSL: password, salt, rounds, identifier, length"
# no password, `smeg`, and one of 33 characters, which is longer than a block
for password in 0000 0073006d006500670000 "$(printf '0061%.0s' $(seq 33))0000"; do
    for salt in 0a 9af4702958a8e95c "$(printf 'a5%.0s' $(seq 65))"; do
        row "$password" "$salt" 1 1 24
        row "$password" "$salt" 2 2 8
        row "$password" "$salt" 2048 3 20
        row "$password" "$salt" 3 1 65
    done
done
row 0000 9af4702958a8e95c 2048 1 24
row 0000 9af4702958a8e95c 2048 2 8
