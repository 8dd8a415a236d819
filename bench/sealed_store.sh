#!/bin/sh
# Time for high counts, for a long certificate under Triple DES and under AES-256, beside OpenSSL; and for many private keys.
set -eu
# shellcheck source=bench/common.sh
. "$(dirname "$0")/common.sh"

compare() {
    measured "  this program" ours "$1"
    if have_openssl; then
        measured "  openssl pkcs12 -nokeys" openssls "$1"
    fi
}

make_store count 100000 count
make_store sealed 10000000 sealed

row "one certificate under Triple DES, counts 100,000" seconds MiB
compare count
row "one certificate of 10,000,000 octets, counts 1" seconds MiB
compare sealed

# OpenSSL without AES-NI, the SHA extensions and vector instructions.
plain_openssl() {
    OPENSSL_ia32cap=0:0 openssls "$1"
}
make_store sealed-aes 10000000 aes
row "one certificate of 10,000,000 octets under AES-256, counts 1" seconds MiB
measured "  this program" ours aes
if have_openssl; then
    measured "  openssl pkcs12 -nokeys without hardware paths" plain_openssl aes
fi

row "private keys under Triple DES, counts 1, sealed with one round" seconds MiB
for keys in 1000 10000; do
    make_store keys "$keys" keys
    measured "  $keys" ours keys
done
