#!/bin/sh
# Nanoseconds per octet of AES and Triple DES in CBC mode, of AES in GCM and of HMAC-SHA256, in memory; beside OpenSSL without its hardware paths.
set -eu
# shellcheck source=bench/building.sh
. "$(dirname "$0")/building.sh"

# A number of passes that takes half a second or more in the mode $1.
enough_passes() {
    passes=1
    while awk "BEGIN { exit !($(user_time "$program" "$1" "$passes") < 0.5) }"; do
        passes=$((passes * 2))
    done
    echo "$passes"
}

# OpenSSL's nanoseconds per octet, in user time, where the further words of `speed` say what. The value 0:0 clears every extension of
# an x86-64 processor, AES-NI, SSSE3, AVX and SHA among them: what is left is OpenSSL's assembly for the general registers.
openssls() {
    OPENSSL_ia32cap=0:0 openssl speed -mr -seconds 1 -bytes 1000000 "$@" 2>/dev/null | awk -F: '/^\+F/ { printf "%.1f\n", 1e9 / $NF }'
}

line() {
    printf '%-24s %12s %12s %8s\n' "$@"
}

# A row for the label $1, our mode $2 and the further words of `openssl speed`. A single pass is taken off, so that starting falls
# out. The runs alternate, so that other work on the machine meets both alike.
row() {
    label=$1
    mode=$2
    shift 2
    passes=$(enough_passes "$mode")
    : >"$work/many"
    : >"$work/one"
    : >"$work/openssl"
    run=0
    while [ "$run" -lt "$runs" ]; do
        user_time "$program" "$mode" "$((passes + 1))" >>"$work/many"
        user_time "$program" "$mode" 1 >>"$work/one"
        if command -v openssl >/dev/null; then
            openssls "$@" >>"$work/openssl"
        fi
        run=$((run + 1))
    done
    own=$(awk "BEGIN { printf \"%.1f\", ($(least many) - $(least one)) / $passes * 1000 }")
    other=$(least openssl)
    if [ -n "$other" ]; then
        line "$label" "$own" "$other" "$(awk "BEGIN { printf \"%.2f\", $own / $other }")"
    else
        line "$label" "$own" - -
    fi
}

build ciphers "octet_core block_core mac_modes" "block_core mac_modes" hmac-sha256 1
line "nanoseconds per octet" "this program" OpenSSL ratio
row "AES-128-CBC, encrypting" aes-128-encrypt -evp aes-128-cbc
row "AES-128-CBC, decrypting" aes-128-decrypt -decrypt -evp aes-128-cbc
row "AES-256-CBC, encrypting" aes-256-encrypt -evp aes-256-cbc
row "AES-256-CBC, decrypting" aes-256-decrypt -decrypt -evp aes-256-cbc
row "Triple DES, encrypting" tdes-encrypt -evp des-ede3-cbc
row "Triple DES, decrypting" tdes-decrypt -decrypt -evp des-ede3-cbc
row "AES-128-GCM" aes-128-gcm -evp aes-128-gcm
row "AES-256-GCM" aes-256-gcm -evp aes-256-gcm
row "HMAC-SHA256" hmac-sha256 -hmac sha256
