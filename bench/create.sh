#!/bin/sh
# Making a store by the built program of ./pkcs12, or by PROGRAM: one private key and three certificates at 600,000 rounds, beside the three
# derivations by OpenSSL's libcrypto, `check`, which does the same three, and `openssl pkcs12 -export`; and one private key with many
# certificates at 2,048 rounds, beside `openssl pkcs12 -export` with the same algorithms and counts. Seconds of a processor.
set -eu

home=$(cd "$(dirname "$0")/.." && pwd)
PROGRAM=${PROGRAM:-$home/crates/pkcs12/out/pkcs12}
[ -x "$PROGRAM" ] || {
    echo "bench: the program is not built: run ./pkcs12 build" >&2
    exit 1
}
# shellcheck source=bench/common.sh
. "$home/bench/common.sh"
have_openssl || {
    echo "bench: there is no openssl" >&2
    exit 1
}
echo secret >"$work/password"
openssl req -x509 -newkey ec -pkeyopt ec_paramgen_curve:P-256 -nodes -keyout "$work/key.pem" -out "$work/own.pem" -subj /CN=own -days 30 2>/dev/null

# $1 certificates, the own one first: the last octets of its signature are counted up, which nobody tests.
certificates() {
    "${PYTHON:-python3}" - "$work/own.pem" "$1" <<'PYTHON'
import base64
import re
import sys

text = open(sys.argv[1], encoding="ascii").read()
der = bytearray(base64.b64decode(re.search("-----BEGIN CERTIFICATE-----(.*?)-----END", text, re.S).group(1)))
print(text, end="")
for number in range(int(sys.argv[2]) - 1):
    der[-2:] = number.to_bytes(2, "big")
    print("-----BEGIN CERTIFICATE-----\n" + base64.encodebytes(bytes(der)).decode() + "-----END CERTIFICATE-----")
PYTHON
}
# A store of $1 certificates at $2 rounds, beside the further command.
beside() {
    number=$1
    rounds=$2
    shift 2
    certificates "$number" >"$work/certificates.pem"
    "$home/bench/compare.py" "$runs" /dev/null "$program" create --key "$work/key.pem" --certificate "$work/certificates.pem" --out "$work/out.p12" \
        --force --new-password-file "$work/password" --rounds "$rounds" -- /dev/null "$@" >"$work/both" 2>"$work/told" || {
        cat "$work/told" >&2
        exit 1
    }
    awk -v what="$number certificates, $rounds rounds" -v other="$label" '{ cpu[NR] = $2 } END {
        printf "%-36s %10.3f %10.3f %8.2f  %s\n", what, cpu[1], cpu[2], cpu[1] / cpu[2], other }' "$work/both"
}
# The keys of the private key and of the certificates, and that of the MAC as PKCS#12 derives it, by OpenSSL's libcrypto.
derivations='
import ctypes
import ctypes.util
import hashlib

for part in range(2):
    hashlib.pbkdf2_hmac("sha256", b"secret", bytes(16), 600000)
crypto = ctypes.CDLL(ctypes.util.find_library("crypto"))
crypto.EVP_sha256.restype = ctypes.c_void_p
password = "secret\0".encode("utf-16-be")
key = ctypes.create_string_buffer(32)
if crypto.PKCS12_key_gen_uni(password, len(password), bytes(8), 8, 3, 600000, 32, key, ctypes.c_void_p(crypto.EVP_sha256())) != 1:
    raise SystemExit("libcrypto derives no key")
'
export_as() {
    label='openssl pkcs12 -export'
    beside "$1" "$2" openssl pkcs12 -export -inkey "$work/key.pem" -in "$work/certificates.pem" -passout "file:$work/password" -keypbe AES-256-CBC \
        -certpbe AES-256-CBC -macalg sha256 -iter "$2" -out "$work/openssl.p12"
}

printf '%-36s %10s %10s %8s  %s\n' '' "pkcs12" other ratio other
label='three derivations'
beside 3 600000 "${PYTHON:-python3}" -c "$derivations"
label='pkcs12 check of the store'
beside 3 600000 "$program" check "$work/out.p12" --password-file "$work/password"
export_as 3 600000
for number in 1 10 100 1000 10000; do
    export_as "$number" 2048
done
