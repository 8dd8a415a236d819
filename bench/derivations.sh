#!/bin/sh
# Keys from passwords: 600,000 rounds of PBKDF2 over HMAC-SHA256 and ten keys of scrypt (log_n 14, r 8, p 1), beside Python's hashlib, and 3,000,000
# iterations of PKCS#12's derivation (RFC 7292), beside OpenSSL's library. scrypt also beside libscrypt, whose code has no vector instructions,
# where that is there (Debian's libscrypt0).
set -eu
# shellcheck source=bench/building.sh
. "$(dirname "$0")/building.sh"

# The same key by another program for the mode $1 and the number $2: the key, and the time without that of starting.
others() {
    python3 - "$1" "$2" "${scalar:-}" <<'PYTHON'
import ctypes, hashlib, resource, sys


def user_time():
    return resource.getrusage(resource.RUSAGE_SELF).ru_utime


mode, n, scalar = sys.argv[1], int(sys.argv[2]), sys.argv[3] != ""
if scalar:
    libscrypt, derived = ctypes.CDLL("libscrypt.so.0"), ctypes.create_string_buffer(32)
    costs = [ctypes.c_uint64(1 << n), ctypes.c_uint32(8), ctypes.c_uint32(1)]
if mode == "pkcs12":
    crypto = ctypes.CDLL("libcrypto.so.3")
    crypto.EVP_sha1.restype = ctypes.c_void_p
    password, salt, key = b"\0p\0a\0s\0s\0\0", b"saltsalt", ctypes.create_string_buffer(20)
start = user_time()
if mode == "pbkdf2":
    key = hashlib.pbkdf2_hmac("sha256", b"password", b"salt", n, 32)
elif mode == "scrypt":
    key = b"a password of thirty-two octets."
    for _ in range(10):
        if scalar:
            libscrypt.libscrypt_scrypt(key, len(key), b"salt", 4, *costs, derived, 32)
            key = derived.raw
            continue
        key = hashlib.scrypt(key, salt=b"salt", n=1 << n, r=8, p=1, dklen=32, maxmem=1 << 30)
else:
    digest = ctypes.c_void_p(crypto.EVP_sha1())
    crypto.PKCS12_key_gen_uni(password, len(password), salt, len(salt), 3, n, 20, key, digest)
    key = key.raw + bytes(12)
print(key.hex(), user_time() - start)
PYTHON
}

line() {
    printf '%-40s %12s %12s %8s\n' "$@"
}

# A row for the label $1, the mode $2 and the number $3. The runs alternate, so that other work on the machine meets both alike.
row() {
    label=$1
    shift
    [ "$("$program" "$@")" = "$(others "$@" | cut -d ' ' -f 1)" ] || {
        echo "derivations: the two keys differ" >&2
        exit 1
    }
    : >"$work/own"
    : >"$work/other"
    run=0
    while [ "$run" -lt "$runs" ]; do
        user_time "$program" "$@" >>"$work/own"
        others "$@" | cut -d ' ' -f 2 >>"$work/other"
        run=$((run + 1))
    done
    own=$(least own)
    other=$(least other)
    line "$label" "$own" "$(awk "BEGIN { printf \"%.3f\", $other }")" "$(awk "BEGIN { printf \"%.2f\", $own / $other }")"
}

build derivations "octet_core asn1_core der_core spki steps block_core mac_modes phc_core pbkdf2 scrypt_core pkcs12_kdf pkcs5 p12" \
    "mac_modes p12 pbkdf2 scrypt_core" pbkdf2 1
line "seconds of user time" "this program" other ratio
row "PBKDF2-HMAC-SHA256, 600,000 rounds" pbkdf2 600000
row "scrypt, log_n 14, r 8, p 1, ten keys" scrypt 14
if python3 -c 'import ctypes; ctypes.CDLL("libscrypt.so.0")' 2>/dev/null; then
    scalar=yes
    row "the same, beside libscrypt" scrypt 14
    scalar=
fi
row "PKCS#12 with SHA-1, 3,000,000 iterations" pkcs12 3000000
