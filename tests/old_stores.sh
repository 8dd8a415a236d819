#!/bin/sh
# shellcheck disable=SC2154,SC2317 # the checks are called by name, and tests/shared/checks.sh sets names
# What ./pkcs12 opens of stores that only older programs write, or other programs by older options: in BER, under RC2 and Triple DES with
# two keys, with MACs by further hashes, and made with no password at all; and of stores with PBMAC1, which is new. Each is opened by check,
# list and export, and what comes out is what was put in; each is refused with --modern-only, and damaged ones are refused. Prints `ok NAME`
# or `not ok NAME` for each, `skipped NAME` with the reason for what this machine has no means for, and ends with 1 where one is not ok.
set -eu

home=$(cd "$(dirname "$0")/.." && pwd)
work=$(mktemp -d)
trap 'rm -rf "$work"' EXIT
# shellcheck source=tests/shared/checks.sh
. "$home/tests/shared/checks.sh"
# shellcheck source=tests/shared/pem_files.sh
. "$home/tests/shared/pem_files.sh"
# shellcheck source=tests/shared/other_programs.sh
. "$home/tests/shared/other_programs.sh"

command -v openssl >/dev/null || {
    echo "skipped old_stores: there is no openssl, which makes the keys"
    exit 0
}
mkdir "$work/java"
echo 'the old password' >"$work/old"
printf '\n' >"$work/empty"
short_rc2='the certificates of this store were under 40-bit RC2, which does not protect them from anybody who has a copy'

# --- stores ---

materials() {
    pairs && openssl pkcs12 -export -inkey "$work/ec.pem" -in "$work/ec-cert.pem" -name 'a name' -passout "file:$work/old" \
        -out "$work/new-kind.p12" 2>>"$work/openssl"
}
holds materials materials

# Makes the store $1 of the key of RSA and its certificate by OpenSSL, with the further words.
of_openssl() {
    made=$1
    shift
    openssl pkcs12 -export -inkey "$work/rsa.pem" -in "$work/rsa-cert.pem" -name 'a name' -passout "file:$work/old" -out "$made" "$@" \
        2>"$work/told"
}
made_by_openssl_legacy() { of_openssl "$1" -legacy; }
made_by_openssl_rc2_128() { of_openssl "$1" -legacy -certpbe PBE-SHA1-RC2-128; }
made_by_openssl_key_rc2() { of_openssl "$1" -legacy -keypbe PBE-SHA1-RC2-40; }
made_by_openssl_two_keys() { of_openssl "$1" -legacy -certpbe PBE-SHA1-2DES -keypbe PBE-SHA1-2DES; }
made_by_openssl_sha224() { of_openssl "$1" -macalg sha224; }
made_by_openssl_sha384() { of_openssl "$1" -macalg sha384; }
made_by_openssl_sha512() { of_openssl "$1" -macalg sha512; }
made_by_openssl_pbmac1() { of_openssl "$1" -pbmac1_pbkdf2; }

# The same by GnuTLS.
of_certtool() {
    made=$1
    shift
    certtool --to-p12 --load-privkey "$work/rsa.pem" --load-certificate "$work/rsa-cert.pem" --p12-name 'a name' \
        --password "$(cat "$work/old")" --outder --outfile "$made" "$@" 2>"$work/told"
}
made_by_certtool_rc2() { of_certtool "$1" --pkcs-cipher=rc2-40; }
made_by_certtool_sha512() { of_certtool "$1" --hash SHA512; }

# By NSS, whose stores are in BER.
of_pk12util() {
    exported=$1
    shift
    rm -rf "$work/nss-of" && mkdir "$work/nss-of" && certutil -N -d "sql:$work/nss-of" --empty-password &&
        of_openssl "$work/to-import.p12" &&
        pk12util -i "$work/to-import.p12" -d "sql:$work/nss-of" -w "$work/old" -K '' >"$work/told" 2>&1 &&
        pk12util -o "$exported" -n 'a name' -d "sql:$work/nss-of" -w "$work/old" -K '' "$@" >"$work/told" 2>&1
}
made_by_pk12util() { of_pk12util "$1"; }
made_by_pk12util_rc2() {
    of_pk12util "$1" -c 'PKCS #12 V2 PBE With SHA-1 And 3KEY Triple DES-CBC' -C 'PKCS #12 V2 PBE With SHA-1 And 40 Bit RC2 CBC'
}

# By Java, as it did before version 17.
made_by_keytool_legacy() {
    of_openssl "$work/to-import.p12" &&
        keytool -J-Dkeystore.pkcs12.legacy -importkeystore -noprompt -srckeystore "$work/to-import.p12" -srcstorepass:file "$work/old" \
            -destkeystore "$1" -deststoretype PKCS12 -deststorepass:file "$work/old" >"$work/told" 2>&1
}

# By BouncyCastle, in BER and in DER.
of_bouncycastle() {
    of_openssl "$work/to-import.p12" && java_class MakeStore &&
        java -cp "$work/java:$bouncycastle_jar" MakeStore "$work/to-import.p12" "$work/old" "$2" "$3" "$1" 2>"$work/told"
}
made_by_bouncycastle_ber() { of_bouncycastle "$1" PKCS12-3DES-3DES BER; }
made_by_bouncycastle_rc2() { of_bouncycastle "$1" PKCS12 DER; }
made_by_bouncycastle_ber_rc2() { of_bouncycastle "$1" PKCS12 BER; }

# By BouncyCastle under scrypt, whose costs N, r and p are the further words.
of_scrypt() {
    scrypted=$1
    shift
    of_openssl "$work/to-import.p12" && java_class MakeScryptStore &&
        java -cp "$work/java:$bouncycastle_jar:$bouncycastle_pkix" MakeScryptStore "$work/to-import.p12" "$work/old" "$@" "$scrypted" 2>"$work/told"
}
made_by_bouncycastle_scrypt() { of_scrypt "$1" 16384 8 1; }

# By GnuPG, which gives the pair no friendly name that was put in.
made_by_gpgsm() {
    of_openssl "$work/to-import.p12" -certpbe PBE-SHA1-3DES -keypbe PBE-SHA1-3DES -macalg sha1 || return 1
    rm -rf "$work/gpg" && mkdir -m 700 "$work/gpg" && of_gpgsm --disable-crl-checks --import "$work/to-import.p12" >"$work/told" 2>&1 &&
        of_gpgsm --export-secret-key-p12 rsa.example >"$1" 2>"$work/told"
    made=$?
    gpgconf --homedir "$work/gpg" --kill all 2>"$work/told" || :
    return "$made"
}
of_gpgsm() { gpgsm --homedir "$work/gpg" --batch --pinentry-mode loopback --passphrase-fd 0 "$@" <"$work/old"; }

# --- what comes out ---

# The folder $1 has the key of RSA, under the new password, and its certificate.
has_what_was_put_in() {
    openssl pkey -in "$work/rsa.pem" -outform DER >"$work/one" &&
        openssl pkey -in "$1/key-0.pem" -passin "file:$work/new" -outform DER >"$work/two" 2>"$work/told" && cmp "$work/one" "$work/two" || return 1
    openssl x509 -in "$work/rsa-cert.pem" -outform DER >"$work/one" && openssl x509 -in "$1/cert-0.pem" -outform DER >"$work/two" &&
        cmp "$work/one" "$work/two" && [ ! -e "$1/key-1.pem" ]
}

# The store $1 is opened by each subcommand, and its name and its key come out.
opens_whole() {
    ends 0 check "$1" --password-file "$work/old" && grep -qxF 'private keys: 1' "$work/said" && grep -qF 'belongs to cert-0' "$work/said" &&
        ends 0 list "$1" --password-file "$work/old" && grep -qF 'rsa.example' "$work/said" || return 1
    rm -rf "$work/out"
    ends 0 export "$1" --out "$work/out" --password-file "$work/old" --new-password-file "$work/new" --rounds 1000 &&
        has_what_was_put_in "$work/out"
}

# With --modern-only each subcommand refuses it, as with the number $2 and the name $3.
refused_as_today() {
    fails "$2" "$3" '' check "$1" --password-file "$work/old" --modern-only &&
        fails "$2" "$3" '' list "$1" --password-file "$work/old" --modern-only || return 1
    rm -rf "$work/out"
    fails "$2" "$3" '' export "$1" --out "$work/out" --password-file "$work/old" --new-password-file "$work/new" --modern-only &&
        nothing_at "$work/out"
}

# The store $1 with another password, cut short, and with one octet other than it was.
is_refused_damaged() {
    fails 16 MacMismatch '' check "$1" --password-file "$work/new" || return 1
    size=$(wc -c <"$1")
    head -c "$((size - 3))" "$1" >"$work/cut.p12"
    fails 10 Malformed '' check "$work/cut.p12" --password-file "$work/old" || return 1
    "${PYTHON:-python3}" -c '
import sys
octets = bytearray(open(sys.argv[1], "rb").read())
octets[len(octets) // 2] ^= 1
open(sys.argv[2], "wb").write(octets)' "$1" "$work/changed.p12"
    code=0
    setsid -w "$home/pkcs12" check "$work/changed.p12" --password-file "$work/old" >"$work/said" 2>"$work/told" || code=$?
    [ "$code" -eq 16 ] || [ "$code" -eq 10 ]
}

# Makes a store by the maker $1, which is opened; with --modern-only it is refused with the number $2 and the name $3. The standard error
# of check has the text $4, where that is not empty, and else nothing.
opens_store_of() {
    has_program "${1%%_*}" "$1" || return 0
    if ! "made_by_$1" "$work/$1.p12"; then
        echo "skipped $1: this ${1%%_*} does not make such a store"
        return 0
    fi
    opens_whole "$work/$1.p12" || return 1
    ends 0 check "$work/$1.p12" --password-file "$work/old" || return 1
    if [ -n "$4" ]; then
        grep -qF "pkcs12: $4" "$work/told" && grep -qF "old: $4" "$work/said" || return 1
    else
        [ ! -s "$work/told" ] || return 1
    fi
    ends 0 check "$work/$1.p12" --password-file "$work/old" --json && "${PYTHON:-python3}" -m json.tool <"$work/said" >/dev/null || return 1
    refused_as_today "$work/$1.p12" "$2" "$3" && is_refused_damaged "$work/$1.p12"
}

in_ber='the store is in BER, an older form than DER'
holds openssl_legacy opens_store_of openssl_legacy 11 Unsupported "$short_rc2"
holds openssl_rc2_128 opens_store_of openssl_rc2_128 11 Unsupported 'something in this store was under 128-bit RC2'
holds openssl_key_rc2 opens_store_of openssl_key_rc2 11 Unsupported 'a private key of this store was under 40-bit RC2'
holds openssl_two_keys opens_store_of openssl_two_keys 11 Unsupported 'something in this store was under Triple DES with two keys'
holds openssl_sha224 opens_store_of openssl_sha224 13 MacUnsupported ''
holds openssl_sha384 opens_store_of openssl_sha384 13 MacUnsupported ''
holds openssl_sha512 opens_store_of openssl_sha512 13 MacUnsupported ''
holds openssl_pbmac1 opens_store_of openssl_pbmac1 13 MacUnsupported ''
holds certtool_rc2 opens_store_of certtool_rc2 11 Unsupported "$short_rc2"
holds certtool_sha512 opens_store_of certtool_sha512 13 MacUnsupported ''
holds pk12util opens_store_of pk12util 10 Malformed "$in_ber"
holds pk12util_rc2 opens_store_of pk12util_rc2 10 Malformed "$short_rc2"
holds keytool_legacy opens_store_of keytool_legacy 11 Unsupported "$short_rc2"
holds bouncycastle_ber opens_store_of bouncycastle_ber 10 Malformed "$in_ber"
holds bouncycastle_rc2 opens_store_of bouncycastle_rc2 11 Unsupported "$short_rc2"
holds bouncycastle_ber_rc2 opens_store_of bouncycastle_ber_rc2 10 Malformed "$short_rc2"
holds gpgsm opens_store_of gpgsm 11 Unsupported "$short_rc2"
holds bouncycastle_scrypt opens_store_of bouncycastle_scrypt 11 Unsupported ''

# --- scrypt ---

# Each text under scrypt takes 4 * N * r * p steps, and what takes too much memory is refused by name.
scrypt_has_bounds() {
    if [ ! -f "$work/bouncycastle_scrypt.p12" ]; then
        echo "skipped scrypt_has_bounds: there is no bouncycastle that makes such a store"
        return 0
    fi
    ends 0 check "$work/bouncycastle_scrypt.p12" --password-file "$work/old" &&
        grep -qxF 'encrypted under: PBES2 with scrypt (N = 16384, r = 8, p = 1) and AES-256-CBC' "$work/said" &&
        ends 0 check "$work/bouncycastle_scrypt.p12" --password-file "$work/old" --limit $((2048 + 2 * 4 * 16384 * 8)) &&
        fails 15 WorkLimit '' check "$work/bouncycastle_scrypt.p12" --password-file "$work/old" --limit $((2047 + 2 * 4 * 16384 * 8)) &&
        of_scrypt "$work/costly.p12" 65536 8 1 &&
        fails 11 Unsupported 'whose costs N = 65536, r = 8, p = 1 are not supported: scrypt may take 67108864 octets of memory here' \
            check "$work/costly.p12" --password-file "$work/old" &&
        fails 11 Unsupported 'rekey keeps a store' rekey "$work/bouncycastle_scrypt.p12" --out "$work/rekeyed.p12" --password-file "$work/old" \
            --new-password-file "$work/new" && nothing_at "$work/rekeyed.p12"
}
holds scrypt_is_bounded scrypt_has_bounds

# --- PBMAC1, which is newer than the stores of today ---

# The store $1 of RFC 9579 appendix A, which crates/legacy_tests has in base64, in the file $2.
of_the_standard() {
    "${PYTHON:-python3}" -c '
import base64, re, sys
text = open(sys.argv[1], encoding="utf-8").read()
lines = re.search("const " + sys.argv[2] + ": &str = \"([^\"]*)\"", text).group(1)
open(sys.argv[3], "wb").write(base64.b64decode(re.sub(r"[\\\s]", "", lines)))' "$home/crates/legacy_tests/src/pbmac1_stores.rt" "$1" "$2"
}
# OpenSSL takes the private key out of it without looking at the MAC.
pbmac1() {
    have_openssl pbmac1 || return 0
    printf 1234 >"$work/digits"
    for each in 'SHA256 HMAC-SHA-256 and PBKDF2 (HMAC-SHA-256' 'SHA256_BY_SHA512 HMAC-SHA-256 and PBKDF2 (HMAC-SHA-512' \
        'SHA512 HMAC-SHA-512 and PBKDF2 (HMAC-SHA-512'; do
        of_the_standard "${each%% *}" "$work/pbmac1.p12" &&
            openssl pkcs12 -in "$work/pbmac1.p12" -nomacver -passin pass:1234 -nocerts -nodes 2>"$work/told" | openssl pkey -outform DER >"$work/one" &&
            ends 0 check "$work/pbmac1.p12" --password-file "$work/digits" && [ ! -s "$work/told" ] &&
            grep -qxF "MAC: PBMAC1 with ${each#* }, 2048 rounds)" "$work/said" || return 1
        rm -rf "$work/out"
        ends 0 export "$work/pbmac1.p12" --out "$work/out" --password-file "$work/digits" --new-password-file "$work/new" --rounds 1000 &&
            openssl pkey -in "$work/out/key-0.pem" -passin "file:$work/new" -outform DER | cmp "$work/one" - &&
            fails 13 MacUnsupported PBMAC1 check "$work/pbmac1.p12" --password-file "$work/digits" --modern-only &&
            fails 15 WorkLimit '' check "$work/pbmac1.p12" --password-file "$work/digits" --limit 2047 || return 1
    done
    for each in WRONG_COUNT WRONG_SALT; do
        of_the_standard "$each" "$work/pbmac1.p12" && fails 16 MacMismatch '' check "$work/pbmac1.p12" --password-file "$work/digits" || return 1
    done
    of_the_standard NO_LENGTH "$work/pbmac1.p12" &&
        fails 13 MacUnsupported 'do not say how long the key is' check "$work/pbmac1.p12" --password-file "$work/digits" || return 1
    # A length of the key of 19 octets in place of 32: it is refused before the MAC is tested.
    of_the_standard SHA256 "$work/pbmac1.p12" && "${PYTHON:-python3}" -c '
import sys
octets = open(sys.argv[1], "rb").read()
at = octets.rindex(bytes.fromhex("0202080002012030"))
open(sys.argv[1], "wb").write(octets[: at + 6] + bytes([19]) + octets[at + 7 :])' "$work/pbmac1.p12" &&
        fails 13 MacUnsupported 'a key of 19 octets, of which at least 20 are needed' check "$work/pbmac1.p12" --password-file "$work/digits"
}
holds stores_with_pbmac1 pbmac1

# --- no MAC ---

# Opened where that is asked for alone, and said on the standard error.
opens_bare() {
    ends 0 check "$1" --password-file "$2" --allow-no-mac && grep -qxF 'MAC: none' "$work/said" &&
        grep -qxF 'pkcs12: the store has no MAC, so nothing tells whether somebody changed it' "$work/told" &&
        ends 0 check "$1" --password-file "$2" --allow-no-mac --json && "${PYTHON:-python3}" -m json.tool <"$work/said" >/dev/null &&
        fails 12 MacMissing '' check "$1" --password-file "$2" && grep -qxF -- '    --allow-no-mac' "$work/told" &&
        fails 12 MacMissing '' list "$1" --password-file "$2" --modern-only &&
        fails 2 Usage '' check "$1" --password-file "$2" --allow-no-mac --modern-only
}
no_mac() {
    of_openssl "$work/bare.p12" -nomac && opens_bare "$work/bare.p12" "$work/old" &&
        ends 0 list "$work/bare.p12" --password-file "$work/old" --allow-no-mac && grep -qF 'rsa.example' "$work/said" || return 1
    rm -rf "$work/out"
    ends 0 export "$work/bare.p12" --out "$work/out" --password-file "$work/old" --new-password-file "$work/new" --rounds 1000 --allow-no-mac &&
        has_what_was_put_in "$work/out" || return 1
    # With another password it does not decrypt, and a store with a MAC is opened as without the flag.
    code=0
    setsid -w "$home/pkcs12" check "$work/bare.p12" --password-file "$work/new" --allow-no-mac >"$work/said" 2>"$work/told" || code=$?
    { [ "$code" -eq 18 ] || [ "$code" -eq 17 ]; } && grep -qF 'the password is wrong, or the store is damaged' "$work/told" || return 1
    ends 0 check "$work/new-kind.p12" --password-file "$work/old" --allow-no-mac && [ ! -s "$work/told" ] &&
        fails 16 MacMismatch '' check "$work/new-kind.p12" --password-file "$work/new" --allow-no-mac || return 1
    # 40-bit RC2
    if of_openssl "$work/bare.p12" -nomac -legacy -certpbe PBE-SHA1-RC2-40; then
        fails 11 Unsupported pbeWithSHAAnd40BitRC2-CBC check "$work/bare.p12" --password-file "$work/old" --allow-no-mac
    fi
}
holds a_store_without_a_mac_opens_where_that_is_asked_for no_mac
# As a trust store of Java may be, whose password is of no use.
java_without_mac() {
    command -v keytool >/dev/null || {
        echo "skipped java_without_mac: there is no keytool"
        return 0
    }
    rm -f "$work/trust.p12"
    keytool -J-Dkeystore.pkcs12.certProtectionAlgorithm=NONE -J-Dkeystore.pkcs12.macAlgorithm=NONE -importcert -noprompt -alias ours \
        -file "$work/rsa-cert.pem" -keystore "$work/trust.p12" -storetype PKCS12 -storepass:file "$work/old" >"$work/told" 2>&1 || return 1
    opens_bare "$work/trust.p12" "$work/empty" && ends 0 list "$work/trust.p12" --password-file "$work/empty" --allow-no-mac &&
        grep -qF 'rsa.example' "$work/said"
}
holds a_trust_store_of_java_without_a_password java_without_mac
# Where there is no MAC and nothing is encrypted, no password is asked for, since none decides anything.
no_password_decides() {
    openssl pkcs12 -export -nokeys -in "$work/rsa-cert.pem" -nomac -certpbe NONE -passout pass: -out "$work/open.p12" 2>"$work/told" &&
        ends 0 check "$work/open.p12" --allow-no-mac && grep -qxF 'MAC: none' "$work/said" &&
        ends 0 list "$work/open.p12" --allow-no-mac && grep -qF 'rsa.example' "$work/said" &&
        fails 12 MacMissing '' check "$work/open.p12" && of_openssl "$work/locked.p12" -nomac &&
        fails 8 PasswordMissing '' check "$work/locked.p12" --allow-no-mac
}
holds a_store_that_no_password_protects_asks_for_none no_password_decides

# --- no password at all ---

no_password() {
    command -v certtool >/dev/null || {
        echo "skipped no_password: there is no certtool"
        return 0
    }
    certtool --to-p12 --outder --null-password --empty-password --p12-name 'a name' --load-privkey "$work/rsa.pem" \
        --load-certificate "$work/rsa-cert.pem" --outfile "$work/null.p12" 2>"$work/told" || return 1
    ends 0 check "$work/null.p12" --password-file "$work/empty" &&
        grep -qF 'pkcs12: the store was made with no password at all' "$work/told" &&
        grep -qxF 'private keys: 1' "$work/said" || return 1
    rm -rf "$work/out"
    ends 0 export "$work/null.p12" --out "$work/out" --password-file "$work/empty" --new-password-file "$work/new" --rounds 1000 &&
        has_what_was_put_in "$work/out" &&
        fails 16 MacMismatch 'no password at all' check "$work/null.p12" --password-file "$work/empty" --modern-only &&
        fails 16 MacMismatch 'password is wrong' check "$work/null.p12" --password-file "$work/old"
}
holds a_store_without_a_password_opens_under_the_empty_one no_password

# --- what stays ---

# A store of today says nothing of what is old, with --modern-only and without.
as_today() {
    ends 0 check "$work/new-kind.p12" --password-file "$work/old" && [ ! -s "$work/told" ] && cp "$work/said" "$work/due" &&
        ends 0 check "$work/new-kind.p12" --password-file "$work/old" --modern-only && [ ! -s "$work/told" ] && cmp "$work/due" "$work/said"
}
holds a_store_of_today_is_opened_alike as_today

# What no store is opened under is refused by its name.
still_refused() {
    if ! of_openssl "$work/rc4.p12" -legacy -certpbe PBE-SHA1-RC4-128; then
        echo "skipped still_refused: this openssl does not write RC4"
        return 0
    fi
    fails 11 Unsupported 'a content is encrypted by pbeWithSHAAnd128BitRC4' check "$work/rc4.p12" --password-file "$work/old" &&
        fails 15 WorkLimit '--limit' check "$work/openssl_legacy.p12" --password-file "$work/old" --limit 2050
}
holds what_is_still_refused_is_named still_refused

# Without a password an old store is not refused before one is asked for.
asks() {
    fails 8 PasswordMissing '' check "$work/openssl_legacy.p12" && fails 8 PasswordMissing '' check "$work/openssl_sha384.p12" &&
        fails 13 MacUnsupported SHA-384 check "$work/openssl_sha384.p12" --modern-only
}
holds a_password_is_asked_for asks

# --- written anew ---

# rekey keeps the algorithms of a store, so without --upgrade it takes no old one.
rekey_refuses() {
    fails 11 Unsupported 'rekey keeps a store' rekey "$work/openssl_legacy.p12" --out "$work/rekeyed.p12" \
        --password-file "$work/old" --new-password-file "$work/new" && grep -qxF -- '    --upgrade' "$work/told" && nothing_at "$work/rekeyed.p12" &&
        fails 12 MacMissing '' rekey "$work/bare.p12" --out "$work/rekeyed.p12" --upgrade --password-file "$work/old" \
            --new-password-file "$work/new" && nothing_at "$work/rekeyed.p12"
}
holds rekey_keeps_no_old_algorithms rekey_refuses

# The store $1 under the password in the file $2 becomes one of today, which OpenSSL opens too, with the same key, certificate and name.
upgrades() {
    rm -f "$work/upgraded.p12"
    ends 0 rekey "$1" --out "$work/upgraded.p12" --upgrade --rounds 1000 --password-file "$2" --new-password-file "$work/new" || return 1
    rm -rf "$work/out"
    ends 0 check "$work/upgraded.p12" --password-file "$work/new" --modern-only && [ ! -s "$work/told" ] && ! grep -q '^old:' "$work/said" &&
        grep -qF 'friendly name "a name"' "$work/said" && grep -qxF 'MAC: HMAC with SHA-256, 1000 rounds' "$work/said" &&
        ends 0 export "$work/upgraded.p12" --out "$work/out" --modern-only --password-file "$work/new" --same-password --rounds 1000 &&
        has_what_was_put_in "$work/out" || return 1
    openssl pkcs12 -in "$work/upgraded.p12" -passin "file:$work/new" -nodes -nocerts 2>"$work/told" | openssl pkey -outform DER >"$work/two" &&
        openssl pkey -in "$work/rsa.pem" -outform DER | cmp - "$work/two"
}
each_is_upgraded() {
    upgraded=0
    for each in openssl_legacy openssl_rc2_128 openssl_key_rc2 openssl_two_keys openssl_sha224 openssl_sha384 openssl_sha512 certtool_rc2 \
        certtool_sha512 pk12util pk12util_rc2 keytool_legacy bouncycastle_ber bouncycastle_rc2 bouncycastle_ber_rc2 \
        bouncycastle_scrypt; do
        [ -e "$work/$each.p12" ] || continue
        upgrades "$work/$each.p12" "$work/old" || {
            echo "not upgraded: $each" >&2
            return 1
        }
        upgraded=$((upgraded + 1))
    done
    [ "$upgraded" -gt 0 ] || echo "skipped each_is_upgraded: there is no old store"
    [ ! -e "$work/null.p12" ] || upgrades "$work/null.p12" "$work/empty"
}
holds each_old_store_becomes_one_of_today each_is_upgraded
# What is refused leaves nothing; a limit under which the new store would not open is told by its numbers.
upgrade_refused() {
    echo other >"$work/other"
    fails 16 MacMismatch '' rekey "$work/openssl_legacy.p12" --out "$work/none.p12" --upgrade --password-file "$work/other" --new-password-file "$work/new" &&
        nothing_at "$work/none.p12" || return 1
    for each in openssl_legacy pk12util; do
        [ -e "$work/$each.p12" ] || continue
        ends 15 rekey "$work/$each.p12" --out "$work/none.p12" --upgrade --rounds 100000000 --password-file "$work/old" \
            --new-password-file "$work/new" && nothing_at "$work/none.p12" &&
            grep -qF 'the new store would take 300000000 steps to open, 100000000 for each of its 2 encrypted parts' "$work/told" || return 1
    done
    cp "$work/openssl_legacy.p12" "$work/in-place.p12"
    ends 0 rekey "$work/in-place.p12" --in-place --upgrade --same-password --rounds 1000 --password-file "$work/old" &&
        ends 0 check "$work/in-place.p12" --password-file "$work/old" --modern-only
}
holds an_upgrade_of_an_old_store_leaves_nothing_or_all upgrade_refused

exit "$failed"
