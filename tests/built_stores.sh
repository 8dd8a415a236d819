#!/bin/sh
# shellcheck disable=SC2317 # the checks are called by name
# What other programs say of stores that `p12` makes: OpenSSL, Java's keytool and GnuTLS's certtool open them, and give the
# certificates and the keys that went in. The stores are those of tests/vectors/pkcs12_stores.txt, of which the program
# `known_answers` tells that `p12` makes them, octet for octet; and the certificates and keys are those of examples/.
# Prints `ok NAME` or `not ok NAME` for each, `skipped NAME` for what this machine has no program for, and ends with 1 where one is
# not ok.
set -eu

home=$(cd "$(dirname "$0")/.." && pwd)
work=$(mktemp -d)
trap 'rm -rf "$work"' EXIT
failed=0

# Prints `ok NAME` or `not ok NAME`: the name $1, and what the check $2 tells.
holds() {
    if "$2"; then
        echo "ok $1"
    else
        echo "not ok $1"
        [ ! -s "$work/told" ] || head -n 5 "$work/told" >&2
        failed=1
    fi
}

have() {
    command -v "$1" >/dev/null && return 0
    echo "skipped $2: there is no $1"
    return 1
}

key=$home/examples/openssl-key/key-0.der
certificate=$home/examples/openssl-key/cert-0.der

hexadecimal() {
    od -An -v -tx1 | tr -d ' \n'
}
# The rows of stores that hold this certificate: its password in hexadecimal, and the store.
hexadecimal <"$certificate" >"$work/certificate"
awk -v certificate="$(cat "$work/certificate")" '$1 == "pkcs12-store" && $2 == certificate { print $4, $NF }' \
    "$home/tests/vectors/pkcs12_stores.txt" >"$work/rows"

octets() {
    tr 'a-f' 'A-F' | basenc --base16 --decode
}
number=0
while read -r password store; do
    number=$((number + 1))
    printf '%s' "$password" | octets >"$work/password-$number"
    printf '%s' "$store" | octets >"$work/$number.p12"
done <"$work/rows"
count=$number

there_are_stores() {
    [ "$count" -ge 2 ]
}
holds there_are_stores there_are_stores

# The certificates of PEM text, one a file in DER: $2-0.der, $2-1.der, ..
certificates_of() {
    awk -v stem="$2" '/^-----BEGIN CERT/ { inside = 1 } inside { print >(stem "-" n + 0 ".pem") } /^-----END CERT/ { inside = 0; n++ }' "$1"
    for each in "$2"-*.pem; do
        openssl x509 -in "$each" -outform DER -out "${each%.pem}.der" || return 1
    done
}
openssl_opens() {
    have openssl openssl_opens || return 0
    for n in $(seq "$count"); do
        openssl pkcs12 -in "$work/$n.p12" -passin "file:$work/password-$n" -nodes -nocerts 2>"$work/told" |
            openssl pkey -outform DER -out "$work/key.der" || return 1
        openssl pkey -inform DER -in "$key" -outform DER | cmp - "$work/key.der" || return 1
        openssl pkcs12 -in "$work/$n.p12" -passin "file:$work/password-$n" -nokeys >"$work/all.pem" 2>"$work/told" || return 1
        certificates_of "$work/all.pem" "$work/found-$n" || return 1
        cmp "$work/found-$n-0.der" "$certificate" && cmp "$work/found-$n-1.der" "$home/examples/cert-0.der" &&
            cmp "$work/found-$n-2.der" "$home/examples/cert-1.der" && [ ! -e "$work/found-$n-3.der" ] || return 1
        [ "$(grep -c 'friendlyName: server' "$work/all.pem")" -eq 1 ] || return 1
    done
}
holds openssl_opens_what_was_made openssl_opens

# Java gives the certificate of the key back, and the key.
keytool_opens() {
    have keytool keytool_opens || return 0
    for n in $(seq "$count"); do
        keytool -list -keystore "$work/$n.p12" -storetype PKCS12 -storepass:file "$work/password-$n" >"$work/told" 2>&1 || return 1
        grep -q '^server, .*PrivateKeyEntry' "$work/told" || return 1
        keytool -exportcert -alias server -keystore "$work/$n.p12" -storetype PKCS12 -storepass:file "$work/password-$n" \
            -file "$work/java.der" >"$work/told" 2>&1 && cmp "$work/java.der" "$certificate" || return 1
    done
}
holds keytool_opens_what_was_made keytool_opens

gnutls_opens() {
    have certtool gnutls_opens || return 0
    have openssl gnutls_opens || return 0
    for n in $(seq "$count"); do
        certtool --p12-info --inder --infile "$work/$n.p12" --password "$(cat "$work/password-$n")" >"$work/gnutls" 2>"$work/told" || return 1
        [ "$(grep -c '^-----BEGIN CERTIFICATE' "$work/gnutls")" -eq 3 ] || return 1
        sed -n '/^-----BEGIN.*PRIVATE KEY/,/^-----END.*PRIVATE KEY/p' "$work/gnutls" | openssl pkey -passin "file:$work/password-$n" -outform DER -out "$work/key.der" &&
            openssl pkey -inform DER -in "$key" -outform DER | cmp - "$work/key.der" || return 1
    done
}
holds gnutls_opens_what_was_made gnutls_opens

exit "$failed"
