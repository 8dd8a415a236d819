# shellcheck shell=sh disable=SC2154
# Keys and certificates in PEM files, made by OpenSSL: sourced, not run. What OpenSSL says is in $work/openssl.

# A certificate $3 for the key $1, of the name $2, that it signs itself.
self_signed() {
    openssl req -x509 -key "$1" -subj "/CN=$2" -days 3650 -out "$3" 2>>"$work/openssl"
}

# A certificate $3 for the key $1, of the name $2, that the key $4 with the certificate $5 signs.
signed_by() {
    openssl req -new -key "$1" -subj "/CN=$2" -out "$work/request" 2>>"$work/openssl" &&
        printf 'basicConstraints=CA:TRUE\n' >"$work/extensions" &&
        openssl x509 -req -in "$work/request" -CA "$5" -CAkey "$4" -CAcreateserial -days 3650 -extfile "$work/extensions" -out "$3" \
            2>>"$work/openssl"
}

# RSA, an elliptic curve and Ed25519, each in PKCS#8 with its certificate, which for the curve is the first of a chain of three.
pairs() {
    openssl genpkey -algorithm RSA -pkeyopt rsa_keygen_bits:2048 -out "$work/rsa.pem" 2>>"$work/openssl" &&
        openssl genpkey -algorithm EC -pkeyopt ec_paramgen_curve:P-256 -out "$work/ec.pem" 2>>"$work/openssl" &&
        openssl genpkey -algorithm ED25519 -out "$work/ed.pem" 2>>"$work/openssl" &&
        openssl genpkey -algorithm EC -pkeyopt ec_paramgen_curve:P-384 -out "$work/root-key.pem" 2>>"$work/openssl" &&
        openssl genpkey -algorithm EC -pkeyopt ec_paramgen_curve:P-256 -out "$work/middle-key.pem" 2>>"$work/openssl" &&
        self_signed "$work/rsa.pem" rsa.example "$work/rsa-cert.pem" && self_signed "$work/ed.pem" ed.example "$work/ed-cert.pem" &&
        self_signed "$work/root-key.pem" 'Test Root' "$work/root.pem" &&
        signed_by "$work/middle-key.pem" 'Test Middle' "$work/middle.pem" "$work/root-key.pem" "$work/root.pem" &&
        signed_by "$work/ec.pem" ec.example "$work/ec-cert.pem" "$work/middle-key.pem" "$work/middle.pem" &&
        cat "$work/ec-cert.pem" "$work/middle.pem" >"$work/fullchain.pem" && cat "$work/root.pem" "$work/middle.pem" >"$work/issuers.pem"
}
