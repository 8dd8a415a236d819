#!/bin/sh
# Runs ./pkcs12 on every store of examples/ and compares what it writes, octet for octet, with the certificates that went in; and what
# the documents of private keys open to, by OpenSSL, with the keys that went in. transfer_app has to write the same certificates.
# Prints `ok NAME` or `not ok NAME` for each, and ends with 1 where one differs.
set -eu

home=$(cd "$(dirname "$0")/.." && pwd)
examples=$home/examples
new_password=$examples/openssl-key/new-password
# shellcheck source=tests/shared/building.sh
. "$home/tests/shared/building.sh"
build transfer_app
work=$(mktemp -d)
trap 'rm -rf "$work"' EXIT
failed=0

report() {
    if [ "$2" = yes ]; then
        echo "ok $1"
    else
        echo "not ok $1"
        failed=1
    fi
}

# The files of the folder $1 of which the further words hold, by name.
files() (
    cd "$1"
    shift
    find . -maxdepth 1 -type f "$@" | sort
)

# The certificates expected stand in the folder $1, those written in $2: the same names, the same octets.
same_certificates() {
    files "$1" -name 'cert-*.der' >"$work/expected"
    files "$2" ! -name 'key-*.der' >"$work/found"
    cmp -s "$work/expected" "$work/found" || return 1
    while read -r file; do
        cmp "$1/$file" "$2/$file" >&2 || return 1
    done <"$work/expected"
}

# Each certificate written is one that openssl reads, where openssl is there.
openssl_reads() {
    command -v openssl >/dev/null || return 0
    for file in "$1"/cert-*.der; do
        openssl x509 -inform DER -in "$file" -noout || return 1
    done
}

# The private keys expected stand in the folder $1, documents of them in $2: as many, and each opens to its key, where openssl is there.
same_keys() {
    files "$1" -name 'key-*.der' >"$work/expected"
    files "$2" -name 'key-*.der' >"$work/found"
    cmp -s "$work/expected" "$work/found" || return 1
    command -v openssl >/dev/null || return 0
    while read -r file; do
        openssl pkcs8 -topk8 -nocrypt -inform DER -in "$2/$file" -passin "file:$new_password" -outform DER | cmp "$1/$file" - >&2 || return 1
    done <"$work/expected"
}

# transfer_app's lines for the store $1 under the first line of the file $2 are the certificates of the folder $3.
same_lines() {
    basenc --base16 --wrap=0 "$1" | "$program" transfer "$(head -n 1 "$2" | tr -d '\r')" unused 1 100000000 | grep '^cert ' >"$work/lines"
    number=0
    while [ -e "$3/cert-$number.der" ]; do
        printf 'cert %s\n' "$(basenc --base16 --wrap=0 "$3/cert-$number.der" | tr A-F a-f)"
        number=$((number + 1))
    done | cmp - "$work/lines" >&2
}

# Opens the store $2 with the password file $3, and compares with the certificates and the private keys of the folder $4.
opens() {
    out=$work/$1
    good=no
    if "$home/pkcs12" export "$2" --out "$out" --format der --password-file "$3" --new-password-file "$new_password" --rounds 2048 \
        >"$work/written" 2>"$work/told"; then
        if same_certificates "$4" "$out" && openssl_reads "$out" && same_keys "$4" "$out" && same_lines "$2" "$3" "$4"; then
            good=yes
        fi
    else
        cat "$work/told" >&2
    fi
    report "$1" $good
}

# The store $2 under the password file $3 and the further words is refused by the name $4, and no folder is left.
refuses() {
    name=$1 store=$2 password=$3 cause=$4
    shift 4
    good=no
    if ! "$home/pkcs12" export "$store" --out "$work/$name" --password-file "$password" --new-password-file "$new_password" "$@" \
        >"$work/written" 2>"$work/told"; then
        if grep -q "^pkcs12: $cause " "$work/told" && [ ! -e "$work/$name" ]; then
            good=yes
        else
            cat "$work/told" >&2
        fi
    fi
    report "$name" $good
}

opens openssl-plain "$examples/openssl-plain.p12" "$examples/password" "$examples"
for folder in "$examples"/*/; do
    folder=${folder%/}
    [ "$folder" != "$examples/refused" ] || continue
    opens "$(basename "$folder")" "$folder/store.p12" "$folder/password" "$folder"
done

# The work of each store is the limit that just suffices (examples/README.md).
for pair in openssl:8192 openssl-unicode:8192 keytool:8192 gnutls:4200000 openssl-key:14336 openssl-default:6144 keytool-default:30000 \
    gnutls-default:2400000 cryptography-default:42048 bouncycastle:5120; do
    folder=$examples/${pair%:*}
    steps=${pair#*:}
    refuses "${pair%:*}-limit-too-low" "$folder/store.p12" "$folder/password" WorkLimit --limit "$((steps - 1))"
    refuses "${pair%:*}-another-password" "$folder/store.p12" "$examples/README.md" MacMismatch
done

# The store of refused/$1 is refused with --modern-only by the name $2, and the command says $3. What OpenSSL makes of it by the commands of the refusal,
# with passwords in place of questions and the further words for the first, opens.
renewed() {
    name=$1 cause=$2 met=$3
    shift 3
    folder=$examples/refused/$name
    refuses "$name" "$folder/store.p12" "$folder/password" "$cause" --modern-only
    good=no
    if grep -qF -- "$met" "$work/told"; then
        good=yes
    fi
    report "$name-is-named" $good
    command -v openssl >/dev/null || return 0
    openssl pkcs12 "$@" -in "$folder/store.p12" -passin "file:$folder/password" -passout pass:middle -out "$work/all.pem" 2>"$work/told" &&
        openssl pkcs12 -export -in "$work/all.pem" -passin pass:middle -passout "file:$folder/password" -out "$work/$name.p12" \
            -certpbe AES-256-CBC -keypbe AES-256-CBC -macalg sha256 2>"$work/told" || cat "$work/told" >&2
    opens "$name-anew" "$work/$name.p12" "$folder/password" "$folder"
}
renewed nss-ber Malformed "the store is in BER, and only DER is read: an element of indefinite length begins at octet 0"
renewed openssl-legacy Unsupported "pbeWithSHAAnd40BitRC2-CBC (1.2.840.113549.1.12.1.6)" -legacy

exit "$failed"
