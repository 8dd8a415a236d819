#!/bin/sh
# shellcheck disable=SC2154,SC2317 # the checks are called by name, and tests/shared/checks.sh sets names
# What ./pkcs12 list says of certificates and keys, compared with what OpenSSL says of them, and what export --chain writes. Prints
# `ok NAME` or `not ok NAME` for each, `skipped NAME` with the reason for what this machine has no means for, and ends with 1 where one
# is not ok.
set -eu

home=$(cd "$(dirname "$0")/.." && pwd)
work=$(mktemp -d)
trap 'rm -rf "$work"' EXIT
# shellcheck source=tests/shared/checks.sh
. "$home/tests/shared/checks.sh"

if ! command -v openssl >/dev/null; then
    echo "skipped list: there is no openssl"
    exit "$failed"
fi

# A field of certificate $2 of the file $1, which has what list said.
field() {
    sed -n "/^cert-$2\$/,/^[ck]e/s/^  $3: //p" "$1" | head -n 1
}

# What list says of certificate $2, in $1, is what OpenSSL says of the file $3.
says_the_same() {
    subject=$(openssl x509 -inform DER -in "$3" -noout -subject -nameopt RFC2253 | sed 's/^subject=//')
    issuer=$(openssl x509 -inform DER -in "$3" -noout -issuer -nameopt RFC2253 | sed 's/^issuer=//')
    serial=$(openssl x509 -inform DER -in "$3" -noout -serial | sed 's/^serial=//')
    dates=$(openssl x509 -inform DER -in "$3" -noout -dates -dateopt iso_8601 |
        sed 's/^not[A-Za-z]*=//; s/Z$/ UTC/' | paste -sd ' ' | sed 's/ UTC / UTC to /')
    digest=$(openssl dgst -sha256 -r "$3" | cut -d ' ' -f 1)
    key=$(openssl x509 -inform DER -in "$3" -noout -pubkey | openssl pkey -pubin -outform DER | openssl dgst -sha256 -r | cut -d ' ' -f 1)
    bits=$(openssl x509 -inform DER -in "$3" -noout -text | sed -n 's/^ *Public-Key: (\([0-9]*\) bit)/\1/p')
    [ "$(field "$1" "$2" subject)" = "$subject" ] && [ "$(field "$1" "$2" issuer)" = "$issuer" ] &&
        [ "$(field "$1" "$2" 'serial number')" = "$serial" ] && [ "$(field "$1" "$2" SHA-256)" = "$digest" ] &&
        [ "$(field "$1" "$2" 'SHA-256 of the public key')" = "$key" ] &&
        field "$1" "$2" valid | grep -qF -- "$dates" &&
        { [ -z "$bits" ] || field "$1" "$2" 'public key' | grep -qF -- "$bits bits"; } || {
        echo "certificate $2 of $3 differs" >"$work/told"
        sed -n "/^cert-$2\$/,/^[ck]e/p" "$1" >>"$work/told"
        return 1
    }
}

# Every certificate of an example is listed as OpenSSL has it.
lists() {
    ends 0 list "$1/store.p12" --password-file "$1/password" || return 1
    cp "$work/said" "$work/listed"
    number=0
    while [ -f "$1/cert-$number.der" ]; do
        says_the_same "$work/listed" "$number" "$1/cert-$number.der" || return 1
        number=$((number + 1))
    done
    [ "$number" -gt 0 ] && [ "$(grep -c '^cert-' "$work/listed")" -eq "$number" ]
}
for example in "$home"/examples/*/store.p12; do
    holds "certificates_of_$(basename "$(dirname "$example")")" lists "$(dirname "$example")"
done

# --- names, times and chains that the examples have not ---

# A certificate of the subject $2 by OpenSSL into $work/$1.pem, self-signed or by the further words.
certificate() {
    to=$1 subject=$2
    shift 2
    openssl req -x509 -newkey ed25519 -nodes -utf8 -keyout "$work/$to.key" -out "$work/$to.pem" -subj "$subject" "$@" 2>"$work/told" &&
        openssl x509 -in "$work/$to.pem" -outform DER -out "$work/$to.der"
}
# A store of the key and the certificates $@ after the name $1.
store() {
    to=$1 key=$2
    shift 2
    cat "$@" >"$work/all.pem"
    openssl pkcs12 -export -inkey "$work/$key.key" -in "$work/all.pem" -out "$work/$to.p12" -passout "file:$work/p" 2>"$work/told"
}

odd_names() {
    certificate odd '/C=DE/O=Müller \+ Söhne, "GmbH"\\/OU=<a;b>/CN= #ünï \/CN=x+emailAddress=a@b.example/1.2.3.4=zz' &&
        store odd odd "$work/odd.pem" && ends 0 list "$work/odd.p12" --password-file "$work/p" || return 1
    cp "$work/said" "$work/listed"
    says_the_same "$work/listed" 0 "$work/odd.der" && ! LC_ALL=C grep -q '[^ -~]' "$work/listed"
}
holds odd_names_as_openssl_prints_them odd_names

# A store of a certificate that is valid from $2 to $3, which `openssl req` takes in newer versions alone.
dated() {
    : >"$work/$1.index" && echo 01 >"$work/$1.serial" && cat >"$work/$1.cnf" <<END && mkdir -p "$work/issued" || return 1
[ca]
default_ca = this
[this]
database = $work/$1.index
serial = $work/$1.serial
new_certs_dir = $work/issued
default_md = sha256
policy = any
[any]
commonName = supplied
END
    openssl req -new -newkey rsa:2048 -nodes -keyout "$work/$1.key" -out "$work/$1.csr" -subj "/CN=$1" 2>"$work/told" &&
        openssl ca -batch -selfsign -config "$work/$1.cnf" -keyfile "$work/$1.key" -in "$work/$1.csr" -startdate "$2" -enddate "$3" \
            -notext -out "$work/$1.pem" 2>"$work/told" && store "$1" "$1" "$work/$1.pem"
}
past_and_early() {
    dated past 20200101000000Z 20210203040506Z && ends 0 list "$work/past.p12" --password-file "$work/p" &&
        grep -qF '  valid: 2020-01-01 00:00:00 UTC to 2021-02-03 04:05:06 UTC (past, by this machine' "$work/said" || return 1
    # times from 2050 on are written in another type
    dated early 20690101000000Z 20700101000000Z && ends 0 list "$work/early.p12" --password-file "$work/p" &&
        grep -qE '^  valid: 2069-01-01 00:00:00 UTC to 2070-01-01 00:00:00 UTC \(.*by this machine' "$work/said" &&
        ends 0 list "$work/early.p12" --password-file "$work/p" --json && grep -qF '"is_valid_now": false' "$work/said"
}
holds a_certificate_that_is_past_or_early past_and_early

# What is no time is not compared with the clock: the 30th of February.
no_time() {
    dated no_time 20200101000000Z 20210203040506Z && openssl x509 -in "$work/no_time.pem" -outform DER -out "$work/no_time.der" &&
        "${PYTHON:-python3}" -c '
import sys
octets = open(sys.argv[1], "rb").read()
assert octets.count(b"210203040506Z") == 1
open(sys.argv[1], "wb").write(octets.replace(b"210203040506Z", b"210230040506Z"))' "$work/no_time.der" &&
        openssl x509 -inform DER -in "$work/no_time.der" -out "$work/no_time.pem" 2>"$work/told" && store no_time no_time "$work/no_time.pem" &&
        ends 0 list "$work/no_time.p12" --password-file "$work/p" || return 1
    grep -qxF '  valid: 2020-01-01 00:00:00 UTC to 2021-02-30 04:05:06 UTC (not both are times of the calendar)' "$work/said" &&
        ends 0 list "$work/no_time.p12" --password-file "$work/p" --json && grep -qF '"is_valid_now": null' "$work/said"
}
holds a_time_that_is_none_is_not_judged no_time

# --expires-within lists what ends by then alone, and has an exit number of its own.
expiring() {
    certificate soon /CN=soon -days 10 && certificate late /CN=late -days 400 && store ending soon "$work/soon.pem" "$work/late.pem" || return 1
    ends 0 list "$work/ending.p12" --password-file "$work/p" --expires-within 9 && [ ! -s "$work/said" ] && [ ! -s "$work/told" ] || return 1
    end=$(openssl x509 -in "$work/soon.pem" -noout -enddate -dateopt iso_8601 | sed 's/^notAfter=//; s/Z$/ UTC/')
    fails 29 Expiring 'within 11 days' list "$work/ending.p12" --password-file "$work/p" --expires-within 11 &&
        [ "$(cat "$work/said")" = "cert-0: valid to $end, subject CN=soon" ] || return 1
    ends 29 list "$work/ending.p12" --password-file "$work/p" --expires-within 401 && [ "$(wc -l <"$work/said")" -eq 2 ]
}
holds certificates_that_end_soon expiring
ended_or_untold() {
    ends 29 list "$work/past.p12" --password-file "$work/p" --expires-within 0 &&
        [ "$(cat "$work/said")" = 'cert-0: valid to 2021-02-03 04:05:06 UTC, subject CN=past' ] &&
        ends 0 list "$work/early.p12" --password-file "$work/p" --expires-within 3650 &&
        ends 29 list "$work/no_time.p12" --password-file "$work/p" --expires-within 0 &&
        [ "$(cat "$work/said")" = 'cert-0: when it ends could not be read, subject CN=no_time' ]
}
holds certificates_that_have_ended_or_have_no_end ended_or_untold
no_days() {
    for days in '' x 36501 4294967297 1.5; do
        fails 2 Usage 'takes a whole number from 0 to 36500' list "$work/past.p12" --password-file "$work/p" --expires-within "$days" || return 1
    done
    ends 2 list "$work/past.p12" --password-file "$work/p" --expires-within -1 &&
        fails 2 Usage 'goes not with --json' list "$work/past.p12" --password-file "$work/p" --expires-within 1 --json
}
holds days_that_are_none no_days

# A private key that is not encrypted is not passed over in silence.
key_in_the_clear() {
    certificate clear /CN=clear && openssl pkcs12 -export -keypbe NONE -inkey "$work/clear.key" -in "$work/clear.pem" -out "$work/clear.p12" \
        -passout "file:$work/p" 2>"$work/told" && ends 0 list "$work/clear.p12" --password-file "$work/p" || return 1
    grep -qxF 'not listed: 1, a private key that is not encrypted (keyBag)' "$work/said" && ! grep -q '^key-' "$work/said" &&
        ends 0 list "$work/clear.p12" --password-file "$work/p" --json && "${PYTHON:-python3}" -c '
import json, sys
found = json.load(open(sys.argv[1]))
assert list(found) == ["certificates", "private_keys", "not_listed"]
assert found["private_keys"] == [] and found["not_listed"] == ["a private key that is not encrypted (keyBag)"]' "$work/said"
}
holds what_is_not_listed_is_named key_in_the_clear

# A root, an intermediate certificate and a server's; the intermediate one cross-signed by another root.
make_chain() {
    certificate root /CN=root && certificate other /CN=other &&
        certificate middle /CN=middle -CA "$work/root.pem" -CAkey "$work/root.key" &&
        certificate server /CN=server -CA "$work/middle.pem" -CAkey "$work/middle.key" || return 1
    openssl x509 -in "$work/middle.pem" -CA "$work/other.pem" -CAkey "$work/other.key" -out "$work/cross.pem" 2>"$work/told" ||
        cp "$work/middle.pem" "$work/cross.pem"
    store chain server "$work/server.pem" "$work/root.pem" "$work/cross.pem" "$work/middle.pem" "$work/other.pem"
}
chain_made=yes
make_chain || chain_made=
chain_is_listed() {
    [ -n "$chain_made" ] && ends 0 list "$work/chain.p12" --password-file "$work/p" || return 1
    # The first certificate with the issuer's name goes on, and the chain ends in a root.
    chain=$(sed -n '/^key-0$/,$s/^  chain: //p' "$work/said")
    case $chain in
        'cert-0 cert-2 cert-4' | 'cert-0 cert-2 cert-1' | 'cert-0 cert-3 cert-1') ;;
        *) echo "chain: $chain" >"$work/told"; return 1 ;;
    esac
}
chain_is_written() {
    [ -n "$chain_made" ] || return 1
    ends 0 export "$work/chain.p12" --out "$out" --chain --password-file "$work/p" --new-password-file "$work/new" --rounds 1000 || return 1
    [ ! -s "$work/told" ] && [ "$(grep -c BEGIN "$out/chain-0.pem")" -eq 3 ] &&
        openssl x509 -in "$out/chain-0.pem" -outform DER | cmp - "$work/server.der" || return 1
    # OpenSSL verifies the server's certificate by what the file has after it.
    for trusted in "$work/root.pem" "$work/other.pem"; do
        ! openssl verify -CAfile "$trusted" -untrusted "$out/chain-0.pem" "$work/server.pem" >"$work/told" 2>&1 || return 0
    done
    return 1
}
holds a_chain_is_listed chain_is_listed
holds a_chain_is_written chain_is_written

chain_without_root() {
    store short server "$work/server.pem" "$work/middle.pem" &&
        ends 0 export "$work/short.p12" --out "$work/short" --chain --password-file "$work/p" --same-password --rounds 1000 || return 1
    grep -qF 'chain-0 ends before' "$work/told" && [ "$(grep -c BEGIN "$work/short/chain-0.pem")" -eq 2 ] &&
        ends 0 list "$work/short.p12" --password-file "$work/p" && grep -qF 'is not in this store' "$work/said"
}
holds a_chain_without_its_root_is_told chain_without_root

# Certificates that issue each other by turns: the chain has no end, and the issuer of the last is there.
endless_chain() {
    "$home/bench/make_inventory_store.py" alternating 4 "$work/endless.p12" && echo p >"$work/of_endless" &&
        ends 0 list "$work/endless.p12" --password-file "$work/of_endless" && grep -qF 'the chain has no end' "$work/said" &&
        ! grep -qF 'is not in this store' "$work/said"
}
holds a_chain_without_an_end_is_told endless_chain

chain_and_others() {
    fails 2 Usage --chain export "$work/chain.p12" --out "$work/none" --chain --one-file --password-file "$work/p" &&
        fails 2 Usage --chain export "$work/chain.p12" --out "$work/none" --chain --format der --password-file "$work/p" &&
        nothing_at "$work/none"
}
holds chain_goes_with_pem_files_alone chain_and_others

# --- JSON ---

json_is_json() {
    for example in "$home"/examples/*/store.p12; do
        folder=$(dirname "$example")
        ends 0 list "$example" --password-file "$folder/password" --json || return 1
        "${PYTHON:-python3}" - "$work/said" "$folder" <<'END' || return 1
import hashlib, json, pathlib, sys
found = json.load(open(sys.argv[1]))
for number, each in enumerate(found["certificates"]):
    octets = pathlib.Path(sys.argv[2], f"cert-{number}.der").read_bytes()
    assert each["name"] == f"cert-{number}" and each["sha256"] == hashlib.sha256(octets).hexdigest(), each
assert len(found["certificates"]) == len(list(pathlib.Path(sys.argv[2]).glob("cert-*.der")))
END
    done
}
holds json_has_each_certificate json_is_json

# Keys of one certificate: their chain is printed once, and --most-files counts a file for each.
chains_of_many_keys() {
    PYTHONPATH=$home/tests "${PYTHON:-python3}" - "$home/examples/openssl-default" "$work/many-keys.p12" <<'END' || return 1
import sys
from make_store import certificate_bag, data, identifier, local_key_id, number, octet_string, sealed_key, sequence, store_with_mac

folder, to = sys.argv[1:]
certificates = [open(f"{folder}/cert-{place}.der", "rb").read() for place in (0, 1)]
key = sequence(number(0), sequence(identifier("1.2.3")), octet_string(b"key"))
bags = [certificate_bag(certificates[0], local_key_id(b"one")), certificate_bag(certificates[1])]
bags += [sealed_key(key, "p", b"salt", 1, local_key_id(b"one"))] * 3000
open(to, "wb").write(store_with_mac(sequence(data(sequence(*bags))), "p", bytes(8), 1))
END
    ends 0 list "$work/many-keys.p12" --password-file "$work/p" && [ "$(grep -c '^  chain: as key-0$' "$work/said")" -eq 2999 ] &&
        [ "$(grep -c '^  chain: cert-0 cert-1$' "$work/said")" -eq 1 ] || return 1
    ends 0 list "$work/many-keys.p12" --password-file "$work/p" --json && "${PYTHON:-python3}" - "$work/said" <<'END' || return 1
import json, sys
keys = json.load(open(sys.argv[1]))["private_keys"]
sys.exit(0 if len(keys) == 3000 and all(key["chain"] == ["cert-0", "cert-1"] and key["is_whole"] for key in keys) else 1)
END
    fails 27 TooManyFiles "3000 private keys" export "$work/many-keys.p12" --out "$work/none" --chain --password-file "$work/p" --same-password \
        --rounds 1 --most-files 6001 && nothing_at "$work/none"
}
holds the_chain_of_many_keys_is_printed_once chains_of_many_keys

# --- what is refused, and what is no certificate ---

refusals() {
    fails 16 MacMismatch password list "$keyed" --password-file "$work/new" &&
        fails 10 Malformed '' list "$home/README.md" --password-file "$work/new" &&
        fails 8 PasswordMissing password list "$keyed" && fails 3 ReadFault nowhere list "$work/nowhere" --password-file "$work/new"
}
holds refusals_are_those_of_check refusals

no_certificate() {
    PYTHONPATH=$home/tests "${PYTHON:-python3}" - "$work/odd-store.p12" <<'END' || return 1
import sys
from make_store import certificate_bag, data, sequence, store_with_mac
bags = sequence(certificate_bag(b"hello \x1b[31m"), certificate_bag(b""))
open(sys.argv[1], "wb").write(store_with_mac(sequence(data(bags)), "p", bytes(8), 1))
END
    ends 0 list "$work/odd-store.p12" --password-file "$work/p" && [ "$(grep -c 'no X.509 certificate' "$work/said")" -eq 2 ] &&
        ! LC_ALL=C grep -q '[^ -~]' "$work/said" && ends 0 list "$work/odd-store.p12" --password-file "$work/p" --json &&
        "${PYTHON:-python3}" -c 'import json, sys; json.load(open(sys.argv[1]))' "$work/said"
}
holds what_is_no_certificate_is_told no_certificate
# Equal lines are told once, with their number.
many_odd_bags() {
    PYTHONPATH=$home/tests "${PYTHON:-python3}" - "$work/odd-bags.p12" <<'END' || return 1
import sys
from make_store import certificate_bag, context, data, identifier, octet_string, sequence, store_with_mac
unnamed = sequence(identifier("1.2.3.4"), context(0, octet_string(b"")))
bags = sequence(*[unnamed] * 300, *[certificate_bag(b"no certificate")] * 300)
open(sys.argv[1], "wb").write(store_with_mac(sequence(data(bags)), "p", bytes(8), 1))
END
    ends 0 list "$work/odd-bags.p12" --password-file "$work/p" && grep -qx 'not listed: 300, a bag of the kind 1.2.3.4' "$work/said" &&
        ends 0 check "$work/odd-bags.p12" --password-file "$work/p" && [ "$(grep -c 'is no X.509 certificate$' "$work/said")" -eq 20 ] &&
        grep -qx 'warning: 280 more are no X.509 certificates' "$work/said" || return 1
    fails 25 NotExported '' export "$work/odd-bags.p12" --out "$work/none" --password-file "$work/p" && [ "$(wc -l <"$work/told")" -lt 10 ]
}
holds equal_lines_are_told_once many_odd_bags

# A serial number with more zeros before it than DER allows has the same digits as text and as JSON; its first octet is its sign.
zeros_of_a_serial_number() {
    PYTHONPATH=$home/tests "${PYTHON:-python3}" - "$home/examples/openssl/cert-1.der" "$work/zeros.p12" <<'END' || return 1
import sys
from pathlib import Path

import make_store as make
from read_store import element, only

outer = only(Path(sys.argv[1]).read_bytes())
inside = outer.sequence()
version, _, *more = (inside.element() for _ in range(7))
certificate = make.sequence(make.sequence(version, element(0x02, bytes([0, 0, 5])), *more), outer.element() + outer.element())
contents = make.sequence(make.data(make.sequence(make.certificate_bag(certificate))))
Path(sys.argv[2]).write_bytes(make.store_with_mac(contents, "p", bytes(8), 1))
END
    ends 0 list "$work/zeros.p12" --password-file "$work/p" && [ "$(field "$work/said" 0 'serial number')" = 0005 ] &&
        ends 0 list "$work/zeros.p12" --json --password-file "$work/p" && grep -qF '"serial_number": "0005"' "$work/said"
}
holds zeros_of_a_serial_number zeros_of_a_serial_number

broken_pipe() {
    code=0
    "$home/pkcs12" list "$keyed" --password-file "$keyed_password" >/dev/full 2>"$work/told" || code=$?
    [ "$code" -eq 4 ]
}
holds a_full_disk_is_told broken_pipe

exit "$failed"
