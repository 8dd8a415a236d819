#!/bin/sh
# shellcheck disable=SC2154,SC2317 # the checks are called by name, and tests/shared/checks.sh sets names
# What ./pkcs12 rekey makes of stores of other programs, what it refuses, and that a store is never lost. Prints `ok NAME` or
# `not ok NAME` for each, `skipped NAME` with the reason for what this machine has no means for, and ends with 1 where one is not ok.
set -eu

home=$(cd "$(dirname "$0")/.." && pwd)
work=$(mktemp -d)
trap 'rm -rf "$work"' EXIT
# shellcheck source=tests/shared/checks.sh
. "$home/tests/shared/checks.sh"
# shellcheck source=tests/shared/pem_files.sh
. "$home/tests/shared/pem_files.sh"
# shellcheck source=tests/shared/other_programs.sh
. "$home/tests/shared/other_programs.sh"

# Changes the store $1 under the password of the file $2 to $work/new, as $3.
rekey() {
    ends 0 rekey "$1" --out "$3" --password-file "$2" --new-password-file "$work/new"
}

# What OpenSSL takes out of the store $1 under the password in the file $2: certificates, names and keys, its lines in order, since the
# attributes of a bag are a set. One that is empty is left out of a changed store.
taken_out() {
    openssl pkcs12 -in "$1" -passin "file:$2" -nodes >"$work/taken" 2>"$work/told" &&
        sed 's/<Empty Attributes>/<No Attributes>/' "$work/taken" | LC_ALL=C sort
}

# What check says of a store, but for the algorithms, of which those under PBES2 change.
without_algorithms() {
    grep -v -e '^encrypted under: ' -e '^MAC: ' -e '^old: ' "$work/said"
}

changes() {
    rm -f "$work/changed.p12"
    rekey "$1/store.p12" "$1/password" "$work/changed.p12" && [ ! -s "$work/told" ] &&
        [ "$(stat -c %a "$work/changed.p12")" = 600 ] && ! ls "$work/changed.p12".part-* 2>/dev/null || return 1
    # This program opens the same certificates, names and pairs under the new password, and not under the old one.
    ends 0 check "$1/store.p12" --password-file "$1/password" && without_algorithms >"$work/before" &&
        ends 0 check "$work/changed.p12" --password-file "$work/new" && without_algorithms | cmp "$work/before" - &&
        fails 16 MacMismatch password check "$work/changed.p12" --password-file "$1/password" || return 1
    have_openssl changes || return 0
    if ! openssl pkcs12 -in "$1/store.p12" -passin "file:$1/password" -noout 2>/dev/null; then
        return 0
    fi
    taken_out "$1/store.p12" "$1/password" >"$work/one" && taken_out "$work/changed.p12" "$work/new" >"$work/two" &&
        cmp "$work/one" "$work/two" || return 1
    ! openssl pkcs12 -in "$work/changed.p12" -passin "file:$1/password" -noout 2>/dev/null
}
for example in "$home"/examples/*/store.p12; do
    holds "store_of_$(basename "$(dirname "$example")")" changes "$(dirname "$example")"
done

keytool_opens() {
    command -v keytool >/dev/null || {
        echo "skipped keytool: there is no keytool"
        return 0
    }
    example=$home/examples/keytool-default
    rm -f "$work/java.p12"
    rekey "$example/store.p12" "$example/password" "$work/java.p12" || return 1
    keytool -list -keystore "$work/java.p12" -storepass "$(cat "$work/new")" >"$work/one" 2>&1 &&
        keytool -list -keystore "$example/store.p12" -storepass "$(cat "$example/password")" >"$work/two" 2>&1 || return 1
    [ "$(grep -c fingerprint "$work/one")" -eq "$(grep -c fingerprint "$work/two")" ] &&
        [ "$(grep fingerprint "$work/one")" = "$(grep fingerprint "$work/two")" ] &&
        ! keytool -list -keystore "$work/java.p12" -storepass "$(cat "$example/password")" >/dev/null 2>&1
}
holds keytool_opens_the_changed_store keytool_opens

certtool_opens() {
    command -v certtool >/dev/null || {
        echo "skipped certtool: there is no certtool"
        return 0
    }
    example=$home/examples/gnutls-default
    rm -f "$work/gnu.p12"
    rekey "$example/store.p12" "$example/password" "$work/gnu.p12" &&
        certtool --p12-info --inder --infile "$work/gnu.p12" --password "$(cat "$work/new")" >"$work/one" 2>"$work/told"
}
holds certtool_opens_the_changed_store certtool_opens

differ() {
    rm -f "$work/a.p12" "$work/b.p12"
    rekey "$keyed" "$keyed_password" "$work/a.p12" && rekey "$keyed" "$keyed_password" "$work/b.p12" || return 1
    ! cmp -s "$work/a.p12" "$work/b.p12" && [ "$(stat -c %s "$work/a.p12")" = "$(stat -c %s "$work/b.p12")" ]
}
holds two_changes_differ_in_their_salts differ

# The count of each part of the store $1 under the password in the file $2, in order.
counts() {
    openssl pkcs12 -in "$1" -passin "file:$2" -info -nodes 2>&1 >/dev/null | grep Iteration
}

keeps_counts() {
    [ -f "$work/counts.p12" ] || {
        echo "skipped keeps_counts: there is no cryptography for Python"
        return 0
    }
    rm -f "$work/counts-new.p12"
    rekey "$work/counts.p12" "$work/p" "$work/counts-new.p12" || return 1
    have_openssl keeps_counts || return 0
    counts "$work/counts.p12" "$work/p" >"$work/one" && counts "$work/counts-new.p12" "$work/new" >"$work/two" &&
        [ "$(grep -c Iteration "$work/one")" -eq 16 ] && cmp "$work/one" "$work/two" || return 1
    taken_out "$work/counts.p12" "$work/p" >"$work/one" && taken_out "$work/counts-new.p12" "$work/new" >"$work/two" &&
        cmp "$work/one" "$work/two"
}
holds keys_of_unlike_counts_keep_them keeps_counts

# --- files ---

is_there() {
    echo precious >"$work/there"
    fails 23 OutputExists 'is there already' rekey "$keyed" --out "$work/there" --password-file "$keyed_password" \
        --new-password-file "$work/new" && [ "$(cat "$work/there")" = precious ] || return 1
    fails 23 OutputExists 'is there already' rekey "$work/copy.p12" --out "$work/there" --password-file "$work/nowhere" || return 1
    chmod 640 "$work/there"
    ends 0 rekey "$keyed" --out "$work/there" --force --password-file "$keyed_password" --new-password-file "$work/new" &&
        [ "$(stat -c %a "$work/there")" = 640 ] && ends 0 check "$work/there" --password-file "$work/new"
}
holds a_file_that_is_there_stays is_there

in_place() {
    cp "$keyed" "$work/copy.p12" && chmod 640 "$work/copy.p12" || return 1
    fails 23 OutputExists 'is there already' rekey "$work/copy.p12" --out "$work/copy.p12" --password-file "$keyed_password" \
        --new-password-file "$work/new" && cmp "$keyed" "$work/copy.p12" || return 1
    ends 0 rekey "$work/copy.p12" --in-place --password-file "$keyed_password" --new-password-file "$work/new" &&
        [ "$(stat -c %a "$work/copy.p12")" = 640 ] && ends 0 check "$work/copy.p12" --password-file "$work/new"
}
holds a_store_in_its_own_place in_place

refused_in_place() {
    cp "$keyed" "$work/kept.p12" || return 1
    fails 16 MacMismatch password rekey "$work/kept.p12" --in-place --password-file "$work/new" --new-password-file "$keyed_password" &&
        fails 22 PasswordUnusable empty rekey "$work/kept.p12" --in-place --password-file "$keyed_password" --new-password-file "$work/empty" &&
        fails 9 NewPasswordMissing 'new password' rekey "$work/kept.p12" --in-place --password-file "$keyed_password" &&
        fails 2 Usage '--in-place' rekey - --in-place --password-file "$keyed_password" --new-password-file "$work/new" &&
        fails 2 Usage '--out' rekey "$work/kept.p12" --password-file "$keyed_password" --new-password-file "$work/new" &&
        fails 2 Usage 'one input' rekey "$work/kept.p12" --in-place --password-file "$keyed_password" --new-password-file "$keyed_password" &&
        cmp "$keyed" "$work/kept.p12"
}
holds a_refusal_leaves_the_store_as_it_is refused_in_place

links() {
    ln -sf "$keyed" "$work/link.p12"
    fails 23 OutputExists 'no regular file' rekey "$work/link.p12" --in-place --password-file "$keyed_password" --new-password-file "$work/new" &&
        mkdir -p "$work/folder" &&
        fails 23 OutputExists 'no regular file' rekey "$keyed" --out "$work/folder" --password-file "$keyed_password" --new-password-file "$work/new" &&
        fails 4 WriteFault nowhere rekey "$keyed" --out "$work/nowhere/x.p12" --password-file "$keyed_password" --new-password-file "$work/new"
}
holds links_and_folders_are_refused links

# Another hard link has the old store: the new one is another file.
hard_link() {
    cp "$keyed" "$work/linked.p12" && ln "$work/linked.p12" "$work/other.p12" &&
        ends 0 rekey "$work/linked.p12" --in-place --password-file "$keyed_password" --new-password-file "$work/new" &&
        ends 0 check "$work/linked.p12" --password-file "$work/new" && cmp "$keyed" "$work/other.p12"
}
holds a_hard_link_keeps_the_old_store hard_link

devices() {
    for each in /dev/null /dev/full /dev/stdout .; do
        fails 23 OutputExists 'no regular file' rekey "$keyed" --out "$each" --force --password-file "$keyed_password" \
            --new-password-file "$work/new" || return 1
    done
    mkfifo "$work/pipe.p12" && fails 23 OutputExists 'no regular file' rekey "$keyed" --out "$work/pipe.p12" --force \
        --password-file "$keyed_password" --new-password-file "$work/new" && [ -p "$work/pipe.p12" ] && [ -c /dev/null ]
}
holds devices_and_pipes_are_refused devices

# Of two runs that make one file the first to end makes it, and the other says so.
two_runs() {
    rm -f "$work/one-file.p12"
    setsid -w "$home/pkcs12" rekey "$keyed" --out "$work/one-file.p12" --password-file "$keyed_password" --new-password-file "$work/new" \
        2>"$work/told-there" &
    there=$!
    first=0 second=0
    setsid -w "$home/pkcs12" rekey "$keyed" --out "$work/one-file.p12" --password-file "$keyed_password" --new-password-file "$work/p" \
        2>"$work/told" || first=$?
    wait "$there" || second=$?
    case $first,$second in
        0,23) ends 0 check "$work/one-file.p12" --password-file "$work/p" ;;
        23,0) ends 0 check "$work/one-file.p12" --password-file "$work/new" ;;
        *)
            echo "one ended with $first, the other with $second" >&2
            return 1
            ;;
    esac
}
holds two_runs_make_one_file two_runs

closed_descriptors() {
    for which in '>&-' '2>&-' '<&-' '>&- 2>&- <&-'; do
        cp "$keyed" "$work/descriptors.p12" || return 1
        # shellcheck disable=SC2016
        sh -c 'setsid -w "$1" rekey "$2" --in-place --verbose --password-file "$3" --new-password-file "$4" '"$which" sh "$home/pkcs12" \
            "$work/descriptors.p12" "$keyed_password" "$work/new" 2>"$work/told" &&
            ends 0 check "$work/descriptors.p12" --password-file "$work/new" || return 1
    done
}
holds closed_descriptors_are_no_harm closed_descriptors

full_disk() {
    cp "$keyed" "$work/full.p12" && cp "$keyed_password" "$work/full-password" || return 1
    # No file may grow: neither can the changed store be written nor what is said of that, and nobody is killed by it.
    code=0
    (
        ulimit -f 0
        setsid -w "$home/pkcs12" rekey "$work/full.p12" --in-place --password-file "$work/full-password" \
            --new-password-file "$work/new" >/dev/null 2>"$work/nothing-said"
    ) || code=$?
    [ "$code" -eq 4 ] && cmp "$keyed" "$work/full.p12" && ! ls "$work/full.p12".part-* 2>/dev/null
}
holds a_full_disk_leaves_the_store full_disk

odd_names() {
    odd="$work/-a b'c
d.p12"
    (cd "$work" && ends 0 rekey "$keyed" --out "./-a b'c
d.p12" --password-file "$keyed_password" --new-password-file "$work/new") && ends 0 check "$odd" --password-file "$work/new"
}
holds names_with_blanks_and_quotes odd_names

standard_input() {
    setsid -w "$home/pkcs12" rekey - --out "$work/from-input.p12" --password-file "$keyed_password" --new-password-file "$work/new" \
        <"$keyed" >"$work/said" 2>"$work/told" && ends 0 check "$work/from-input.p12" --password-file "$work/new"
}
holds a_store_on_the_standard_input standard_input

others_stay() {
    have_openssl others_stay || return 0
    openssl pkey -inform DER -in "$home/examples/openssl-key/key-0.der" -out "$work/key.pem" &&
        openssl x509 -inform DER -in "$home/examples/openssl-key/cert-0.der" -out "$work/cert.pem" &&
        openssl pkcs12 -export -inkey "$work/key.pem" -in "$work/cert.pem" -keypbe NONE -out "$work/open.p12" \
            -passout "file:$work/p" 2>"$work/told" || return 1
    rekey "$work/open.p12" "$work/p" "$work/open-changed.p12" && taken_out "$work/open.p12" "$work/p" >"$work/one" &&
        taken_out "$work/open-changed.p12" "$work/new" >"$work/two" && cmp "$work/one" "$work/two" || return 1
    ends 0 rekey "$work/open.p12" --upgrade --rounds 1000 --same-password --password-file "$work/p" --out "$work/open-upgraded.p12" &&
        grep -qxF 'pkcs12: warning: private keys that are not encrypted, and stay so: 1' "$work/told" &&
        taken_out "$work/open-upgraded.p12" "$work/p" >"$work/two" && cmp "$work/one" "$work/two"
}
holds a_key_that_is_not_encrypted_stays_so others_stay

told() {
    ends 0 rekey "$keyed" --out "$work/told.p12" --verbose --password-file "$keyed_password" --new-password-file "$work/new" &&
        grep -qF 'private keys: 1' "$work/told" && grep -qF 'kept: ' "$work/told" && grep -qF 'changed: ' "$work/told"
}
holds what_is_kept_and_changed_is_told told

password_file_stays() {
    for option in password-file new-password-file; do
        cp "$keyed_password" "$work/old" && cp "$work/new" "$work/kept" || return 1
        case $option in
            password-file) target=$work/old ;;
            *) target=$work/kept ;;
        esac
        cp "$target" "$work/before"
        fails 2 Usage 'replace the file of a password' rekey "$keyed" --out "$target" --force --password-file "$work/old" \
            --new-password-file "$work/kept" && cmp "$target" "$work/before" && ! ls "$target".part-* 2>/dev/null || return 1
    done
}
holds the_file_of_a_password_stays password_file_stays
# Another program puts another store in the place while the changed one is read back and compared, which takes a while.
changed_meanwhile() {
    have_openssl changed_meanwhile || return 0
    openssl pkcs12 -in "$keyed" -passin "file:$keyed_password" -nodes -out "$work/both.pem" 2>/dev/null &&
        openssl pkcs12 -export -in "$work/both.pem" -iter 1000000 -passout "file:$keyed_password" -out "$work/slow.p12" || return 1
    (
        while [ -z "$(find "$work" -maxdepth 1 -name 'slow.p12.part-*')" ]; do sleep 0.02; done
        cp "$keyed" "$work/slow.p12"
    ) &
    other=$!
    changed=0
    fails 4 WriteFault 'changed by another program' rekey "$work/slow.p12" --in-place --password-file "$keyed_password" \
        --new-password-file "$work/new" && cmp "$keyed" "$work/slow.p12" && ! ls "$work/slow.p12".part-* 2>/dev/null || changed=1
    kill "$other" 2>/dev/null || :
    return "$changed"
}
holds a_store_that_changes_meanwhile_stays changed_meanwhile
with_nul() {
    printf 'a\0b\n' >"$work/nul"
    fails 22 PasswordUnusable NUL rekey "$keyed" --out "$work/nul.p12" --password-file "$keyed_password" --new-password-file "$work/nul" &&
        nothing_at "$work/nul.p12" &&
        fails 22 PasswordUnusable NUL export "$keyed" --out "$work/nul.d" --password-file "$keyed_password" --new-password-file "$work/nul" &&
        nothing_at "$work/nul.d"
}
holds a_new_password_with_a_nul_is_refused with_nul

# --- new algorithms ---

# A key, its certificate and another one with their names, in stores of OpenSSL: under Triple DES with a MAC of SHA-1, and as OpenSSL 3
# makes them.
legacy=$work/legacy.p12
modern=$work/modern.p12
openssl_stores() {
    openssl pkey -inform DER -in "$home/examples/openssl-key/key-0.der" -out "$work/key.pem" &&
        openssl x509 -inform DER -in "$home/examples/openssl-key/cert-0.der" -out "$work/cert.pem" &&
        openssl x509 -inform DER -in "$home/examples/openssl-default/cert-1.der" -out "$work/issuer.pem" || return 1
    set -- -export -inkey "$work/key.pem" -in "$work/cert.pem" -certfile "$work/issuer.pem" -name 'an older name' -passout "file:$work/p"
    openssl pkcs12 "$@" -iter 7 -keypbe PBE-SHA1-3DES -certpbe PBE-SHA1-3DES -macalg sha1 -out "$legacy" &&
        openssl pkcs12 "$@" -iter 7 -out "$modern"
}
[ -z "$(command -v openssl)" ] || holds stores_for_the_upgrades openssl_stores

# Changes the store $1 under the password of the file $2 to $3, under new algorithms with 1,000 rounds, with the further words.
upgrade() {
    old_store=$1 old_password=$2 new_store=$3
    shift 3
    rm -f "$new_store"
    ends 0 rekey "$old_store" --out "$new_store" --password-file "$old_password" --upgrade --rounds 1000 "$@"
}

# That OpenSSL opens the store $1 under the password of the file $2, and names no other algorithm, count or length of a salt than these:
# SHA-256 for the MAC, and PBES2 with AES-256 for all that is encrypted.
is_upgraded() {
    openssl pkcs12 -in "$1" -passin "file:$2" -info -noout 2>"$work/info" || return 1
    grep -qxF 'MAC: sha256, Iteration 1000' "$work/info" && grep -qxF 'MAC length: 32, salt length: 16' "$work/info" || return 1
    ! grep -e Encrypted -e Shrouded -e Iteration "$work/info" | grep -v '^MAC: ' |
        grep -vqxE '[A-Za-z0-9 ]+: PBES2, PBKDF2, AES-256-CBC, Iteration 1000, PRF hmacWithSHA256'
}

upgrades() {
    have_openssl upgrades || return 0
    for each in "$legacy" "$modern"; do
        upgrade "$each" "$work/p" "$work/upgraded.p12" --new-password-file "$work/new" && [ ! -s "$work/told" ] &&
            is_upgraded "$work/upgraded.p12" "$work/new" && [ "$(grep -c Iteration "$work/info")" -eq 3 ] || return 1
        taken_out "$each" "$work/p" >"$work/one" && taken_out "$work/upgraded.p12" "$work/new" >"$work/two" &&
            grep -qF 'an older name' "$work/two" && [ "$(grep -c 'BEGIN CERTIFICATE' "$work/two")" -eq 2 ] &&
            cmp "$work/one" "$work/two" || return 1
        openssl pkcs12 -in "$work/upgraded.p12" -passin "file:$work/new" -nodes -nocerts -out "$work/upgraded.pem" 2>"$work/told" &&
            opens_to_the_key "$work/upgraded.pem" pass: || return 1
    done
}
holds new_algorithms_keep_what_the_store_holds upgrades

upgrades_example() {
    have_openssl "upgrades_$1" || return 0
    example=$home/examples/$1
    openssl pkcs12 -in "$example/store.p12" -passin "file:$example/password" -noout 2>/dev/null || return 0
    upgrade "$example/store.p12" "$example/password" "$work/upgraded.p12" --new-password-file "$work/new" &&
        is_upgraded "$work/upgraded.p12" "$work/new" || return 1
    taken_out "$example/store.p12" "$example/password" >"$work/one" && taken_out "$work/upgraded.p12" "$work/new" >"$work/two" &&
        cmp "$work/one" "$work/two"
}
for example in "$home"/examples/*/store.p12; do
    example=$(basename "$(dirname "$example")")
    holds "new_algorithms_for_$example" upgrades_example "$example"
done

# --- stores of other programs, upgraded, are read by each of them ---

# Each maker makes the store $1 under the password in the file $work/old, and the lines of what it puts in, in $1.due. Names are in small
# letters, since a store of Java's knows no others.
echo 'old password' >"$work/old"

# A key with its chain.
chained() {
    pair 'an older name' "$work/ec.pem" "$work/ec-cert.pem" "$work/middle.pem" "$work/root.pem" >"$1.due"
}
of_openssl() {
    made=$1
    shift
    chained "$made" && openssl pkcs12 -export -inkey "$work/ec.pem" -in "$work/ec-cert.pem" -certfile "$work/issuers.pem" \
        -name 'an older name' -iter 7 -passout "file:$work/old" -out "$made" "$@" 2>"$work/told"
}
openssl_default() {
    of_openssl "$1"
}
openssl_triple_des() {
    of_openssl "$1" -keypbe PBE-SHA1-3DES -certpbe PBE-SHA1-3DES -macalg sha1
}
openssl_legacy() {
    of_openssl "$1" -legacy
}

# Three keys, with the chain of one.
three_keys() {
    {
        pair first "$work/rsa.pem" "$work/rsa-cert.pem" && pair second "$work/ec.pem" "$work/ec-cert.pem" "$work/middle.pem" "$work/root.pem" &&
            pair third "$work/ed.pem" "$work/ed-cert.pem"
    } >"$1.due"
}
of_keytool() {
    made=$1
    shift
    rm -f "$made" && three_keys "$made" || return 1
    for each in 'first rsa' 'second ec' 'third ed'; do
        openssl pkcs12 -export -name "${each% *}" -inkey "$work/${each#* }.pem" -in "$work/${each#* }-cert.pem" \
            -certfile "$work/issuers.pem" -passout "file:$work/old" -out "$work/one-key.p12" 2>"$work/told" &&
            keytool -importkeystore -noprompt -srckeystore "$work/one-key.p12" -srcstorepass:file "$work/old" -destkeystore "$made" \
                -deststoretype PKCS12 -deststorepass:file "$work/old" "$@" >"$work/told" 2>&1 || return 1
    done
}
keytool_default() {
    of_keytool "$1"
}
keytool_triple_des() {
    of_keytool "$1" -J-Dkeystore.pkcs12.certProtectionAlgorithm=PBEWithSHA1AndDESede -J-Dkeystore.pkcs12.certPbeIterationCount=7 \
        -J-Dkeystore.pkcs12.keyProtectionAlgorithm=PBEWithSHA1AndDESede -J-Dkeystore.pkcs12.keyPbeIterationCount=7 \
        -J-Dkeystore.pkcs12.macAlgorithm=HmacPBESHA1 -J-Dkeystore.pkcs12.macIterationCount=7
}
keytool_legacy() {
    of_keytool "$1" -J-Dkeystore.pkcs12.legacy
}

of_bouncycastle() {
    of_keytool "$work/to-import.p12" && mv "$work/to-import.p12.due" "$1.due" && java_class MakeStore &&
        java -cp "$work/java:$bouncycastle_jar" MakeStore "$work/to-import.p12" "$work/old" "$2" "$3" "$1" 2>"$work/told"
}
bouncycastle_default() {
    of_bouncycastle "$1" PKCS12 BER
}
bouncycastle_triple_des() {
    of_bouncycastle "$1" PKCS12-3DES-3DES DER
}

of_certtool() {
    made=$1
    shift
    pair 'by gnutls' "$work/rsa.pem" "$work/rsa-cert.pem" >"$made.due" &&
        certtool --to-p12 --load-privkey "$work/rsa.pem" --load-certificate "$work/rsa-cert.pem" --p12-name 'by gnutls' \
            --password "$(cat "$work/old")" --outder --outfile "$made" "$@" 2>"$work/told"
}
certtool_default() {
    of_certtool "$1"
}
certtool_triple_des() {
    of_certtool "$1" --pkcs-cipher 3des-pkcs12 --hash SHA1
}

pk12util_default() {
    openssl_default "$1" && rm -rf "$work/nss-of" && mkdir "$work/nss-of" && certutil -N -d "sql:$work/nss-of" --empty-password &&
        pk12util -i "$1" -d "sql:$work/nss-of" -w "$work/old" -K '' >"$work/told" 2>&1 && rm "$1" &&
        pk12util -o "$1" -n 'an older name' -d "sql:$work/nss-of" -w "$work/old" -K '' >"$work/told" 2>&1
}

of_cryptography() {
    chained "$2" && "${PYTHON:-python3}" "$home/tests/shared/make_with_cryptography.py" "$1" 'an older name' "$work/ec.pem" \
        "$work/ec-cert.pem" "$work/issuers.pem" "$work/old" "$2" 2>"$work/told"
}
cryptography_default() {
    of_cryptography default "$1"
}
cryptography_triple_des() {
    of_cryptography triple-des "$1"
}

# Makes a store by the maker $1 and upgrades it.
upgrades_store_of() {
    has_program "${1%%_*}" "$1" || return 0
    "$1" "$work/$1.p12" || return 1
    if ! upgrade "$work/$1.p12" "$work/old" "$work/upgraded-$1.p12" --new-password-file "$work/new" 2>"$work/differs"; then
        is_refused_by_name "$1" && echo "skipped $1: such a store is refused" && return 0
        cat "$work/differs" >&2
        return 1
    fi
    is_upgraded "$work/upgraded-$1.p12" "$work/new"
}
# The stores that are refused: under RC2, and in BER.
is_refused_by_name() {
    case $1 in
        *_legacy) head -n 1 "$work/told" | grep -q '^pkcs12: Unsupported (11): .*RC2' ;;
        pk12util_default | bouncycastle_default) head -n 1 "$work/told" | grep -q '^pkcs12: Malformed (10): .* BER' ;;
        *) return 1 ;;
    esac
}
upgraded_stores() {
    for each_maker in openssl_default openssl_triple_des openssl_legacy keytool_default keytool_triple_des keytool_legacy \
        bouncycastle_default bouncycastle_triple_des certtool_default certtool_triple_des pk12util_default cryptography_default \
        cryptography_triple_des; do
        holds "upgrades_a_store_of_$each_maker" upgrades_store_of "$each_maker"
        [ -f "$work/upgraded-$each_maker.p12" ] || continue
        for each_program in $other_programs; do
            holds "${each_program}_reads_an_upgraded_store_of_$each_maker" program_reads "$each_program" \
                "$work/upgraded-$each_maker.p12" "$work/new" "$work/$each_maker.p12.due" "${each_program}_of_$each_maker"
        done
    done
}
if have_openssl upgraded_stores; then
    holds pairs pairs
    upgraded_stores
fi

# A store of one encrypted content and one key, and its MAC: 3 counts of 1,000.
upgrade_limit() {
    have_openssl upgrade_limit || return 0
    rm -f "$work/limited.p12"
    fails 15 WorkLimit '3000 steps' rekey "$legacy" --out "$work/limited.p12" --password-file "$work/p" --new-password-file "$work/new" \
        --upgrade --rounds 1000 --limit 2999 && nothing_at "$work/limited.p12" &&
        upgrade "$legacy" "$work/p" "$work/limited.p12" --new-password-file "$work/new" --limit 3000 &&
        ends 0 check "$work/limited.p12" --password-file "$work/new" --limit 3000 &&
        fails 15 WorkLimit limit check "$work/limited.p12" --password-file "$work/new" --limit 2999
}
holds a_store_that_could_not_be_opened_again_is_not_made upgrade_limit

same_password() {
    have_openssl same_password || return 0
    upgrade "$legacy" "$work/p" "$work/same.p12" --same-password --verbose && grep -qF 'changed: every salt; ' "$work/told" &&
        is_upgraded "$work/same.p12" "$work/p" || return 1
    taken_out "$legacy" "$work/p" >"$work/one" && taken_out "$work/same.p12" "$work/p" >"$work/two" && cmp "$work/one" "$work/two"
}
holds the_password_can_stay same_password

# At a terminal the store's password alone is asked for.
asks_for_one() {
    have_openssl asks_for_one || return 0
    rm -f "$work/asked.p12"
    "$home/tests/shared/at_terminal.py" --answer p -- "$home/pkcs12" rekey "$legacy" --out "$work/asked.p12" --upgrade --rounds 1000 \
        --same-password >"$work/told" && is_upgraded "$work/asked.p12" "$work/p"
}
holds no_new_password_is_asked_for asks_for_one

upgrade_in_place() {
    have_openssl upgrade_in_place || return 0
    cp "$legacy" "$work/replaced.p12" && chmod 640 "$work/replaced.p12" &&
        ends 0 rekey "$work/replaced.p12" --in-place --password-file "$work/p" --upgrade --rounds 1000 --same-password &&
        [ "$(stat -c %a "$work/replaced.p12")" = 640 ] && is_upgraded "$work/replaced.p12" "$work/p"
}
holds a_store_is_upgraded_in_place upgrade_in_place

upgrade_default() {
    have_openssl upgrade_default || return 0
    rm -f "$work/default.p12"
    ends 0 rekey "$legacy" --out "$work/default.p12" --password-file "$work/p" --new-password-file "$work/new" --upgrade &&
        openssl pkcs12 -in "$work/default.p12" -passin "file:$work/new" -info -noout 2>"$work/info" &&
        [ "$(grep -c 'Iteration 600000' "$work/info")" -eq 3 ]
}
holds rounds_that_are_not_given_are_600000 upgrade_default

upgrade_usage() {
    set -- rekey "$keyed" --out "$work/usage.p12" --password-file "$keyed_password"
    fails 2 Usage '--rounds is for --upgrade' "$@" --new-password-file "$work/new" --rounds 1000 &&
        fails 2 Usage '--same-password is for --upgrade' "$@" --same-password &&
        fails 2 Usage '' "$@" --upgrade --same-password --new-password-file "$work/new" &&
        fails 2 Usage '1 to 100000000' "$@" --new-password-file "$work/new" --upgrade --rounds 0 &&
        fails 2 Usage '1 to 100000000' "$@" --new-password-file "$work/new" --upgrade --rounds 100000001 &&
        nothing_at "$work/usage.p12"
}
holds options_of_an_upgrade_go_with_it upgrade_usage

# Java opens no store under PBES2 whose password is not ASCII.
not_ascii() {
    printf 'p\303\244ssword\n' >"$work/accented"
    rm -f "$work/accented.p12"
    ends 0 rekey "$keyed" --out "$work/accented.p12" --password-file "$keyed_password" --new-password-file "$work/accented" \
        --upgrade --rounds 1000 && grep -qF 'not ASCII' "$work/told" || return 1
    command -v keytool >/dev/null || return 0
    ! LC_ALL=C.UTF-8 keytool -list -keystore "$work/accented.p12" -storepass "$(cat "$work/accented")" >/dev/null 2>&1
}
holds a_password_that_is_not_ascii_is_warned_of not_ascii

# What check says of the algorithms is what OpenSSL was told.
algorithms_told() {
    have_openssl algorithms_told || return 0
    ends 0 check "$legacy" --password-file "$work/p" && [ "$(grep -c '^encrypted under: ' "$work/said")" -eq 1 ] &&
        grep '^encrypted under: ' "$work/said" | grep -F 'Triple DES' | grep -qF ', 7 rounds' &&
        grep '^MAC: ' "$work/said" | grep -F 'SHA-1' | grep -qF ', 7 rounds' && grep -qF -- 'rekey --upgrade' "$work/said" &&
        ends 0 check "$modern" --password-file "$work/p" && [ "$(grep -c '^encrypted under: ' "$work/said")" -eq 1 ] &&
        grep '^encrypted under: ' "$work/said" | grep -F 'AES-256-CBC' | grep -F 'HMAC-SHA-256' | grep -qF '7 rounds' &&
        grep '^MAC: ' "$work/said" | grep -F 'SHA-256' | grep -qF ', 7 rounds' && ! grep -qF -- '--upgrade' "$work/said" &&
        ends 0 check "$legacy" --password-file "$work/p" --json && "${PYTHON:-python3}" -c '
import json, sys
found = json.load(sys.stdin)
[algorithm] = found["algorithms"]
assert "Triple DES" in algorithm and "7 rounds" in algorithm and "SHA-1" in found["mac"] and "7 rounds" in found["mac"]' <"$work/said"
}
holds check_tells_the_algorithms algorithms_told

exit "$failed"
