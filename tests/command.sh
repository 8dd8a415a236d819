#!/bin/sh
# shellcheck disable=SC2154,SC2317 # the checks are called by name, and tests/shared/checks.sh sets names
# What ./pkcs12 writes, what it refuses and by which number, and that nothing is left half done.
# Prints `ok NAME` or `not ok NAME` for each, `skipped NAME` with the reason for what this machine has no means for, and ends with 1
# where one is not ok.
set -eu

home=$(cd "$(dirname "$0")/.." && pwd)
work=$(mktemp -d)
trap 'rm -rf "$work"' EXIT
# shellcheck source=tests/shared/checks.sh
. "$home/tests/shared/checks.sh"
# shellcheck source=tests/shared/fail_alloc.sh
. "$home/tests/shared/fail_alloc.sh"

# --- what is written ---

is_the_certificate() {
    openssl x509 -in "$1" -outform DER | cmp - "$2"
}
pem_is_read() {
    export_keyed "$out" && [ "$(ls "$out")" = "$(printf 'cert-0.pem\nkey-0.pem')" ] || return 1
    have_openssl pem_is_read || return 0
    is_the_certificate "$out/cert-0.pem" "$home/examples/openssl-key/cert-0.der" && opens_to_the_key "$out/key-0.pem" "file:$work/new"
}
holds pem_is_read_by_openssl pem_is_read

only_for_the_owner() {
    (umask 0 && export_keyed "$work/modes") || return 1
    [ "$(stat -c %a "$work/modes" "$work/modes/cert-0.pem" "$work/modes/key-0.pem" | tr '\n' ' ')" = "700 600 600 " ]
}
holds files_are_only_for_the_owner only_for_the_owner

der_is_written() {
    ends 0 export "$plain" --out "$work/der" --format der --password-file "$plain_password" || return 1
    cmp "$work/der/cert-0.der" "$home/examples/cert-0.der" && cmp "$work/der/cert-1.der" "$home/examples/cert-1.der" &&
        [ "$(ls "$work/der")" = "$(printf 'cert-0.der\ncert-1.der')" ]
}
holds der_without_new_password der_is_written

check_says() {
    ends 0 check "$keyed" --password-file "$keyed_password" || return 1
    [ "$(head -n 2 "$work/said")" = "$(printf 'certificates: 1\nprivate keys: 1')" ]
}
holds check_says_what_is_there check_says

# The attributes of the store $1 as OpenSSL tells them, in the words of check: $2 stands before each line.
labels() {
    openssl pkcs12 -in "$1" -passin "file:$2" "$3" -nodes 2>"$work/told" | awk -v kind="$4" '
        /^ *localKeyID:/ { sub(/^ *localKeyID: */, ""); gsub(/ /, ""); id = tolower($0) }
        /^ *friendlyName:/ { sub(/^ *friendlyName: */, ""); name = $0 }
        /^-----BEGIN/ {
            if (name != "" || id != "") printf "%s-%d: %s%s%s\n", kind, n, name == "" ? "" : "friendly name \"" name "\"",
                name != "" && id != "" ? ", " : "", id == "" ? "" : "local key id " id
            n++; name = ""; id = ""
        }'
}
# OpenSSL writes the server's certificate first, whose local key id the key has too.
names_and_pairs() {
    have_openssl names_and_pairs || return 0
    for made_by in openssl-default bouncycastle cryptography-default; do
        store=$home/examples/$made_by/store.p12 password=$home/examples/$made_by/password
        ends 0 check "$store" --password-file "$password" || return 1
        grep '^cert-\|^key-' "$work/said" >"$work/labels" || return 1
        { labels "$store" "$password" -nokeys cert; labels "$store" "$password" -nocerts key | sed 's/$/, belongs to cert-0/'; } |
            cmp - "$work/labels" || return 1
    done
}
holds check_names_bags_and_pairs names_and_pairs

# What sample.py computes, which shares no code with the program.
self_test() {
    ends 0 self-test && [ "$(wc -l <"$work/said")" -eq 5 ] || return 1
    if ! PYTHONPATH="$home/tests" PYTHONDONTWRITEBYTECODE=1 python3 "$home/tests/vectors/sample.py" 10 >"$work/sample" 2>/dev/null; then
        echo "skipped the comparison of self_test: python3 has no cryptography"
        return 0
    fi
    cmp "$work/sample" "$work/said"
}
holds the_self_test_gives_its_lines self_test

# --- passwords ---

holds empty_new_password_file fails 22 PasswordUnusable empty export "$keyed" --out "$work/none" --password-file "$keyed_password" \
    --new-password-file "$work/empty"
new_password_at_end_of_input() {
    fails 22 PasswordUnusable empty export "$keyed" --out "$work/none" --password-file "$keyed_password" --new-password-stdin </dev/null
}
holds new_password_at_end_of_input new_password_at_end_of_input
holds nothing_is_written_then nothing_at "$work/none"
empty_if_asked_for() {
    ends 0 export "$keyed" --out "$work/empty-new" --password-file "$keyed_password" --new-password-file "$work/empty" \
        --allow-empty-password --rounds 1 || return 1
    have_openssl empty_if_asked_for || return 0
    opens_to_the_key "$work/empty-new/key-0.pem" pass:
}
holds empty_new_password_if_asked_for empty_if_asked_for

holds no_password_and_no_terminal fails 8 PasswordMissing "no terminal" check "$plain"
holds no_new_password_and_no_terminal fails 9 NewPasswordMissing "private keys" export "$keyed" --out "$work/none" \
    --password-file "$keyed_password"
printf 'na\357ve\n' >"$work/latin1"
holds password_not_utf8 fails 22 PasswordUnusable UTF-8 check "$plain" --password-file "$work/latin1"
latin1_variable() {
    OLD=$(cat "$work/latin1")
    export OLD
    fails 22 PasswordUnusable UTF-8 check "$plain" --password-env OLD
}
holds variable_not_utf8 latin1_variable
head -c 1024 /dev/zero | tr '\0' x >"$work/longest"
longest_password() {
    ends 0 export "$keyed" --out "$work/longest-new" --password-file "$keyed_password" --new-password-file "$work/longest" --rounds 1 ||
        return 1
    have_openssl longest_password || return 0
    # openssl's own limit for a password file is shorter
    LONGEST=$(cat "$work/longest")
    export LONGEST
    openssl pkcs8 -in "$work/longest-new/key-0.pem" -passin env:LONGEST -outform DER 2>"$work/told" >"$work/key.der" &&
        openssl pkey -inform DER -in "$work/key.der" -outform DER 2>"$work/told" >"$work/key-again.der" &&
        openssl pkey -inform DER -in "$home/examples/openssl-key/key-0.der" -outform DER | cmp - "$work/key-again.der"
}
holds password_of_1024_octets longest_password
{ cat "$work/longest" && echo x; } >"$work/longer"
holds password_of_1025_octets fails 22 PasswordUnusable 1,024 check "$plain" --password-file "$work/longer"
# Of a longer line the front alone is read, which ends inside a letter here: that is no fault of its encoding.
{ head -c 1026 /dev/zero | tr '\0' x && printf '\303\251\n'; } >"$work/cut"
holds longer_line_is_cut_in_a_letter fails 22 PasswordUnusable 1,024 check "$plain" --password-file "$work/cut"
empty_store_password() {
    have_openssl empty_store_password || return 0
    openssl x509 -inform DER -in "$home/examples/cert-0.der" |
        openssl pkcs12 -export -nokeys -certpbe PBE-SHA1-3DES -macalg sha1 -passout pass: -out "$work/empty.p12" 2>"$work/told" || return 1
    ends 0 check "$work/empty.p12" --password-file "$work/empty"
}
holds store_with_an_empty_password empty_store_password
through_pipes() {
    printf '%s\r\nsecond line\n' "$(cat "$plain_password")" | ends 0 check "$plain" --password-file /dev/fd/3 3<&0 </dev/null || return 1
    cat "$plain" | ends 0 check - --password-file "$plain_password" || return 1
    ends 0 check "$plain" --password-stdin <"$plain_password" || return 1
    OLD=$(cat "$plain_password") && export OLD && ends 0 check "$plain" --password-env OLD || return 1
    mkfifo "$work/pipe" && { cat "$plain" >"$work/pipe" & } && ends 0 check "$work/pipe" --password-file "$plain_password"
}
holds passwords_and_stores_through_pipes through_pipes
# No more than the line is waited for.
open_pipe() {
    mkfifo "$work/$1" || return 1
    { cat "$plain_password" && exec sleep 30; } >"$work/$1" &
    writer=$!
    outcome=0
    timeout 10 setsid -w "$home/pkcs12" check "$plain" "$2" ${3:+"$3"} <"$4" >"$work/said" 2>"$work/told" || outcome=1
    kill "$writer"
    return "$outcome"
}
holds file_that_stays_open open_pipe open-file --password-file "$work/open-file" /dev/null
holds standard_input_that_stays_open open_pipe open-input --password-stdin "" "$work/open-input"
closed_input() {
    fails 3 ReadFault "Bad file descriptor" check - --password-file "$plain_password" <&- &&
        fails 3 ReadFault "Bad file descriptor" check "$plain" --password-stdin <&-
}
holds a_closed_standard_input_is_no_empty_one closed_input
holds input_gives_one_thing fails 2 Usage "only one of" check - --password-stdin
certificates_from_a_pipe() {
    cat "$plain" | ends 0 export - --out "$work/piped" --password-file "$plain_password" && [ -s "$work/piped/cert-1.pem" ]
}
holds certificates_from_a_pipe certificates_from_a_pipe
holds two_passwords fails 2 Usage "cannot be used" check "$plain" --password-stdin --password-file "$plain_password"
named_like_an_option() {
    ends 2 check -x.p12 && grep -q 'is given as ./-NAME' "$work/told" || return 1
    cp "$plain" "$work/-x.p12" && (cd "$work" && ends 0 check ./-x.p12 --password-file "$plain_password")
}
holds store_named_like_an_option named_like_an_option
holds no_such_variable fails 3 ReadFault "no environment variable" check "$plain" --password-env NO_SUCH
holds no_such_password_file fails 3 ReadFault "the password file $work/no-such: " check "$plain" --password-file "$work/no-such"
holds no_such_new_password_file fails 3 ReadFault "the new password file $work/no-such: " export "$keyed" --out "$work/none" \
    --password-file "$keyed_password" --new-password-file "$work/no-such"

# --- the output folder ---

mkdir "$work/full" "$work/free"
echo old >"$work/full/key-7.pem"
ln -s full "$work/link"
holds folder_not_empty_before_any_password fails 23 OutputExists "not empty" export "$keyed" --out "$work/full"
holds folder_is_a_file fails 23 OutputExists "not a folder" export "$keyed" --out "$plain"
holds folder_is_a_link fails 23 OutputExists "is a link" export "$keyed" --out "$work/link"
holds what_was_there_stays cmp -s "$work/full/key-7.pem" - <<END
old
END
holds folder_that_is_empty export_keyed "$work/free"
replaced_whole() {
    export_keyed "$work/full" --force && [ "$(ls "$work/full")" = "$(printf 'cert-0.pem\nkey-0.pem')" ] &&
        [ "$(ls -d "$work/full"*)" = "$work/full" ]
}
holds force_replaces_the_folder_whole replaced_whole
wrong_password_with_force() {
    fails 16 MacMismatch password export "$keyed" --out "$work/full" --force --password-file "$work/p" --new-password-file "$work/new" &&
        [ -s "$work/full/key-0.pem" ]
}
holds a_refusal_replaces_nothing wrong_password_with_force
# A store or a password in the folder that is replaced, by another path too; they have names that export writes.
mkdir "$work/inside"
ln -s inside "$work/to-inside"
cp "$keyed" "$work/inside/cert-7.der"
cp "$keyed_password" "$work/inside/key-7.pem"
holds store_in_the_replaced_folder fails 2 Usage "lies in" export "$work/inside/cert-7.der" --out "$work/inside" --force
holds store_there_through_a_link fails 2 Usage "lies in" export "$work/to-inside/cert-7.der" --out "$work/inside//" --force
store_on_input() {
    fails 2 Usage "lies in" export - --out "$work/inside" --force <"$work/inside/cert-7.der"
}
holds standard_input_in_the_replaced_folder store_on_input
holds password_in_the_replaced_folder fails 2 Usage "lies in" export "$keyed" --out "$work/inside" --force \
    --password-file "$work/full/../inside/key-7.pem"
holds new_password_in_the_replaced_folder fails 2 Usage "lies in" export "$keyed" --out "$work/inside" --force \
    --password-file "$keyed_password" --new-password-file "$work/inside/key-7.pem"
holds what_is_read_stays cmp "$keyed" "$work/inside/cert-7.der"
mkdir "$work/inside-not"
cp "$keyed" "$work/inside-not/store.p12"
name_alike() {
    ends 0 export "$work/inside-not/store.p12" --out "$work/inside" --force --password-file "$keyed_password" \
        --new-password-file "$work/new" --rounds 1000 && [ "$(ls "$work/inside")" = "$(printf 'cert-0.pem\nkey-0.pem')" ]
}
holds a_name_that_begins_alike_is_no_such name_alike
# A file of the folder that was replaced is mounted, so it cannot be removed; the new folder is there.
mounted_file() {
    mkdir -p "$work/mounted" && : >"$work/mounted/key-3.pem" || return 1
    if ! mount --bind "$work/new" "$work/mounted/key-3.pem" 2>/dev/null; then
        echo "skipped mounted_file: nothing can be mounted"
        return 0
    fi
    outcome=0
    export_keyed "$work/mounted" --force && [ "$(ls "$work/mounted")" = "$(printf 'cert-0.pem\nkey-0.pem')" ] &&
        grep -q '^pkcs12: .*/mounted\.old-[0-9]*, the folder that was replaced, could not be removed: ' "$work/told" || outcome=1
    umount "$work"/mounted.old-*/key-3.pem 2>/dev/null || umount "$work/mounted/key-3.pem"
    return "$outcome"
}
holds old_folder_that_cannot_be_removed mounted_file
# A run that was killed left this folder, and a process of its number comes again.
left_part() {
    code=0
    # shellcheck disable=SC2016
    sh -c 'mkdir "$1.part-$$" && exec "$2" export "$3" --out "$1" --password-file "$4"' sh "$work/left" "$home/crates/pkcs12/out/pkcs12" \
        "$plain" "$plain_password" 2>"$work/told" || code=$?
    [ "$code" -eq 4 ] && [ ! -e "$work/left" ] &&
        grep -q '^pkcs12: WriteFault (4): .*/left\.part-[0-9]* is left of a run that was killed$' "$work/told"
}
holds folder_left_of_a_killed_run left_part
holds no_folder_above fails 4 WriteFault "no-such" export "$keyed" --out "$work/no-such/out" --password-file "$keyed_password" \
    --new-password-file "$work/new"
holds folder_without_a_name fails 2 Usage "--out" export "$keyed" --out "$work/.."
slashes() {
    export_keyed "$work/slashes//" && [ -s "$work/slashes/key-0.pem" ]
}
holds folder_with_slashes_behind slashes

full_disk() {
    mkdir "$work/disk"
    if ! mount -t tmpfs -o size=8k tmpfs "$work/disk" 2>/dev/null; then
        echo "skipped full_disk: no tmpfs can be mounted"
        return 0
    fi
    outcome=0
    fails 4 WriteFault "output folder" export "$home/examples/keytool/store.p12" --out "$work/disk/out" \
        --password-file "$home/examples/keytool/password" && [ -z "$(ls -A "$work/disk")" ] || outcome=1
    umount "$work/disk"
    return "$outcome"
}
holds a_full_disk_leaves_nothing full_disk
full_output() {
    code=0
    setsid -w "$home/pkcs12" check "$plain" --password-file "$plain_password" >/dev/full 2>"$work/told" || code=$?
    [ "$code" -eq 4 ] && grep -q '^pkcs12: WriteFault (4): ' "$work/told"
}
holds an_output_that_is_full full_output

strange_names() {
    cp "$plain" "$work/-dash é.p12"
    (cd "$work" && ends 0 export --password-file "$plain_password" --out='-out é x' -- '-dash é.p12') &&
        [ -s "$work/-out é x/cert-1.pem" ]
}
holds names_with_spaces_dashes_and_letters strange_names

# --- refusals, by their numbers ---

holds no_store_of_an_empty_name fails 3 ReadFault "the store" check "" --password-file "$plain_password"
holds empty_subcommand ends 2 ""
holds no_arguments ends 2
holds wrong_password fails 16 MacMismatch "password is wrong" check "$plain" --password-file "$work/new"
holds low_limit fails 15 WorkLimit "--limit" check "$plain" --password-file "$plain_password" --limit 2047
# The store takes 6,144 steps: 2,048 for the MAC, for the certificates and for the key. What is seen of them before it is opened is fewer.
one_step_too_few() {
    folder=$home/examples/openssl-default
    fails 15 WorkLimit "opening the store takes more than the 6143 steps that --limit allows" check "$folder/store.p12" \
        --password-file "$folder/password" --limit 6143 && grep -q 'a larger limit than 6143' "$work/told" &&
        ends 0 check "$folder/store.p12" --password-file "$folder/password" --limit 6144
}
holds a_limit_of_one_step_too_few one_step_too_few
holds no_store fails 10 Malformed "not a PKCS#12 store" check "$home/examples/cert-0.der" --password-file "$plain_password"
holds no_store_before_any_password fails 10 Malformed "not a PKCS#12 store" check "$home/examples/cert-0.der"
holds rounds_have_bounds fails 2 Usage "1 to 100000000" export "$keyed" --out "$work/none" --rounds 0
holds limit_has_bounds fails 2 Usage "0 to 18446744073709551615" check "$plain" --limit -1
holds format_has_two_values fails 2 Usage "pem or der" export "$keyed" --out "$work/none" --format txt
holds no_such_store fails 3 ReadFault "No such file" check "$work/no-such.p12"

# The store of the row $1 of tests/vectors/damaged_stores.txt.
damaged_store() {
    awk -v row="$1" '$1 == row { print toupper($NF) }' "$home/tests/vectors/damaged_stores.txt" | basenc --base16 --decode
}

# Stores with a MAC of SHA-512, under PBES2 with scrypt and with a stated length of the key that is not the cipher's, and under RC2, of
# which the first and the last open without --modern-only (tests/old_stores.sh); those
# that open are one of OpenSSL's default and two under PBES2 with Triple DES.
other_algorithms() {
    have_openssl other_algorithms || return 0
    openssl pkey -inform DER -in "$home/examples/openssl-key/key-0.der" -out "$work/key.pem" &&
        openssl x509 -inform DER -in "$home/examples/openssl-key/cert-0.der" -out "$work/cert.pem" &&
        openssl pkcs12 -export -inkey "$work/key.pem" -in "$work/cert.pem" -passout pass:p -out "$work/default.p12" &&
        openssl pkcs12 -export -inkey "$work/key.pem" -in "$work/cert.pem" -macalg sha512 -passout pass:p -out "$work/sha512.p12" &&
        openssl pkcs12 -export -inkey "$work/key.pem" -in "$work/cert.pem" -certpbe DES-EDE3-CBC -passout pass:p -out "$work/triple.p12" &&
        openssl pkcs12 -export -inkey "$work/key.pem" -in "$work/cert.pem" -keypbe DES-EDE3-CBC -passout pass:p \
            -out "$work/triple-key.p12" || return 1
    echo p >"$work/p"
    ends 0 check "$work/default.p12" --password-file "$work/p" &&
        fails 13 MacUnsupported "SHA-512 (2.16.840.1.101.3.4.2.3)" check "$work/sha512.p12" --password-file "$work/p" --modern-only &&
        ends 0 check "$work/triple.p12" --password-file "$work/p" &&
        ends 0 check "$work/triple-key.p12" --password-file "$work/p" || return 1
    damaged_store pbes2_scrypt >"$work/scrypt.p12"
    damaged_store pbes2_key_length_24 >"$work/key-length.p12"
    fails 11 Unsupported "a content is encrypted by PBES2 with scrypt (1.3.6.1.4.1.11591.4.11) and AES-256-CBC" \
        check "$work/scrypt.p12" --password-file "$work/p" --modern-only &&
        fails 11 Unsupported "a private key is encrypted by PBES2 with a key of 24 octets for AES-256-CBC (2.16.840.1.101.3.4.1.42), which takes 32" \
            check "$work/key-length.p12" --password-file "$work/p" || return 1
    if ! openssl pkcs12 -export -legacy -inkey "$work/key.pem" -in "$work/cert.pem" -passout pass:p -out "$work/rc2.p12" 2>/dev/null; then
        echo "skipped RC2: this openssl does not write it"
        return 0
    fi
    fails 11 Unsupported "pbeWithSHAAnd40BitRC2-CBC (1.2.840.113549.1.12.1.6)" check "$work/rc2.p12" --password-file "$work/p" --modern-only
}
holds other_algorithms_are_named other_algorithms

# The commands that the refusal prints, with passwords in place of questions: what they make is opened to the same key.
recipe() {
    have_openssl recipe || return 0
    fails 13 MacUnsupported SHA-512 check "$work/sha512.p12" --password-file "$work/p" --modern-only || return 1
    grep -E '^    (openssl|rm) ' "$work/told" | sed -e "s|STORE.p12 -nocerts|$work/sha512.p12 -passin pass:p -nocerts|" \
        -e "s|STORE.p12|$work/sha512.p12 -passin pass:p -passout pass:middle|" \
        -e "s|-in anew.pem|-in anew.pem -passin pass:middle|" -e "s|NEW.p12|$work/anew.p12 -passout pass:q|" >"$work/recipe.sh"
    [ "$(wc -l <"$work/recipe.sh")" -eq 4 ] && [ "$(cd "$work" && sh -e recipe.sh)" = 1 ] || return 1
    echo q >"$work/q"
    ends 0 export "$work/anew.p12" --out "$work/anew" --password-file "$work/q" --new-password-file "$work/new" --rounds 1 &&
        opens_to_the_key "$work/anew/key-0.pem" "file:$work/new" && [ ! -e "$work/anew.pem" ]
}
holds the_recipe_makes_a_store_that_is_opened recipe

# README's command of Java, with passwords in place of questions, for a store of two keys.
recipe_of_java() {
    command -v keytool >/dev/null || {
        echo "skipped recipe_of_java: there is no keytool"
        return 0
    }
    echo password >"$work/java-password"
    for name in one two; do
        keytool -J-Dkeystore.pkcs12.legacy -genkeypair -alias "$name" -keyalg EC -dname "CN=$name" -keystore "$work/java.p12" -storetype PKCS12 \
            -storepass password -keypass password >"$work/told" 2>&1 || return 1
    done
    fails 11 Unsupported "pbeWithSHAAnd40BitRC2-CBC" check "$work/java.p12" --password-file "$work/java-password" --modern-only || return 1
    sed -n '/^    keytool /p' "$home/docs/STORES.md" | sed -e "s|STORE.p12|$work/java.p12 -srcstorepass password|" \
        -e "s|NEW.p12|$work/java-anew.p12 -deststorepass password|" >"$work/recipe.sh"
    sh -e "$work/recipe.sh" >"$work/told" 2>&1 && ends 0 check "$work/java-anew.p12" --password-file "$work/java-password" &&
        [ "$(head -n 2 "$work/said")" = "$(printf 'certificates: 2\nprivate keys: 2')" ]
}
holds the_recipe_of_java recipe_of_java

# --- stores made by hand ---


not_exported() {
    ends 0 check "$work/passed.p12" --password-file "$work/p" || return 1
    cat >"$work/due" <<'END'
certificates: 0
private keys: 0
not exported: 1, a private key that is not encrypted (keyBag)
not exported: 2, a certificate revocation list (crlBag)
not exported: 1, a secret (secretBag)
not exported: 1, bags inside a bag (safeContentsBag)
END
    head -n 6 "$work/said" | cmp "$work/due" - && [ "$(tail -n +7 "$work/said" | head -n 1)" = 'MAC: HMAC with SHA-1, 1 round' ] || return 1
    fails 25 NotExported "nothing was written" export "$work/passed.p12" --out "$work/none" --password-file "$work/p" &&
        nothing_at "$work/none" && tail -n +3 "$work/due" | while IFS= read -r line; do grep -qxF "$line" "$work/told" || return 1; done
}
holds what_is_not_exported_is_named not_exported
holds ber_is_named fails 10 Malformed "in BER, and only DER is read: an element of indefinite length begins at octet 0" \
    check "$work/ber.p12" --password-file "$work/p" --modern-only
holds a_long_length_is_named fails 10 Malformed "a length in more octets than it takes begins at octet 0" \
    check "$work/long.p12" --password-file "$work/p" --modern-only
holds a_string_in_parts_is_named fails 10 Malformed "a string in parts begins at octet 20" \
    check "$work/parts.p12" --password-file "$work/p" --modern-only
holds pem_is_named fails 10 Malformed "PEM text" check "$work/pem.p12" --password-file "$work/p"

# In processor time, the least of three, so that other work on the machine does not count.
many() {
    "${PYTHON:-python3}" - "$home/pkcs12" export "$work/many.p12" --out "$work/many" --force --password-file "$work/p" <<'END' || return 1
import resource
import subprocess
import sys


def used():
    usage = resource.getrusage(resource.RUSAGE_CHILDREN)
    return usage.ru_utime + usage.ru_stime


least = 60
for _ in range(3):
    before = used()
    subprocess.run(sys.argv[1:], check=True, stderr=subprocess.DEVNULL)
    least = min(least, used() - before)
print(f"3,000 certificates: {least:.3f} seconds of a processor")
sys.exit(0 if least < 1 else 1)
END
    [ "$(find "$work/many" -type f | wc -l)" -eq 3000 ]
}
holds three_thousand_certificates_in_a_second many

# --- memory ---

# Each allocation fails in turn.
each_allocation_fails() {
    make_fail_alloc || return 0
    number=0
    code=7
    while [ "$code" -eq 7 ] && [ "$number" -lt 1000 ]; do
        number=$((number + 1))
        nothing_at "$work/memory" || return 1
        code=0
        FAIL_ALLOC=$number LD_PRELOAD=$work/fail_alloc.so "$home/crates/pkcs12/out/pkcs12" export "$keyed" --out "$work/memory" \
            --password-file "$keyed_password" --new-password-file "$work/new" --rounds 1 2>"$work/told" || code=$?
    done
    echo "$((number - 1)) allocations"
    [ "$code" -eq 0 ] && [ "$number" -gt 50 ] && [ -s "$work/memory/key-0.pem" ]
}
holds each_allocation_that_fails_is_an_error each_allocation_fails

exit "$failed"
