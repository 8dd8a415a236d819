# shellcheck shell=sh disable=SC2034,SC2154
# What the tests of the command share: sourced, not run.
failed=0

# Prints `ok NAME` or `not ok NAME`: the name $1, and the further words as a command that tells.
holds() {
    name=$1
    shift
    if "$@"; then
        echo "ok $name"
    else
        echo "not ok $name"
        [ ! -s "$work/told" ] || head -n 5 "$work/told" >&2
        failed=1
    fi
}

# Runs ./pkcs12 with the further words in a session without a terminal, and compares its exit number with $1. What it says is in
# $work/said and $work/told.
ends() {
    due=$1
    shift
    code=0
    setsid -w "$home/pkcs12" "$@" >"$work/said" 2>"$work/told" || code=$?
    [ "$code" -eq "$due" ] || {
        echo "pkcs12 $*: due is $due, found is $code" >&2
        return 1
    }
}

# The same, and the first line begins with this name of a failure, in $2, and has the text $3 in it.
fails() {
    name_due=$2 text_due=$3 number_due=$1
    shift 3
    ends "$number_due" "$@" || return 1
    head -n 1 "$work/told" | grep -F "pkcs12: $name_due ($number_due): " | grep -qF -- "$text_due"
}

# Nothing stands at the path $1 or beside it under its name.
nothing_at() {
    for left in "$1" "$1".*; do
        if [ -e "$left" ]; then
            echo "left: $left" >&2
            return 1
        fi
    done
}

plain=$home/examples/openssl-plain.p12
plain_password=$home/examples/password
keyed=$home/examples/openssl-key/store.p12
keyed_password=$home/examples/openssl-key/password
echo 'new password' >"$work/new"
: >"$work/empty"
out=$work/out

# The store with a key into the folder $1, with the further words.
export_keyed() {
    folder=$1
    shift
    ends 0 export "$keyed" --out "$folder" --password-file "$keyed_password" --new-password-file "$work/new" --rounds 1000 "$@"
}

# OpenSSL, which not every machine has.
have_openssl() {
    command -v openssl >/dev/null || {
        echo "skipped $1: there is no openssl"
        return 1
    }
}

# The key in the file $1 opens under the password, as openssl takes it in $2, to the one of openssl-key.
opens_to_the_key() {
    openssl pkey -in "$1" -passin "$2" -outform DER 2>"$work/told" | cmp -s - "$home/examples/openssl-key/key-0.der" ||
        openssl pkcs8 -topk8 -nocrypt -in "$1" -passin "$2" -outform DER 2>"$work/told" | cmp - "$home/examples/openssl-key/key-0.der"
}

"${PYTHON:-python3}" "$home/tests/shared/make_command_stores.py" "$work"
echo p >"$work/p"

# Builds the program where it is not built, and where it is older than a source.
[ -x "$home/crates/pkcs12/out/pkcs12" ] || "$home/pkcs12" build >&2
case $("$home/pkcs12" --version 2>&1 >/dev/null) in
    *'the program is older than '*) "$home/pkcs12" build >&2 ;;
esac
