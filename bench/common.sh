# shellcheck shell=sh disable=SC2034,SC2154
# What the scripts of this folder share: sourced, not run.
home=$(cd "$(dirname "$0")/.." && pwd)
program=${PROGRAM:-$home/crates/transfer_app/out/transfer_app}
runs=${RUNS:-5}
[ -x "$program" ] || {
    echo "bench: the program is not built: run rt run in crates/transfer_app" >&2
    exit 1
}
work=$(mktemp -d)
trap 'rm -rf "$work"' EXIT

# A store of the kind $1 and the number $2, as $work/$3 and its hexadecimal line as $work/$3.hex.
make_store() {
    "$home/bench/make_bench_store.py" "$1" "$2" "$work/$3"
}

# `SECONDS MIB` of our program on the store $1.
ours() {
    "$home/bench/measure.py" "$runs" "$work/$1.hex" "$program" transfer p unused 1 100000000
}

# `SECONDS MIB` of OpenSSL on the store $1.
openssls() {
    "$home/bench/measure.py" "$runs" /dev/null openssl pkcs12 -in "$work/$1" -nokeys -passin pass:p
}

have_openssl() {
    command -v openssl >/dev/null
}

# A row: what, seconds, MiB.
row() {
    printf '%-58s %10s %10s\n' "$1" "$2" "$3"
}

# A row of what the further words measure, under the label $1.
measured() {
    label=$1
    shift
    result=$("$@")
    row "$label" "${result% *}" "${result#* }"
}
