#!/bin/sh
# What it costs that the command opens old stores too. `check` beside `check --modern-only`, by turns, on stores that both open, in seconds of a
# processor; and `check` of a store of 16,000,000 octets in BER beside the same in DER, with memory for each octet of the store. The program
# is the built command, or PROGRAM. Needs Python 3 with the package cryptography.
set -eu

home=$(cd "$(dirname "$0")/.." && pwd)
PROGRAM=${PROGRAM:-$home/crates/pkcs12/out/pkcs12}
[ -x "$PROGRAM" ] || {
    echo "bench: the program is not built: run ./pkcs12 build" >&2
    exit 1
}
# shellcheck source=bench/common.sh
. "$home/bench/common.sh"
echo p >"$work/password"

# A row for the kind $1 of $2 parts: `check` and `check --modern-only`.
both() {
    make_store "$1" "$2" store
    "$home/bench/compare.py" "$runs" \
        /dev/null "$program" check "$work/store" --password-file "$work/password" -- \
        /dev/null "$program" check --modern-only "$work/store" --password-file "$work/password" >"$work/told"
    awk -v what="$1 $2" '{ cpu[NR] = $2 } END { printf "%-28s %10.3f %14.3f %8.3f\n", what, cpu[1], cpu[2], cpu[1] / cpu[2] }' "$work/told"
}

printf '%-28s %10s %14s %8s\n' 'stores of today' check --modern-only ratio
both plain 16000000
both bags 100000
both keys-aes 50000
both sealed-aes 8000000
echo

make_store plain 16000000 der
make_store ber 16000000 ber
"$home/bench/compare.py" "$runs" \
    /dev/null "$program" check "$work/der" --password-file "$work/password" -- \
    /dev/null "$program" check "$work/ber" --password-file "$work/password" >"$work/told"
printf '%-28s %10s %10s %10s %8s\n' 'one certificate' octets seconds MiB 'octets of memory for one'
at=0
for form in der ber; do
    at=$((at + 1))
    sed -n "${at}p" "$work/told" | awk -v what="in $(echo "$form" | tr a-z A-Z)" -v octets="$(wc -c <"$work/$form")" \
        '{ printf "%-28s %10d %10.3f %10.1f %8.2f\n", what, octets, $2, $3, $3 * 1048576 / octets }'
done
