#!/bin/sh
# The program rekey: beside transfer_app where both derive as often, and by the number of keys.
set -eu
# shellcheck source=bench/common.sh
. "$(dirname "$0")/common.sh"
rekey=$home/crates/rekey/out/rekey
[ -x "$rekey" ] || {
    echo "bench: the program is not built: run rt run in crates/rekey" >&2
    exit 1
}

# A row for a store of the kind $1 with $2 rounds, under the label $3.
beside_transfer() {
    make_store "$1" "$2" store
    "$home/bench/compare.py" "$runs" "$work/store.hex" "$rekey" rekey 100000000 p q -- "$work/store.hex" \
        "$program" transfer p q "$2" 100000000 >"$work/both"
    awk -v label="$3" '{ cpu[NR] = $2 } END { printf "%-40s %12s %12s %8.2f\n", label, cpu[1], cpu[2], cpu[1] / cpu[2] }' "$work/both"
}
printf '%-40s %12s %12s %8s\n' "keys under AES-256, and their rounds" rekey transfer ratio
for rounds in 2048 100000; do
    beside_transfer keys-aes "$rounds" "10, $rounds"
done
for rounds in 2048 100000; do
    beside_transfer hundred-keys-aes "$rounds" "100, $rounds"
done
printf '\n%-40s %10s %22s %10s\n' "keys under Triple DES, counts 1" seconds "microseconds per key" MiB
for keys in 500 1000 2000 4000 8000; do
    make_store keys "$keys" store
    "$home/bench/measure.py" "$runs" "$work/store.hex" "$rekey" rekey 100000000 p q |
        awk -v keys="$keys" '{ printf "%-40s %10s %22.1f %10s\n", keys, $1, $1 / keys * 1000000, $2 }'
done
