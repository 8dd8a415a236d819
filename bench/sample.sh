#!/bin/sh
# The command `sample` by its number of keys: it makes a store of so many keys and certificates, transfers it, and seals each key.
set -eu
# shellcheck source=bench/common.sh
. "$(dirname "$0")/common.sh"
printf '%12s %10s %22s %10s\n' keys seconds "microseconds per key" MiB
for keys in 1 10 100 1000 10000; do
    "$home/bench/measure.py" "$runs" /dev/null "$program" sample "$keys" | awk -v keys="$keys" '{
        printf "%12s %10s %22.1f %10s\n", keys, $1, $1 / keys * 1000000, $2 }'
done
