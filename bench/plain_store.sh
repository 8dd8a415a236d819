#!/bin/sh
# Time and memory for a store of 16,000,000 octets that is not encrypted, and the time of starting; beside OpenSSL.
set -eu
# shellcheck source=bench/common.sh
. "$(dirname "$0")/common.sh"

to_hexadecimal() {
    "$home/bench/measure.py" "$runs" "$work/large" sh -c "basenc --base16 --wrap=0 | tr A-F a-f"
}

openssl_starts() {
    "$home/bench/measure.py" "$runs" /dev/null openssl version
}

make_store plain 16000000 large
make_store smallest 1 smallest

if have_openssl; then
    "$home/bench/compare.py" "$runs" "$work/large.hex" "$program" transfer p unused 1 100000000 -- \
        /dev/null openssl pkcs12 -in "$work/large" -nokeys -passin pass:p >"$work/both"
    {
        read -r wall cpu memory
        read -r other_wall other_cpu other_memory
    } <"$work/both"
    printf '%-58s %10s %10s %10s\n' "one plain certificate, store of 16,000,000 octets" seconds processor MiB
    printf '%-58s %10s %10s %10s\n' "  this program, hexadecimal on its input" "$wall" "$cpu" "$memory"
    printf '%-58s %10s %10s %10s\n' "  openssl pkcs12 -nokeys" "$other_wall" "$other_cpu" "$other_memory"
    awk "BEGIN { printf \"%-58s %10.2f %10.2f\\n\", \"  ratio\", $wall / $other_wall, $cpu / $other_cpu }"
else
    row "one plain certificate, store of 16,000,000 octets" seconds MiB
    measured "  this program, hexadecimal on its input" ours large
fi
measured "  basenc and tr, which make its input" to_hexadecimal

runs=50
row "starting" seconds MiB
measured "  this program on a store of 131 octets" ours smallest
if have_openssl; then
    measured "  openssl version" openssl_starts
fi
