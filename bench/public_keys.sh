#!/bin/sh
# Microseconds to decode and to write a public key of RSA (294 octets) in memory, and the memory that a document of 16 MiB takes.
set -eu
# shellcheck source=bench/building.sh
. "$(dirname "$0")/building.sh"
passes=${PASSES:-1000000}

# The least microseconds of a pass of the mode $1, among the runs.
microseconds() {
    run=0
    while [ "$run" -lt "$runs" ]; do
        user_time "$program" "$1" "$passes"
        run=$((run + 1))
    done | sort -n | awk "NR == 1 { printf \"%.3f\", \$1 * 1000000 / $passes }"
}

# The largest resident set in MiB of the mode $1 with $2 passes.
mebibytes() {
    result=$("$home/bench/measure.py" 1 /dev/null "$program" "$1" "$2")
    echo "${result#* }"
}

line() {
    printf '%-52s %14s %8s\n' "$@"
}

build public_keys "octet_core asn1_core der_core spki" "asn1_core der_core spki" decode 2
line "a public key of 294 octets" microseconds MiB
line "decoded, borrowed" "$(microseconds decode)" "$(mebibytes decode 1000)"
line "decoded into memory of its own" "$(microseconds decode-owned)" "$(mebibytes decode-owned 1000)"
line "decoded, borrowed, and written into a buffer" "$(microseconds encode)" "$(mebibytes encode 1000)"
line "decoded, borrowed, and written by to_der" "$(microseconds to-der)" "$(mebibytes to-der 1000)"
line "16 MiB of octets" - "$(mebibytes octets 1)"
line "the same and a document of them" - "$(mebibytes document 1)"
