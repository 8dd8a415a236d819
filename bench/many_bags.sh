#!/bin/sh
# How time and memory grow with the number of bags and of contents.
set -eu
# shellcheck source=bench/common.sh
. "$(dirname "$0")/common.sh"

line() {
    printf '%-10s %8s %10s %10s %12s %8s %20s\n' "$@"
}

# One row for $2 parts of the kind $1.
measure() {
    make_store "$1" "$2" store
    octets=$(wc -c <"$work/store" | tr -d ' ')
    result=$(ours store)
    seconds=${result% *}
    mebibytes=${result#* }
    line "$1" "$2" "$octets" "$seconds" "$(awk "BEGIN { printf \"%.2f\", $seconds / $2 * 1e6 }")" "$mebibytes" \
        "$(awk "BEGIN { printf \"%.1f\", $mebibytes * 1048576 / $octets }")"
}

# A tenth of the number $2 of parts of the kind $1, and that number.
pair() {
    measure "$1" $(($2 / 10))
    tenth=$seconds
    measure "$1" "$2"
    echo "ten times the number of $1 takes $(awk "BEGIN { printf \"%.1f\", $seconds / $tenth }") times the time"
}

line parts number octets seconds "us per part" MiB "memory per octet"
pair bags 100000
pair contents 60000

# The shortest bags that there are, as many as a store can have, in each program: how much more memory than the store has they take.
printf '\n%-40s %10s %8s\n' "1,864,000 bags of nine octets" seconds MiB
make_store shortest 1864000 store
# A row of the program $1 with the other arguments.
of_program() {
    label=$1
    built=$home/crates/$1/out/$1
    shift
    if [ -x "$built" ]; then
        # shellcheck disable=SC2046
        printf '%-40s %10s %8s\n' "$label" $("$home/bench/measure.py" "$runs" "$work/store.hex" "$built" "$@")
    fi
}
of_program transfer_app transfer p unused 1 100000000
of_program inventory inventory p 100000000
of_program rekey rekey 100000000 p q
