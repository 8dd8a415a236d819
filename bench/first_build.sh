#!/bin/sh
# Clones the repository as it is committed, builds ./pkcs12 there for the first time, and prints how long each crate and the whole took:
#
#     bench/first_build.sh
#
# The last line has the minutes of the clock and of the machine's processors, and for how many of these minutes the machine gave its
# processors to others (`steal`, where the machine is a virtual one). Nothing else should run meanwhile. Needs Linux.
set -eu

home=$(cd "$(dirname "$0")/.." && pwd)
work=$(mktemp -d)
trap 'rm -rf "$work"' EXIT
trap 'exit 130' HUP INT TERM

# The hundredths of a second that the processors worked, and those that others had them.
busy() { awk '$1 == "cpu" { print $2 + $3 + $4 }' /proc/stat; }
stolen() { awk '$1 == "cpu" { print $9 }' /proc/stat; }
minutes() { awk -v ticks="$1" 'BEGIN { printf "%.1f", ticks / 6000 }'; }

git clone -q -- "$home" "$work/clone"
began=$(date +%s)
busy=$(busy)
stolen=$(stolen)
"$work/clone/pkcs12" build 2>&1 | while IFS= read -r line; do
    printf '%s  %s\n' "$(awk -v seconds="$(($(date +%s) - began))" 'BEGIN { printf "%5.1f", seconds / 60 }')" "$line"
done
if [ ! -x "$work/clone/crates/pkcs12/out/pkcs12" ]; then
    trap - EXIT
    echo "The build failed. The clone stays in $work/clone." >&2
    exit 1
fi
echo "$(minutes $((($(date +%s) - began) * 100))) minutes, $(minutes $(($(busy) - busy))) of processors, $(minutes $(($(stolen) - stolen))) stolen, $(nproc) processors"
