#!/bin/sh
# Tries wrong bodies that the gate does not try, since most of these crates would be proved once more for them:
#
#     tests/wrong_bodies/try.sh [CRATE...]
#
# The folder of a crate has one edit a file, in the form of those in crates/*/must-fail, which `rt ci` tries. The crate is proved in a
# copy, where earlier checks have not left it proved, and then each edit has to be refused. With no CRATE, all of them are tried.
# Prints what `rt must-fail` says of each, and ends with 1 where one is not refused.
set -eu

here=$(cd "$(dirname "$0")" && pwd)
home=$(cd "$here/../.." && pwd)
work=$(mktemp -d)
trap 'rm -rf "$work"' EXIT
trap 'exit 130' HUP INT TERM

if [ $# -eq 0 ]; then
    for folder in "$here"/*/; do
        set -- "$@" "$(basename "$folder")"
    done
fi
(cd "$home" && tar -c --exclude='crates/*/out' crates crates.txt HANDLES) | tar -x -C "$work"
for crate in "$@"; do
    mkdir -p "$work/crates/$crate/must-fail"
    cp "$here/$crate"/*.edit "$work/crates/$crate/must-fail"
done
cd "$work"
rt must-fail "$@"
