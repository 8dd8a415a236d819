#!/bin/sh
# shellcheck disable=SC2034,SC2154
# Run by the gate after `rt ci`: lets ./pkcs12 and ./passdb take the libraries and programs that it has left in out/ for their own, so
# that no crate is proved again for the scripts of tests/. Libraries beside which there is a stamp are of another command of rt, and
# are left out.
set -eu

home=$(cd "$(dirname "$0")/../.." && pwd)
wrapper_home=$home
wrapper_name=take_gate
for top in pkcs12 passdb_command pkcs12_c; do
    wrapper_crate=$top
    # shellcheck source=wrapper/build.sh
    . "$home/wrapper/build.sh"
    find_kit
    find_sums "$(crates_below "$top")"
    for crate in $(crates_below "$top"); do
        of_gate=$home/crates/$crate/out/rlib/$crate.rlib
        [ -d "$of_gate" ] && [ ! -e "$home/crates/$crate/out/rlib/stamp" ] || continue
        rm -rf -- "$(library_of "$crate")"
        mkdir -p -- "$(library_of "$crate")"
        cp -al -- "$of_gate" "$(library_of "$crate")/$crate.rlib"
        found_sum "$crate" >"$(library_of "$crate")/sum"
    done
    [ ! -x "$wrapper_program" ] || sum_of_built "$wrapper_program" "$top" >"$wrapper_program.sum"
done
