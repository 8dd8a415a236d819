# shellcheck shell=sh disable=SC2154
# What the tests share that run a built program: sourced, not run.

# Builds the program of the crate $1 where it is missing or older than a source, and leaves its path in $program. What it is run on
# there does not matter, so what counts is whether it is there afterwards.
build() {
    program=$home/crates/$1/out/$1
    if [ -x "$program" ] && [ -z "$(find "$home/crates" -name out -prune -o -name '*.rt' -newer "$program" -print)" ]; then
        return
    fi
    rm -f "$program"
    echo "building $1: rt proves what is not proved yet" >&2
    built=$(cd "$home/crates/$1" && rt run </dev/null 2>&1) || :
    [ -x "$program" ] || {
        echo "$built" | tail -n 20 >&2
        echo "building: the program $1 is not built" >&2
        exit 1
    }
}
