# shellcheck shell=sh disable=SC2034
# What the scripts share that build a program of their own: sourced, not run.
home=$(cd "$(dirname "$0")/.." && pwd)
runs=${RUNS:-5}
work=$(mktemp -d)
trap 'rm -rf "$work"' EXIT

# Proves and builds bench/$1/main.rt.txt as $program in a folder of its own, over what the crates' out/ folders keep of earlier
# proofs. $2 names the crates that it stands on, lowest first, $3 those that it uses itself; further words are arguments of a first,
# short run.
build() {
    folder=$1
    below=$2
    uses=$3
    shift 3
    program=$work/crates/bench_program/out/bench_program
    mkdir -p "$work/crates/bench_program/src"
    cp "$home/bench/$folder/main.rt.txt" "$work/crates/bench_program/src/main.rt"
    for crate in $below; do
        cp -a "$home/crates/$crate" "$work/crates"
        grep "^$crate:" "$home/crates.txt"
    done >"$work/crates.txt"
    echo "bench_program: $uses" >>"$work/crates.txt"
    (cd "$work/crates/bench_program" && rt run -- "$@") >"$work/build" 2>&1 || {
        tail -n 20 "$work/build" >&2
        echo "bench: the build of $folder failed" >&2
        exit 1
    }
}

# The user time in seconds of the words as a command, whose output is thrown away.
user_time() {
    ("$@" >/dev/null && times) | awk 'NR == 2 { split($1, part, /[ms]/); print part[1] * 60 + part[2] }'
}

# The least number in the file $1 of the work folder.
least() {
    sort -n "$work/$1" | head -n 1
}
