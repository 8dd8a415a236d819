#!/bin/sh
# How often opening a store asks for memory: as often for a store of four bags as for one of one bag and the same length,
# since bags are walked where they lie. Two tests of crates/transfer_tests, four_bags_are_transferred and one_bag_is_transferred,
# open such stores. Each run refuses one request for memory, the first, the second and so on; the least number at which a
# test passes is one more than its requests. The script ends with 1 where these numbers differ. It takes some minutes.
set -eu
cd "$(dirname "$0")/../crates/transfer_tests"
most=${MOST:-60}
four=
one=
number=0
while [ -z "$four" ] || [ -z "$one" ]; do
    number=$((number + 1))
    [ "$number" -le "$most" ] || {
        echo "bench: no store is opened though request $most is refused" >&2
        exit 1
    }
    answers=$(rt try --test --fail-alloc "$number" 2>&1 || true)
    passes() {
        printf '%s\n' "$answers" | grep -q "^test stores_opened::$1 \.\.\. ok\$"
    }
    [ -n "$four" ] || ! passes four_bags_are_transferred || four=$number
    [ -n "$one" ] || ! passes one_bag_is_transferred || one=$number
done
printf '%-16s %8s\n' "store of" "least N"
printf '%-16s %8s\n' "four bags" "$four"
printf '%-16s %8s\n' "one bag" "$one"
[ "$four" = "$one" ]
