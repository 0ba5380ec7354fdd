#!/bin/sh
# How long 1,000,000 tuples take to be put into slices of 100, in order and with one in ten late by less than 1,000,
# as a ratio to plain vectors in Rust with the same refolds. Both run side by side, fifteen times, and the ratio is
# that of the least times, which other work on the machine disturbs least. The store's partials lie in a flat tree.
set -eu

top=$(cd "$(dirname "$0")/.." && pwd)
program="$top/crates/store_times/out/store_times"
[ -x "$program" ] || { echo "store: build the program first, by rt run in crates/store_times" >&2; exit 70; }

folder=$(mktemp -d)
trap 'rm -rf "$folder"' EXIT
cd "$folder"

rustc -O "$top/bench/plain_store.rs" -o plain_store

seconds() {
    start=$(date +%s%N)
    "$@" >said
    end=$(date +%s%N)
    echo "$start $end" | awk '{ printf "%.4f\n", ($2 - $1) / 1e9 }'
}

least() {
    sort -n "$1" | sed -n 1p
}

for round in 1 2 3 4 5 6 7 8 9 10 11 12 13 14 15; do
    for what in in_order late; do
        seconds ./plain_store $what 1000000 >>"plain_$what"
        mv said expected
        seconds "$program" $what 1000000 >>"store_$what"
        cmp -s said expected || { echo "store: $what: the two differ" >&2; exit 1; }
    done
done

show() {
    awk -v what="$1" -v store="$2" -v plain="$3" \
        'BEGIN { printf "%s: store %.3f s, plain vectors %.3f s, ratio %.2f\n", what, store, plain, store / plain }'
}

show "in order" "$(least store_in_order)" "$(least plain_in_order)"
show "one in ten late" "$(least store_late)" "$(least plain_late)"
