#!/bin/sh
# How long a tree of partial aggregates takes for a million insertions in order, a million at random and a million
# removals, as ratios to the standard library's BTreeMap in plain Rust, which keeps no aggregates. Both run side by
# side, five times, and each ratio is that of the middle times. What removals take is the time of a run
# that fills and empties the tree, less that of one that fills it.
set -eu

top=$(cd "$(dirname "$0")/.." && pwd)
program="$top/crates/tree_times/out/tree_times"
[ -x "$program" ] || { echo "trees: build the program first, by rt run in crates/tree_times" >&2; exit 70; }

folder=$(mktemp -d)
trap 'rm -rf "$folder"' EXIT
cd "$folder"

rustc -O "$top/bench/plain_tree.rs" -o plain_tree

seconds() {
    start=$(date +%s%N)
    "$@" >said
    end=$(date +%s%N)
    echo "$start $end" | awk '{ printf "%.4f\n", ($2 - $1) / 1e9 }'
}

middle() {
    sort -n "$1" | sed -n 3p
}

for round in 1 2 3 4 5; do
    for what in rising scattered removed; do
        seconds ./plain_tree $what 1000000 >>"plain_$what"
        mv said expected
        seconds "$program" $what 1000000 >>"tree_$what"
        cmp -s said expected
    done
done

show() {
    awk -v what="$1" -v tree="$2" -v plain="$3" \
        'BEGIN { printf "%s: tree %.3f s, BTreeMap %.3f s, ratio %.2f\n", what, tree, plain, tree / plain }'
}

less() {
    echo "$1 $2" | awk '{ printf "%.4f\n", $1 - $2 }'
}

show "insertions in order" "$(middle tree_rising)" "$(middle plain_rising)"
show "insertions at random" "$(middle tree_scattered)" "$(middle plain_scattered)"
show "removals" "$(less "$(middle tree_removed)" "$(middle tree_scattered)")" \
    "$(less "$(middle plain_removed)" "$(middle plain_scattered)")"
