#!/bin/sh
# What an insertion into a tree of about 1,000,000 pairs takes by its distance, the number of pairs with a greater
# key: in a tree with fingers at its ends, and in one without. 600,000 keys come in order, and then 400,000 late ones
# at the same distance, with one more in order after each. Told are the combines of a late one, and the ratio of
# the times: those of a processor, less that of a run with as many keys in order and none late. Both trees run
# in turn, five times, and each time is the middle one.
set -eu

top=$(cd "$(dirname "$0")/.." && pwd)
program="$top/crates/tree_times/out/tree_times"
[ -x "$program" ] || { echo "fingers: build the program first, by rt run in crates/tree_times" >&2; exit 70; }

folder=$(mktemp -d)
trap 'rm -rf "$folder"' EXIT
cd "$folder"

# Seconds of a processor.
seconds() {
    (
        "$program" near "$@" >said
        times >spent
    )
    tail -n 1 spent | tr 'ms' '  ' | awk '{ printf "%.4f\n", 60 * $1 + $2 + 60 * $3 + $4 }'
}

middle() {
    sort -n "$1" | sed -n 3p
}

for round in 1 2 3 4 5; do
    for tree in finger arena; do
        seconds $tree 1 1000000 0 >>"${tree}_in_order"
        grep -q '^1000000 pairs, sum 1000000, 0 combines$' said
    done
    for distance in 1 10 1000 100000; do
        for tree in finger arena; do
            seconds $tree $distance 600000 400000 >>"${tree}_$distance"
            grep -q '^1400000 pairs, sum 1400000,' said
            mv said "said_${tree}_$distance"
        done
    done
done

# The combines of one late insertion.
combines() {
    awk '{ printf "%.2f\n", $(NF - 1) / 400000 }' "said_$1"
}

# The seconds of all late insertions.
late() {
    echo "$(middle "$1_$2") $(middle "$1_in_order")" | awk '{ printf "%.4f\n", $1 - $2 }'
}

for distance in 1 10 1000 100000; do
    awk -v distance=$distance -v near="$(combines finger_$distance)" -v far="$(combines arena_$distance)" \
        -v fingers="$(late finger $distance)" -v plain="$(late arena $distance)" \
        'BEGIN { printf "distance %d: %s combines with fingers, %s without, ratio of times %.2f\n", distance, near, far, fingers / plain }'
done
