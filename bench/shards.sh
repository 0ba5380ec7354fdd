#!/bin/sh
# How long four sources into eight shards take, as a ratio to one source and one shard with the same million
# records. Both run side by side, five times, and the ratio is that of the middle times by the clock.
set -eu

top=$(cd "$(dirname "$0")/.." && pwd)
program="$top/crates/scotty_cli/out/scotty_cli"
[ -x "$program" ] || { echo "shards: build the program first, by bin/prove" >&2; exit 70; }

folder=$(mktemp -d)
trap 'rm -rf "$folder"' EXIT
cd "$folder"

printf 'every = 100\n\n[[window]]\nkind = "tumbling"\nlength = 1000\nfunc = "sum"\n' >defs.toml
awk 'BEGIN {
    srand(1)
    for (i = 0; i < 1000000; i++) {
        line = sprintf("t,%d,%d,customer%d", i, int(10000 * rand()) - 5000, int(1000 * rand()))
        print line >"all.csv"
        print line >("part" i % 4 ".csv")
    }
}'

seconds() {
    start=$(date +%s%N)
    "$@" >said
    end=$(date +%s%N)
    [ "$(tail -n 1 said)" = end ]
    echo "$start $end" | awk '{ printf "%.4f\n", ($2 - $1) / 1e9 }'
}

middle() {
    sort -n "$1" | sed -n 3p
}

for round in 1 2 3 4 5; do
    seconds "$program" run defs.toml 1 turns all.csv >>one
    seconds "$program" run defs.toml 8 turns part0.csv part1.csv part2.csv part3.csv >>four
done
echo "$(middle four) $(middle one)" |
    awk '{ printf "four sources and eight shards %.3f s, one of each %.3f s, ratio %.2f\n", $1, $2, $1 / $2 }'
