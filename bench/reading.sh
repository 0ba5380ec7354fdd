#!/bin/sh
# How long a run of a million records takes, as a ratio to a plain loop in Rust that only reads and judges the
# same bytes. Both run side by side, five times, and the ratio is that of the middle times. The one window is
# parted by marks, and there is none, so nothing is folded before the end of the source: what is timed is
# the reading, the journal and the report.
set -eu

top=$(cd "$(dirname "$0")/.." && pwd)
program="$top/crates/scotty_cli/out/scotty_cli"
[ -x "$program" ] || { echo "reading: build the program first, by bin/prove" >&2; exit 70; }

folder=$(mktemp -d)
trap 'rm -rf "$folder"' EXIT
cd "$folder"

rustc -O "$top/bench/plain_loop.rs" -o plain_loop
printf '[[window]]\nkind = "marks"\nfunc = "sum"\n' >defs.toml
awk 'BEGIN {
    srand(1)
    for (i = 0; i < 1000000; i++)
        printf "t,%d,%d,customer%d\n", 1700000000000 + 7 * i + int(50 * rand()), int(10000 * rand()) - 5000, int(50 * rand())
}' >source.csv

seconds() {
    start=$(date +%s%N)
    "$@" >said 2>&1 || true
    end=$(date +%s%N)
    echo "$start $end" | awk '{ printf "%.4f\n", ($2 - $1) / 1e9 }'
}

middle() {
    sort -n "$1" | sed -n 3p
}

for round in 1 2 3 4 5; do
    seconds ./plain_loop source.csv >>plain
    seconds "$program" run defs.toml 1 turns source.csv >>scotty
    [ "$(tail -n 1 said)" = end ]
done
echo "$(middle scotty) $(middle plain)" | awk '{ printf "scotty %.3f s, plain loop %.3f s, ratio %.2f\n", $1, $2, $1 / $2 }'
