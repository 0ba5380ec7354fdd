#!/bin/sh
# What a record costs where there are 100,000 keys and a watermark comes after each 100 tuples: in the processor
# time of 10,000, of 100,000 and of a million records, as ratios to the first. They run side by side, five times,
# and each time is the middle one. The fewest are run 20 times over, since one run takes a few hundredths of a second.
set -eu

top=$(cd "$(dirname "$0")/.." && pwd)
program="$top/crates/scotty_cli/out/scotty_cli"
[ -x "$program" ] || { echo "keys: build the program first, by bin/prove" >&2; exit 70; }

folder=$(mktemp -d)
trap 'rm -rf "$folder"' EXIT
cd "$folder"

printf 'every = 100\n\n[[window]]\nkind = "tumbling"\nlength = 1000\nfunc = "sum"\n' >defs.toml
awk 'BEGIN {
    srand(1)
    for (i = 0; i < 1000000; i++) {
        line = sprintf("t,%d,%d,customer%d", i, int(10000 * rand()) - 5000, int(100000 * rand()))
        print line >"1000000.csv"
        if (i < 100000) print line >"100000.csv"
        if (i < 10000) print line >"10000.csv"
    }
}'

# Microseconds of processors for each of so many records, in so many runs.
cost() {
    (
        for run in $(seq "$2"); do
            "$program" run defs.toml 1 turns "$1.csv" >said
            [ "$(tail -n 1 said)" = end ]
        done
        times >spent
    )
    tail -n 1 spent | tr 'ms' '  ' |
        awk -v records="$1" -v runs="$2" '{ printf "%.4f\n", (60 * $1 + $2 + 60 * $3 + $4) / records / runs * 1e6 }'
}

middle() {
    sort -n "$1" | sed -n 3p
}

for round in 1 2 3 4 5; do
    cost 10000 20 >>few
    cost 100000 3 >>more
    cost 1000000 1 >>many
done
echo "$(middle few) $(middle more) $(middle many)" |
    awk '{ printf "10,000 records %.2f us each, 100,000 %.2f us, ratio %.2f, 1,000,000 %.2f us, ratio %.2f\n", $1, $2, $2 / $1, $3, $3 / $1 }'
