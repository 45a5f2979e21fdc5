#!/usr/bin/env bash
# Times runs on made networks of two sizes, one twice the other, and prints the user seconds of each, the least of five
# runs, and their ratio.
#   bench/drop.sh [N]        N is 1000 unless given; the program is crates/mvopt/out/mvopt (`make demo` builds it)
# loose: `drop` on a chain of N and of 2N tables that nobody sees, which all go, the last first
# wide:  `drop` on N and on 2N tables on one input that nobody reads, which all go, the first first
# kept:  `drop` on a chain of 100N - 1 tables and of twice as many that is seen at its end, so nothing goes
# none:  the same chain with an empty script
. "$(dirname "$0")/setup" mvopt

# KIND N: the network
network() {
    awk -v kind="$1" -v n="$2" 'BEGIN {
        seen = kind == "kept" || kind == "none"
        print ".model bench\n.inputs a\n.outputs " (seen ? "g" n : "z")
        if (!seen) print ".table a -> z\n0 1\n1 0"
        for (i = 1; i <= n; i++) print ".table " (kind == "wide" || i == 1 ? "a" : "g" i - 1) " -> g" i "\n0 1\n1 0"
        print ".end"
    }'
}

# KIND N: the user seconds of a run, in which all tables but one go, or none
seconds() {
    network "$1" "$2" > "$folder/net"
    if [ "$1" = none ]; then : ; else echo drop; fi > "$folder/script"
    local gone want=0
    for _ in 1 2 3 4 5; do
        { TIMEFORMAT=%U; time "$program" opt "$folder/net" "$folder/script" > "$folder/out" 2> "$folder/notes"; } 2>> "$folder/took"
    done
    gone=$(grep -c '^remove ' "$folder/notes" || true)
    if [ "$1" = loose ] || [ "$1" = wide ]; then want=$2; fi
    [ "$gone" = "$want" ] || { echo "$1 $2: $gone nets went" >&2; exit 1; }
    sort -n "$folder/took" | head -n 1
    rm "$folder/took"
}

n=${1:-1000}
printf '%-6s %8s %8s %8s %8s %6s\n' kind tables seconds tables seconds ratio
for kind in loose wide kept none; do
    size=$n
    if [ "$kind" = kept ] || [ "$kind" = none ]; then size=$((100 * n - 1)); fi
    first=$(seconds "$kind" "$size")
    second=$(seconds "$kind" $((2 * size)))
    ratio=$(awk -v a="$first" -v b="$second" 'BEGIN { if (a > 0) printf "%.1f", b / a; else printf "-" }')
    printf '%-6s %8d %8s %8d %8s %6s\n' "$kind" "$size" "$first" $((2 * size)) "$second" "$ratio"
done
