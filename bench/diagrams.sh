#!/usr/bin/env bash
# Times the making of two drawn sets and of the points of both, beside a plain hash-consed diagram in Rust that does the same,
# and prints the user seconds of both, the least of five runs, and their ratio.
#   bench/diagrams.sh [N]    N is 200 unless given; the program is crates/mv_bench/out/mv_bench (`rt run` there builds it)
# Each set is the union of N, and then of 2N, drawn cubes that fix up to twelve of thirty variables of two values.
. "$(dirname "$0")/setup" mv_bench
rustc -O -C target-cpu=x86-64-v2 -o "$folder/baseline" bench/diagrams_baseline.rs

# PROGRAM..: the user seconds of a run, which has to find as many nodes as the other program
seconds() {
    for _ in 1 2 3 4 5; do
        { TIMEFORMAT=%U; time "$@" > "$folder/found"; } 2>> "$folder/took"
    done
    [ -f "$folder/wanted" ] || cp "$folder/found" "$folder/wanted"
    cmp -s "$folder/found" "$folder/wanted" || { echo "other sets were made" >&2; exit 1; }
    sort -n "$folder/took" | head -n 1
    rm "$folder/took"
}

n=${1:-200}
printf '%6s %10s %10s %10s %6s\n' cubes nodes diagrams baseline ratio
for size in "$n" $((2 * n)); do
    rm -f "$folder/wanted"
    diagrams=$(seconds "$program" meet "$size" 1)
    baseline=$(seconds "$folder/baseline" "$size" 1)
    ratio=$(awk -v a="$diagrams" -v b="$baseline" 'BEGIN { if (b > 0) printf "%.1f", a / b; else printf "-" }')
    printf '%6d %10d %10s %10s %6s\n' "$size" "$(awk '{ print $4 }' "$folder/wanted")" "$diagrams" "$baseline" "$ratio"
done
