#!/usr/bin/env bash
# Times single calls on drawn covers of two sizes, one twice the other, and prints the user seconds of each, the least of
# three runs of five seeds, and their ratio.
#   bench/covers.sh [N]      N is 500 unless given; the program is crates/mv_bench/out/mv_bench (`rt run` there builds it)
# covers: whether N and 2N lines over 20 nets of 4 values match every point
# complement: that of N and of 2N lines whose complement has 4,096 cubes, the most that there may be, nearly all the time
# absorb: the lines left of 4N and of 8N over 8 nets of 4 values
. "$(dirname "$0")/setup" mv_bench
took=$folder/took

# TASK N: the user seconds of the task at five seeds
seconds() {
    for _ in 1 2 3; do
        { TIMEFORMAT=%U; time "$program" "$1" "$2" 1 "$1" "$2" 2 "$1" "$2" 3 "$1" "$2" 4 "$1" "$2" 5 > /dev/null; } 2>> "$took"
    done
    sort -n "$took" | head -n 1
    : > "$took"
}

n=${1:-500}
printf '%-10s %8s %8s %8s %8s %6s\n' task lines seconds lines seconds ratio
for task in covers complement absorb; do
    size=$n
    if [ "$task" = absorb ]; then size=$((4 * n)); fi
    first=$(seconds "$task" "$size")
    second=$(seconds "$task" $((2 * size)))
    ratio=$(awk -v a="$first" -v b="$second" 'BEGIN { if (a > 0) printf "%.1f", b / a; else printf "-" }')
    printf '%-10s %8d %8s %8d %8s %6s\n' "$task" "$size" "$first" $((2 * size)) "$second" "$ratio"
done
