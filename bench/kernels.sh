#!/usr/bin/env bash
# Times `kernels` on drawn covers of N, 2N, 4N and 8N cubes over 30 symbols, about five to a cube, and prints for each size
# how many kernels a cover has and the user milliseconds that it takes, the least of three runs of a hundred seeds; and the
# same of the milliseconds for a hundred kernels, to show how it grows.
#   bench/kernels.sh [N]      N is 30 unless given; the program is crates/mv_bench/out/mv_bench (`rt run` there builds it)
. "$(dirname "$0")/setup" mv_bench
took=$folder/took
found=$folder/found

# N: the user seconds of a hundred covers of N cubes, whose counts of kernels go to $found
seconds() {
    local words=()
    for seed in $(seq 100); do words+=(kernels "$1" "$seed"); done
    for _ in 1 2 3; do
        { TIMEFORMAT=%U; time "$program" "${words[@]}" > "$found"; } 2>> "$took"
    done
    sort -n "$took" | head -n 1
    : > "$took"
}

n=${1:-30}
printf '%6s %8s %6s %20s\n' cubes kernels ms 'ms for 100 kernels'
for size in "$n" $((2 * n)) $((4 * n)) $((8 * n)); do
    time=$(seconds "$size")
    awk -v size="$size" -v time="$time" '
        $4 == "too" { print "too many kernels at " size " cubes" > "/dev/stderr"; exit }
        { kernels += $4; covers++ }
        END {
            if (covers > 0) {
                ms = time * 1000 / covers
                printf "%6d %8d %6.2f %20.2f\n", size, kernels / covers, ms, ms * 100 * covers / kernels
            }
        }' "$found"
done
