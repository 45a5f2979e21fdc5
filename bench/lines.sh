#!/usr/bin/env bash
# Times the cutting of files into lines of words, beside a plain program in Rust that cuts at blanks and copies the words,
# and prints the user seconds of both, the least of five runs, and their ratio.
#   bench/lines.sh [N]       N is 100000 unless given; the program is crates/mv_bench/out/mv_bench (`rt run` there builds it)
# tables: networks of N and of 2N tables with four rows each, whose words have a few bytes
# names:  N and 2N words of some thirty bytes
. "$(dirname "$0")/setup" mv_bench
rustc -O -C target-cpu=x86-64-v2 -o "$folder/baseline" bench/lines_baseline.rs

# KIND N: the file
text() {
    awk -v kind="$1" -v n="$2" 'BEGIN {
        srand(1)
        if (kind == "names") {
            for (i = 0; i < n; i++) printf "signal_name_%07d_of_something%s", int(rand() * 9999999), i % 8 == 7 ? "\n" : " "
            exit
        }
        print ".model bench\n.inputs a b\n.outputs g" n
        for (i = 1; i <= n; i++) printf ".table a g%d -> g%d\n.default 0\n0 0 1\n1 - 1\n- 1 0\n1 1 1\n", int(rand() * i), i
        print ".end"
    }'
}

# PROGRAM..: the user seconds of a run on the file, whose count of lines and words has to be that of the other program
seconds() {
    for _ in 1 2 3 4 5; do
        { TIMEFORMAT=%U; time "$@" < "$folder/text" > "$folder/found"; } 2>> "$folder/took"
    done
    [ -f "$folder/wanted" ] || cp "$folder/found" "$folder/wanted"
    cmp -s "$folder/found" "$folder/wanted" || { echo "other lines were found" >&2; exit 1; }
    sort -n "$folder/took" | head -n 1
    rm "$folder/took"
}

n=${1:-100000}
printf '%-7s %10s %10s %10s %6s\n' file bytes lexer baseline ratio
for kind in tables names; do
    for size in "$n" $((2 * n)); do
        text "$kind" "$size" > "$folder/text"
        rm -f "$folder/wanted"
        lexer=$(seconds "$program" lex)
        baseline=$(seconds "$folder/baseline")
        ratio=$(awk -v a="$lexer" -v b="$baseline" 'BEGIN { if (b > 0) printf "%.1f", a / b; else printf "-" }')
        printf '%-7s %10d %10s %10s %6s\n' "$kind" "$(stat -c %s "$folder/text")" "$lexer" "$baseline" "$ratio"
    done
done
