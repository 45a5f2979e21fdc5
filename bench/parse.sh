#!/usr/bin/env bash
# Times the reading of network files of one model, from bytes to a design, and prints the user seconds of lexing alone and of
# lexing and parsing, the least of three runs, and how both grow.
#   bench/parse.sh [N]       N is 100000 unless given; the program is crates/mv_bench/out/mv_bench (`rt run` there builds it)
# plain:   networks of N and of 2N tables of two columns with a default and two rows, every fifth net of three named values
# wide:    N/10 and N/5 tables of twelve columns with six rows each
# rows:    one table of N/2 and of N rows, at most 65,536
. "$(dirname "$0")/setup" mv_bench

# KIND N: the file
text() {
    awk -v kind="$1" -v n="$2" 'BEGIN {
        srand(1)
        print ".model bench\n.inputs a b"
        if (kind == "rows") {
            print ".outputs z\n.table a b -> z\n.default 0"
            for (i = 1; i <= n && i <= 65536; i++) print i % 2, "-", int(rand() * 2)
        } else if (kind == "wide") {
            print ".outputs g" n
            for (i = 1; i <= n; i++) {
                printf ".table a b"
                for (k = 0; k < 9; k++) printf " g%d", int(rand() * i)
                printf " -> g%d\n", i
                for (r = 0; r < 6; r++) print "0 1 - - 1 0 {0,1} !0 - 1 1", r % 2
            }
        } else {
            print ".outputs g" n
            for (i = 1; i <= n; i++) {
                if (i % 5 == 0) print ".mv g" i " 3 x y z"
                printf ".table a g%d -> g%d\n", int(rand() * i / 5) * 5 + 1, i
                if (i % 5 == 0) print ".default x\n0 - {x-y}\n1 - -"
                else print ".default 0\n0 - 1\n1 - -"
            }
        }
        print ".end"
    }'
}

# CALL: the user seconds of the call on the file
seconds() {
    for _ in 1 2 3; do
        { TIMEFORMAT=%U; time "$program" "$1" < "$folder/text" > /dev/null; } 2>> "$folder/took"
    done
    sort -n "$folder/took" | head -n 1
    rm "$folder/took"
}

n=${1:-100000}
printf '%-7s %10s %10s %10s\n' file bytes lex parse
for kind in plain wide rows; do
    size=$n
    if [ "$kind" = wide ]; then size=$((n / 10)); fi
    if [ "$kind" = rows ]; then size=$((n / 2)); fi
    for size in "$size" $((2 * size)); do
        text "$kind" "$size" > "$folder/text"
        printf '%-7s %10d %10s %10s\n' "$kind" "$(stat -c %s "$folder/text")" "$(seconds lex)" "$(seconds parse)"
    done
done
