#!/usr/bin/env bash
# Times whole runs with an empty script, from bytes to bytes, and prints the user and the system seconds and the most memory
# of each, the least of three runs, for networks of two sizes, one twice the other.
#   bench/networks.sh [N]    N is 100000 unless given; the program is crates/mvopt/out/mvopt (`make demo` builds it)
# rows:    N and 2N nets: two inputs, and tables of two columns with five rows, every fourth net of three named values
# equal:   N/4 and N/2 nets of eight values, whose tables have a default that gives the value of a column and needs a mark
# wide:    N/20 and N/10 nets, whose tables have twelve columns and ten rows
# states:  N/2 and N nets, whose tables have two columns and two rows, and half as many latches, each with a reset table that
#          reads one of them
# full:    198N/100 nets as those of rows, with eight rows to a table: at N = 100000 nearly as large as a file may be
. "$(dirname "$0")/setup" mvopt
: > "$folder/script"

# KIND NETS: the network
network() {
    awk -v kind="$1" -v n=$(($2 - 2)) 'BEGIN {
        srand(1)
        print ".model bench\n.inputs a b\n.outputs g" n
        if (kind == "equal") print ".mv a, b 8"
        for (i = 1; i <= n; i++) {
            if (kind == "rows" || kind == "full") {
                if (i % 4 == 0) print ".mv g" i " 3 x y z"
                printf ".table a %s -> g%d\n", i == 1 ? "b" : "g" int(rand() * (i - 1) / 4) * 4 + 1, i
                v = i % 4 == 0 ? "x" : "0"; w = i % 4 == 0 ? "(y,z)" : "1"
                print "0 0 " v "\n0 1 " w "\n1 0 " w "\n1 1 " v "\n- 1 " w
                if (kind == "full") print "0 - " w "\n1 - " w "\n- 0 " v
            } else if (kind == "states") {
                printf ".table a %s -> g%d\n0 - 1\n- 1 0\n", i == 1 ? "b" : "g" int(rand() * (i - 1)) + 1, i
                if (i % 2 == 0) printf ".latch g%d s%d\n.r g%d -> s%d\n0 1\n1 0\n", int(rand() * n) + 1, i, int(rand() * n) + 1, i
            } else if (kind == "equal") {
                print ".mv g" i " 8"
                print ".table a " (i == 1 ? "b" : "g" int(rand() * (i - 1)) + 1) " -> g" i
                print ".default =a\n(0,1) {2-7} 3"
            } else {
                printf ".table a b"
                for (k = 0; k < 9; k++) printf " g%d", int(rand() * i)
                printf " -> g%d\n.default 0\n", i
                for (r = 0; r < 10; r++) {
                    for (k = 0; k < 11; k++) printf "%s ", rand() < 0.4 ? "-" : int(rand() * 2)
                    print 1
                }
            }
        }
        if (kind == "wide") print ".table a -> g0\n0 1\n1 0"
        print ".end"
    }'
}

# KIND NETS: bytes, lines, seconds and megabytes of a run
line() {
    network "$1" "$2" > "$folder/net"
    for _ in 1 2 3; do
        /usr/bin/time -f '%U %S %M' -o "$folder/took" "$program" opt "$folder/net" "$folder/script" > "$folder/out" 2> "$folder/notes"
        cat "$folder/took" >> "$folder/all"
    done
    grep -q '^# done ' "$folder/notes" || { echo "$1 $2: $(cat "$folder/notes")" >&2; exit 1; }
    sort -n "$folder/all" | head -n 1 | awk -v kind="$1" -v n="$2" -v bytes="$(stat -c %s "$folder/net")" -v lines="$(wc -l < "$folder/net")" \
        '{ printf "%-6s %8d %10d %9d %8s %8s %9.0f\n", kind, n, bytes, lines, $1, $2, $3 / 1024 }'
    rm "$folder/all"
}

n=${1:-100000}
printf '%-6s %8s %10s %9s %8s %8s %9s\n' kind nets bytes lines user system megabytes
for kind in rows equal wide states; do
    size=$n
    if [ "$kind" = states ]; then size=$((n / 2)); fi
    if [ "$kind" = equal ]; then size=$((n / 4)); fi
    if [ "$kind" = wide ]; then size=$((n / 20)); fi
    line "$kind" "$size"
    line "$kind" $((2 * size))
done
line full $((2 * n * 99 / 100))
