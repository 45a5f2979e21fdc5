#!/usr/bin/env bash
# Times whole runs with an empty script on networks of tables of several outputs beside as many tables of one, and prints the
# bytes read, the lines of tables written, and the user and the system seconds and the most memory, the least of three runs.
#   bench/joints.sh [N]    N is 10000 unless given; the program is crates/mvopt/out/mvopt (`make demo` builds it)
# one:     N tables of five columns, the last their output, with ten rows
# four:    the same with three outputs more
# marked:  the same with a default that names a column, so that each table needs a mark
. "$(dirname "$0")/setup" mvopt
: > "$folder/script"

# KIND N: the network
network() {
    awk -v kind="$1" -v n="$2" 'BEGIN {
        print ".model joints"
        for (i = 0; i < 40; i++) names = names " x" i
        print ".inputs" names "\n.outputs"
        print ".mv " substr(names, 2) " 4"
        for (t = 0; t < n; t++) {
            outs = kind == "one" ? " p" t : " p" t " q" t " r" t " s" t
            print ".mv" outs " 4"
            print ".table x" t % 40 " x" (t + 7) % 40 " x" (t + 17) % 40 " x" (t + 29) % 40 " ->" outs
            for (r = 0; r < 10; r++) {
                more = kind == "one" ? "" : " " int(r / 4) " " (r + t) % 4 " " r % 3
                print r % 4, int(r / 4), (r * 7 + t) % 4, "-", r % 4 more
            }
            if (kind == "marked") print ".default =x" t % 40 " 0 1 2"
        }
        print ".end"
    }'
}

# KIND: bytes, lines of tables, seconds and megabytes of a run, and its last note
line() {
    network "$1" "$n" > "$folder/net"
    for _ in 1 2 3; do
        /usr/bin/time -f '%U %S %M' -o "$folder/took" "$program" opt "$folder/net" "$folder/script" > "$folder/out" 2> "$folder/notes" || true
        tail -n 1 "$folder/took" >> "$folder/all"
    done
    sort -n "$folder/all" | head -n 1 | awk -v kind="$1" -v bytes="$(stat -c %s "$folder/net")" -v rows="$(grep -cv '^\.' "$folder/out")" -v last="$(tail -n 1 "$folder/notes")" \
        '{ printf "%-6s %10d %10d %8s %8s %9.0f  %s\n", kind, bytes, rows, $1, $2, $3 / 1024, last }'
    rm "$folder/all"
}

n=${1:-10000}
printf '%-6s %10s %10s %8s %8s %9s\n' kind bytes rows user system megabytes
for kind in one four marked; do
    line "$kind"
done
