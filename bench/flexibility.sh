#!/usr/bin/env bash
# Times flexibilities in the largest window that is gone through by points: 12 nets of two values, so 4,096 points, with ten tables
# of four rows over three nets each; and of a net over one of 1,024 values. Prints the microseconds of one, the least of three runs.
#   bench/flexibility.sh      the program is crates/mv_bench/out/mv_bench (`rt run` there builds it)
. "$(dirname "$0")/setup" mv_bench

# ten tables, of which each reads the three nets before its own
ten_tables() {
    awk 'BEGIN {
        print ".model bench\n.inputs a b\n.outputs n9"
        split("a b", net)
        for (i = 0; i < 10; i++) {
            from = ""
            for (k = (i + 2 < 3 ? 0 : i - 1); k < i + 2; k++) from = from " " net[k + 1]
            columns = i + 2 < 3 ? i + 2 : 3
            print ".table" from " -> n" i "\n.default " i % 2
            for (r = 0; r < 4; r++) {
                row = ""
                for (c = 0; c < columns; c++) row = row ((r + c + i) % 3 == 0 ? " -" : " " int((r + c * i) / (c + 1)) % 2)
                print substr(row, 2) " " (r + i) % 2
            }
            net[i + 3] = "n" i
        }
        print ".end"
    }'
}

# a net of two values over one of 1,024, with a row for each of the first thousand values
wide_net() {
    awk 'BEGIN {
        print ".model bench\n.inputs a b\n.outputs z\n.mv a 1024\n.table a -> x\n.default 0"
        for (v = 0; v < 1000; v++) print v, (v * 7 % 11) % 2
        print ".table x b -> z\n.default 0\n1 1 1\n.end"
    }'
}

# NAME D U TIMES TABLES: the microseconds of one flexibility
micros() {
    for _ in 1 2 3; do "$program" flex "$2" "$3" "$4" < "$folder/net"; done | grep -o '[0-9]* microseconds' | sort -n |
        awk -v name="$1" -v count="$(($4 * $5))" 'NR == 1 { printf "%-12s %10.1f\n", name, $1 / count }'
}

printf '%-12s %10s\n' window micros
ten_tables > "$folder/net"
micros 'ten tables' 8 8 100 10
wide_net > "$folder/net"
micros 'wide net' 1 0 10 2
