#!/usr/bin/env bash
# Times rules, each applied to 10,000 nets of made networks of N and of 2N nets: microseconds for one application, the least of
# five runs, and their ratio. Last it times 99,450 changes of one table each, half of which move nets in the kept order, beside
# a plain program in Rust that does the same (rules_baseline.rs).
#   bench/rules.sh [N]       N is 50000 unless given, and no less; the program is crates/mv_bench/out/mv_bench
# remove:   a net that nobody sees or reads goes
# add:      a net of two fanins comes
# divide:   a table of two fanins reads a net in place of one of them, which for half of them stands behind it in the file
# wire:     the reader of a buffer reads its fanin
# collapse: an inverter goes into its reader
. "$(dirname "$0")/setup" mv_bench

# KIND BLOCKS N: a network of N nets, with as many blocks of nets for rules of this kind; the blocks share 1,000 inputs
network() {
    awk -v kind="$1" -v blocks="$2" -v n="$3" '
    function names(letter, count,    i, text) {
        text = ""
        for (i = 0; i < count; i++) text = text " " letter i
        return text
    }
    function divisor(i) { print ".table a" i % 500 " -> g" i "\n.default 0\n1 1" }
    function inverter(from, to) { print ".table " from " -> " to "\n0 1\n1 0" }
    BEGIN {
        print ".model bench\n.inputs" names("a", 500) names("b", 500)
        print ".outputs h0" (kind == "remove" || kind == "add" ? "" : names("f", blocks))
        nets = 1000
        for (i = 0; i < blocks; i++) {
            if (kind == "remove") { inverter("a" i % 500, "u" i); nets++ }
            if (kind == "divide") {
                if (i % 2) divisor(i)
                print ".table a" i % 500 " b" i % 500 " -> f" i "\n.default 0\n1 1 1"
                if (i % 2 == 0) divisor(i)
                nets += 2
            }
            if (kind == "wire") { print ".table a" i % 500 " -> y" i "\n0 0\n1 1"; inverter("y" i, "f" i); nets += 2 }
            if (kind == "collapse") { inverter("a" i % 500, "c" i); inverter("c" i, "f" i); nets += 2 }
        }
        for (i = n - nets - 1; i >= 0; i--) inverter(i == n - nets - 1 ? "a0" : "h" i + 1, "h" i)
        print ".end"
    }'
}

# KIND COUNT N: the microseconds of so many rules, the least of five runs
micros() {
    network "$1" "$2" "$3" > "$folder/net"
    for _ in 1 2 3 4 5; do
        "$program" rules "$1" "$2" < "$folder/net" > "$folder/said"
        grep -q " $2 applied," "$folder/said" || { echo "$1 $3: $(cat "$folder/said")" >&2; exit 1; }
        grep -o '[0-9]* microseconds' "$folder/said" | cut -d ' ' -f 1
    done | sort -n | head -n 1
}

n=${1:-50000}
printf '%-9s %8s %8s %8s %8s %6s\n' rule nets micros nets micros ratio
for kind in remove add divide wire collapse; do
    first=$(micros "$kind" 10000 "$n")
    second=$(micros "$kind" 10000 $((2 * n)))
    awk -v kind="$kind" -v n="$n" -v a="$first" -v b="$second" \
        'BEGIN { printf "%-9s %8d %8.2f %8d %8.2f %6.2f\n", kind, n, a / 10000, 2 * n, b / 10000, b / a }'
done

# 99,450 tables of two fanins on as many nets as a file may name, each changed once
changes=99450
network divide $changes 200000 > "$folder/net"
rustc -O -o "$folder/plain" bench/rules_baseline.rs 2> "$folder/said" || { cat "$folder/said" >&2; exit 1; }
for which in proved plain; do
    for _ in 1 2 3 4 5; do
        if [ $which = proved ]; then
            { TIMEFORMAT=%U; time "$program" rules divide $changes < "$folder/net" > "$folder/said.$which"; } 2>> "$folder/took.$which"
        else
            { TIMEFORMAT=%U; time "$folder/plain" $changes < "$folder/net" > "$folder/said.$which"; } 2>> "$folder/took.$which"
        fi
    done
done
told=$(sed 's/, [0-9]* microseconds//' "$folder/said.proved")
[ "$told" = "rules divide $(cat "$folder/said.plain")" ] || { echo "proved: $told, plain: $(cat "$folder/said.plain")" >&2; exit 1; }
echo
echo "$changes changes of one table each on 200000 nets, reading included: $(sort -n "$folder/took.proved" | head -n 1) seconds, a plain program $(sort -n "$folder/took.plain" | head -n 1)"
