#!/usr/bin/env bash
# Times `merge`, `default`, `determinize` and `encode`: the user seconds of whole runs, the least of three, the most memory of the
# last one, the last note but the end, if there is one, and what came of the literals.
#   bench/values.sh [N]      N is 20000 unless given, and no more; the program is crates/mvopt/out/mvopt (`make demo` builds it)
# copy:   a net of 1,024 values that copies an input, and a reader that tells one value from the others
# table:  a net of 128 values whose table has 3,000 rows over twelve nets, and such a reader
# reader: a net of 128 values that copies an input, and a reader of 3,000 rows, half of which ask for all values but one
# spelled: a net of 1,024 values that copies an input, and a reader of 65,536 rows, each of which asks for 48 of its values and for
#         all of sixteen nets of two values, in each row others: no two of the values have codes that fit one cube
# folded: the same, but that no row asks for the sixteen nets
# work:   the network that `mvopt work N 1` draws
. "$(dirname "$0")/setup" mvopt

# KIND: the network
network() {
    awk -v kind="$1" '
    function bits(k, places,    i, row) {
        row = ""
        for (i = 0; i < places; i++) { row = row k % 2 " "; k = int(k / 2) }
        return row
    }
    function ones(k,    sum) {
        for (sum = 0; k > 0; k = int(k / 2)) sum += k % 2
        return sum
    }
    function asked(k,    i, set) {
        set = "(" even[k * 7 % 512]
        for (i = 1; i < 48; i++) set = set "," even[(k * 7 + i * 11) % 512]
        return set ")"
    }
    function copied(values,    v) {
        print ".mv a, n " values "\n.table a -> n"
        for (v = 0; v < values; v++) print v, v
    }
    function told(last) { print ".table n -> z\n.default 0\n" last " 1\n.end" }
    BEGIN {
        names = " b0 b1 b2 b3 b4 b5 b6 b7 b8 b9 b10 b11"
        if (kind == "spelled" || kind == "folded") {
            names = names " b12 b13 b14 b15"
            for (v = 0; v < 1024; v++) if (ones(v) % 2 == 0) even[pairs++] = v
        }
        print ".model " kind "\n.inputs a" names "\n.outputs z"
        if (kind == "copy") { copied(1024); told(1023) }
        if (kind == "spelled" || kind == "folded") {
            copied(1024)
            print ".table n" names " -> z\n.default 0"
            for (k = 0; k < 65536; k++)
                print asked(k) " " (kind == "spelled" ? bits(k, 16) : "- - - - - - - - - - - - - - - - ") "1"
            print ".end"
        }
        if (kind == "table") {
            print ".mv n 128\n.table" names " -> n\n.default 0"
            for (k = 0; k < 3000; k++) print bits(k, 12) k % 128
            told(127)
        }
        if (kind == "reader") {
            copied(128)
            all = "(0"
            for (v = 1; v < 127; v++) all = all "," v
            print ".table n" names " -> z\n.default 0"
            for (k = 0; k < 3000; k++) print (k % 2 ? "127" : all ")") " " bits(k, 12) "1"
            print ".end"
        }
    }'
}

# NAME SCRIPT WORDS..: a row of the table
row() {
    local name=$1 script=$2
    shift 2
    echo "$script" > "$folder/script"
    for _ in 1 2 3; do
        /usr/bin/time -q -f '%U %M' -a -o "$folder/took" "$program" "$@" "$folder/script" > /dev/null 2> "$folder/notes"
    done
    printf '%-8s %-12s %8s %9.1f  %s\n' "$name" "${script:-none}" "$(sort -n "$folder/took" | awk 'NR == 1 { print $1 }')" \
        "$(awk 'END { print $2 / 1024 }' "$folder/took")" "$(grep '^# note' "$folder/notes" | tail -n 1 || true)$(tail -n 1 "$folder/notes")"
    rm "$folder/took"
}

n=${1:-20000}
printf '%-8s %-12s %8s %9s  %s\n' network script seconds megabytes end
for kind in copy table reader; do
    network "$kind" > "$folder/$kind"
    for script in '' merge; do row "$kind" "$script" opt "$folder/$kind"; done
done
row copy encode opt "$folder/copy"
for kind in spelled folded; do
    network "$kind" > "$folder/$kind"
    for script in '' encode; do row "$kind" "$script" opt "$folder/$kind"; done
done
for script in '' merge default determinize encode; do row work "$script" work "$n" 1; done
