#!/usr/bin/env bash
# Runs `sweep; eliminate` on the network files of a folder that are read, and prints for each its literals, before, after the
# sweep and at the end, and the user seconds of mvopt and of a plain program in Rust (commands_baseline.rs), each the mean of ten
# runs and of three such means the least. It says also whether the plain program writes and notes the same (as plain), whether
# `sweep` leaves what it wrote as it is, and `eliminate` too (settled), and whether `check` of the notes writes the same (checked).
#   bench/corpus.sh FOLDER   the program is crates/mvopt/out/mvopt (`make demo` builds it)
# Where Debian's berkeley-abc is installed, a second table has the networks that BLIF can say: nodes, literals of their sums of
# products and of their factored forms as `print_stats` there counts them, as given, after its own `sweep; eliminate`, and as
# mvopt leaves them; its user seconds for that and for reading alone; and whether its `cec` finds what mvopt left to be equal.
files=$(cd "${1:?a folder of network files}" && pwd)
. "$(dirname "$0")/setup" mvopt
: > "$folder/none"
echo sweep > "$folder/sweep"
echo eliminate > "$folder/eliminate"
echo 'sweep; eliminate' > "$folder/both"
rustc -O --edition 2021 -o "$folder/plain" bench/commands_baseline.rs 2> "$folder/said" || { cat "$folder/said" >&2; exit 1; }

# COMMAND..: the user seconds of a run; what it writes stands in `out` and `notes` of the folder
seconds() {
    rm -f "$folder/took"
    for _ in 1 2 3; do
        { TIMEFORMAT=%U; time for _ in 1 2 3 4 5 6 7 8 9 10; do "$@" > "$folder/out" 2> "$folder/notes" || break; done; } 2>> "$folder/took"
    done
    sort -n "$folder/took" | awk 'NR == 1 { printf "%.4f\n", $1 / 10 }'
}

# ONE OTHER: whether both files are equal
same() { if cmp -s "$1" "$2"; then echo yes; else echo no; fi; }

# FILE: the literals of a run with an empty script
literals() { "$program" opt "$1" "$folder/none" 2>&1 > /dev/null | awk '/^# done / { print $3 }'; }

# FILE BASE: a row of the first table; `BASE.mv` of the folder is the file's network as mvopt writes it, `BASE.small.mv` what is left
row() {
    local base=$folder/$2 took plain settled checked
    took=$(seconds "$program" opt "$1" "$folder/both")
    cp "$folder/out" "$base.small.mv"
    cp "$folder/notes" "$base.notes"
    plain=$(seconds "$folder/plain" opt "$1" "$folder/both")
    if grep -q '^# done ' "$folder/notes"; then
        plain="$plain $(same "$folder/out" "$base.small.mv" | sed "s/yes/$(same "$folder/notes" "$base.notes")/")"
    else
        plain='- -'
    fi
    "$program" opt "$1" "$folder/sweep" > "$base.swept" 2> /dev/null
    "$program" opt "$base.swept" "$folder/sweep" > "$folder/again" 2> /dev/null
    settled=$(same "$base.swept" "$folder/again")
    "$program" opt "$base.small.mv" "$folder/eliminate" > "$folder/again" 2> /dev/null
    settled=$(same "$base.small.mv" "$folder/again" | sed "s/yes/$settled/")
    "$program" check "$1" "$base.notes" > "$folder/again" 2> /dev/null || true
    checked=$(same "$base.small.mv" "$folder/again")
    # shellcheck disable=SC2086
    printf '%-20s %8d %8d %8d %9d %8s %8s %8s %8s %8s\n' "$2" "$(stat -c %s "$1")" "$(literals "$1")" "$(literals "$base.swept")" \
        "$(literals "$base.small.mv")" "$took" $plain "$settled" "$checked"
}

# Puts a network as mvopt writes it out as BLIF; fails where a net hasn't two values, or a table doesn't give each point one value
# or can't be seen to. Rows are the on-set, or the off-set under a default of 1.
blif() {
    awk '
    function meet(a, b,    k) {
        for (k = 1; k <= columns; k++) if (row[a, k] != "-" && row[b, k] != "-" && row[a, k] != row[b, k]) return 0
        return 1
    }
    function fail() { failed = 1; exit 1 }
    # no two rows of two values meet, and without a default the rows have all points
    function close_table(    i, j, k, points, size, put) {
        if (!open) return
        for (i = 1; i <= rows; i++) {
            if (out[i] == "-") fail()
            for (j = 1; j < i; j++) if (out[i] != out[j] && meet(i, j)) fail()
        }
        if (default == "-" || (default == "" && !total())) fail()
        print ".names" text
        put = default == "1" ? "0" : "1"
        if (default == "1" && rows == 0) {
            for (k = 1; k <= columns; k++) printf "-"
            print (columns ? " " : "") 1
        }
        for (i = 1; i <= rows; i++) if (out[i] == put) {
            for (k = 1; k <= columns; k++) printf "%s", row[i, k]
            print (columns ? " " : "") out[i]
        }
        open = 0
    }
    # whether some row has each point
    function total(    p, i, k, has, points) {
        if (columns > 12) return 0
        points = 2 ^ columns
        for (p = 0; p < points; p++) {
            has = 0
            for (i = 1; i <= rows && !has; i++) {
                has = 1
                for (k = 1; k <= columns && has; k++) has = row[i, k] == "-" || row[i, k] == int(p / 2 ^ (k - 1)) % 2
            }
            if (!has) return 0
        }
        return 1
    }
    $1 == ".model" || $1 == ".inputs" || $1 == ".outputs" { print; next }
    $1 == ".mv" { fail() }
    $1 == ".default" { default = $2; next }
    $1 == ".table" || $1 == ".end" {
        close_table()
        if ($1 == ".end") { print; next }
        text = ""
        for (k = 2; k <= NF; k++) if ($k != "->") text = text " " $k
        columns = NF - 3
        rows = 0
        default = ""
        open = 1
        next
    }
    { rows++; for (k = 1; k < NF; k++) row[rows, k] = $k; out[rows] = $NF }
    END { exit failed }' "$1"
}

# COMMANDS: the nodes, the literals of sums of products and those of factored forms of the network where they end
count() {
    berkeley-abc -c "$1; print_stats -f" | sed -n 's/.* nd = *\([0-9]*\) .*lit(sop) = *\([0-9]*\) .*lit(fac) = *\([0-9]*\) .*/\1 \2 \3/p'
}

# BASE: a row of the second table
beside() {
    local base=$folder/$1 small read took equal=-
    blif "$base.mv" > "$base.blif" || return 0
    read=$(seconds berkeley-abc -c "read_blif $base.blif")
    took=$(seconds berkeley-abc -c "read_blif $base.blif; sweep; eliminate; sop")
    small='- - -'
    if blif "$base.small.mv" > "$base.small.blif"; then
        small=$(count "read_blif $base.small.blif")
        berkeley-abc -c "cec $base.blif $base.small.blif" > "$folder/said" 2>&1 || true
        if grep -q 'Networks are equivalent' "$folder/said"; then equal=yes; else equal=no; fi
    fi
    # shellcheck disable=SC2046,SC2086
    printf '%-20s %6s %6s %6s  %6s %6s %6s  %6s %6s %6s %8s %8s %6s\n' "$1" $(count "read_blif $base.blif") \
        $(count "read_blif $base.blif; sweep; eliminate; sop") $small "$read" "$took" "$equal"
}

printf '%-20s %8s %8s %8s %9s %8s %8s %8s %8s %8s\n' file bytes literals sweep eliminate seconds plain 'as plain' settled checked
bases=''
for file in "$files"/*.mv; do
    base=$(basename "$file" .mv)
    if "$program" opt "$file" "$folder/none" > "$folder/$base.mv" 2> /dev/null; then
        row "$file" "$base"
        bases="$bases $base"
    fi
done
command -v berkeley-abc > /dev/null || exit 0
echo
printf '%-20s %20s  %20s  %20s\n' '' given 'by berkeley-abc' 'by mvopt'
printf '%-20s %6s %6s %6s  %6s %6s %6s  %6s %6s %6s %8s %8s %6s\n' file nodes sop fac nodes sop fac nodes sop fac reading seconds equal
for base in $bases; do
    beside "$base"
done
