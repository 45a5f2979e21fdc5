#!/usr/bin/env bash
# Reads the network files of a folder, flattens and writes them, by mvopt with an empty script and by a plain program in Rust of the
# same rules (reading_baseline.rs), and prints for each file its bytes, the user seconds of both, each the mean of twenty runs and of
# three such means the least, how many times as much mvopt took, and whether both wrote the same or told the same fault. Where
# valgrind is installed, three columns more have the millions of instructions of both, as callgrind counts them, and their ratio.
#   bench/reading.sh FOLDER   the program is crates/mvopt/out/mvopt (`make demo` builds it)
files=$(cd "${1:?a folder of network files}" && pwd)
. "$(dirname "$0")/setup" mvopt
: > "$folder/script"
rustc -O --edition 2021 -o "$folder/plain" bench/reading_baseline.rs 2> "$folder/said" || { cat "$folder/said" >&2; exit 1; }

# FILE: a run of mvopt; the text stands in `text`, the fault in `fault`
proved() { "$program" opt "$1" "$folder/script" > "$folder/text" 2> "$folder/notes" || true; }

# FILE: a run of the plain program; the text stands in `plain.text`, the fault in `plain.notes`
plain() { "$folder/plain" "$1" "$folder/plain.text" 2> "$folder/plain.notes" || true; }

# PROGRAM FILE: the user seconds of a run
seconds() {
    rm -f "$folder/took"
    for _ in 1 2 3; do
        { TIMEFORMAT=%U; time for _ in 1 2 3 4 5 6 7 8 9 10 11 12 13 14 15 16 17 18 19 20; do "$1" "$2"; done; } 2>> "$folder/took"
    done
    sort -n "$folder/took" | awk 'NR == 1 { printf "%.4f\n", $1 / 20 }'
}

# COMMAND..: the millions of instructions of a run
instructions() {
    { valgrind --tool=callgrind --callgrind-out-file=/dev/null "$@" 2>&1 > /dev/null || true; } | awk '/Collected/ { printf "%.1f\n", $NF / 1000000 }'
}

# FILE: whether both did the same with the file
outcome() {
    rm -f "$folder/plain.text"
    proved "$1"
    plain "$1"
    if grep '^# fault ' "$folder/notes" > "$folder/fault"; then
        if cmp -s "$folder/fault" "$folder/plain.notes"; then echo "the same fault"; else echo "another fault"; fi
    else
        if cmp -s "$folder/text" "$folder/plain.text"; then echo "the same text"; else echo "another text"; fi
    fi
}

# ONE OTHER: how many times as much the first is
ratio() { awk -v a="$1" -v b="$2" 'BEGIN { if (b > 0) printf "%.2f", a / b; else printf "-" }'; }

printf '%-24s %8s %8s %8s %6s %9s %9s %6s  %s\n' file bytes seconds plain times millions plain times outcome
for file in "$files"/*.mv; do
    took=$(seconds proved "$file")
    beside=$(seconds plain "$file")
    count=- other=-
    if command -v valgrind > /dev/null; then
        count=$(instructions "$program" opt "$file" "$folder/script")
        other=$(instructions "$folder/plain" "$file" "$folder/plain.text")
    fi
    printf '%-24s %8d %8s %8s %6s %9s %9s %6s  %s\n' "$(basename "$file")" "$(stat -c %s "$file")" "$took" "$beside" \
        "$(ratio "$took" "$beside")" "$count" "$other" "$(ratio "$count" "$other")" "$(outcome "$file")"
done
