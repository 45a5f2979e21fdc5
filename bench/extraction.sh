#!/usr/bin/env bash
# Runs `sweep; eliminate; SCRIPT` on every network file of a folder, and prints for each the literals before and behind that, the
# divisors that were taken out, the user seconds, the most memory, and whether a check of the notes writes the same. A run that takes
# more than a minute is broken off.
#   bench/extraction.sh FOLDER [SCRIPT]   the script is `kernel; cube` where none is given; the program is crates/mvopt/out/mvopt
# With --drawn it runs `cube` on a table of as many drawn rows, each with 11 of 20 binary inputs, beside a plain program in Rust
# (extraction_baseline.rs) that takes the same cubes out: the divisors and literals of both, their user seconds and the most memory.
#   bench/extraction.sh --drawn ROWS..
drawn=()
if [ "${1:-}" = --drawn ]; then
    drawn=("${@:2}")
else
    files=$(cd "${1:?a folder of network files, or --drawn and numbers of rows}" && pwd)
fi
script=${2:-kernel; cube}
. "$(dirname "$0")/setup" mvopt

# ROWS: the drawn table
table() {
    awk -v n="$1" '
    function draw(m) { seed = seed * 16807 % 2147483647; return int(seed / 2147483647 * m) }
    BEGIN {
        seed = 20
        for (i = 0; i < 20; i++) text = text " i" i
        print ".model drawn\n.inputs" text "\n.outputs f\n.table" text " -> f\n.default 0"
        for (row = 0; row < n; row++) {
            for (i = 0; i < 20; i++) { order[i] = i; word[i] = "-" }
            for (i = 0; i < 11; i++) {
                j = i + draw(20 - i); k = order[i]; order[i] = order[j]; order[j] = k
                word[order[i]] = draw(2)
            }
            text = ""
            for (i = 0; i < 20; i++) text = text word[i] " "
            print text "1"
        }
        print ".end"
    }'
}

if [ "${#drawn[@]}" -gt 0 ]; then
    rustc -O -o "$folder/plain" bench/extraction_baseline.rs
    echo cube > "$folder/script"
    printf '%8s %9s %9s %9s %9s %9s %9s  %s\n' rows divisors literals seconds megabytes plain megabytes both
    for rows in "${drawn[@]}"; do
        table "$rows" > "$folder/table.mv"
        /usr/bin/time -q -f '%U %M' -o "$folder/took" "$program" opt "$folder/table.mv" "$folder/script" > /dev/null 2> "$folder/notes"
        /usr/bin/time -q -f '%U %M' -o "$folder/plainly" "$folder/plain" < "$folder/table.mv" > "$folder/left"
        ours="$(grep -c '^add ' "$folder/notes") $(awk '/^# done / { print $4 }' "$folder/notes")"
        awk -v rows="$rows" -v ours="$ours" -v plain="$(cut -d' ' -f1,2 "$folder/left")" '
            { seconds[FNR == NR] = $1; memory[FNR == NR] = $2 / 1024 }
            END {
                split(ours, o, " ")
                printf "%8d %9d %9d %9s %9.1f %9s %9.1f  %s\n", rows, o[1], o[2], seconds[1], memory[1], seconds[0], memory[0], (ours == plain ? "the same" : "not the same")
            }' "$folder/took" "$folder/plainly"
    done
    exit
fi

echo "sweep; eliminate; $script" > "$folder/script"

printf '%-28s %9s %9s %9s %8s %9s  %s\n' file before behind divisors seconds megabytes check
for file in "$files"/*.mv; do
    if ! /usr/bin/time -q -f '%U %M' -o "$folder/took" timeout 60 "$program" opt "$file" "$folder/script" > "$folder/out" 2> "$folder/notes"; then
        printf '%-28s %s\n' "$(basename "$file")" "$(sed -n 's/^# fault //p' "$folder/notes" | grep . || echo 'broken off')"
        continue
    fi
    "$program" check "$file" "$folder/notes" > "$folder/again" 2> /dev/null || true
    read -r seconds memory < "$folder/took"
    literals=$(awk '/^# done / { print $3, $4 }' "$folder/notes")
    printf '%-28s %9d %9d %9d %8s %9.1f  %s\n' "$(basename "$file")" $literals "$(grep -c '^add ' "$folder/notes")" "$seconds" \
        "$(awk -v k="$memory" 'BEGIN { print k / 1024 }')" "$(cmp -s "$folder/out" "$folder/again" && echo "the same" || echo "not the same")"
done
