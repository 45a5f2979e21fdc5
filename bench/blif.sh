#!/usr/bin/env bash
# Two tables of runs with `--blif`.
#   bench/blif.sh [FOLDER [N]]   N is 195000 unless given; the program is crates/mvopt/out/mvopt (`make demo` builds it)
# The first has one network of N tables of two to four inputs in both formats, with an empty script: bytes, user seconds (the least of
# three) and the most memory. 195,000 tables are a file of BLIF-MV just below 16 MiB.
# The second has the BLIF files of the folder: literals before and behind `sweep; eliminate; kernel; cube; sweep; eliminate`, and where
# Debian's `berkeley-abc` is installed those of its `sweep; eliminate; fx; sweep; eliminate`, with seconds, and whether its `cec` finds
# the file and what mvopt wrote equal.
files=${1:+$(cd "$1" && pwd)}
. "$(dirname "$0")/setup" mvopt
: > "$folder/none"
echo 'sweep; eliminate; kernel; cube; sweep; eliminate' > "$folder/script"
commands='sweep; eliminate; sop; fx; sweep; eliminate; sop'

# FORMAT N: the network
text() {
    awk -v blif="$1" -v n="$2" 'BEGIN {
        srand(1)
        print ".model bench\n.inputs a b c d"
        print ".outputs g" n
        for (i = 1; i <= n; i++) {
            k = 2 + i % 3
            line = ""
            for (j = 0; j < k; j++) line = line " " (i < 8 || j == 3 ? substr("abcd", j + 1, 1) : "g" (1 + int(rand() * (i - 1))))
            print (blif ? ".names" line " g" i : ".table" line " -> g" i "\n.default 0")
            for (r = 0; r < 4; r++) {
                row = ""
                for (j = 0; j < k; j++) row = row (j && !blif ? " " : "") substr("01-", 1 + int(rand() * 3), 1)
                print row " 1"
            }
        }
        print ".end"
    }'
}

# OPTION FILE: the user seconds, the least of three runs, and the most memory in kilobytes
took() {
    for _ in 1 2 3; do
        /usr/bin/time -q -f '%U %M' -o "$folder/took" "$program" opt $1 "$2" "$folder/none" > "$folder/out" 2> "$folder/notes" || tail -1 "$folder/notes" >&2
        cat "$folder/took"
    done | sort -n | head -1
}

printf '%-10s %10s %8s %10s\n' format bytes seconds megabytes
for format in '' --blif; do
    text "$format" "${2:-195000}" > "$folder/net"
    read -r seconds memory <<< "$(took "$format" "$folder/net")"
    printf '%-10s %10d %8s %10.1f\n' "${format:-BLIF-MV}" "$(stat -c %s "$folder/net")" "$seconds" "$(awk -v k="$memory" 'BEGIN { print k / 1024 }')"
done
[ -n "$files" ] || exit 0

printf '\n%-24s %8s %8s %8s %8s %8s %8s  %s\n' file before behind seconds 'ABC bef.' 'ABC beh.' seconds cec
for file in "$files"/*.blif; do
    /usr/bin/time -q -f %U -o "$folder/took" "$program" opt --blif "$file" "$folder/script" > "$folder/out.blif" 2> "$folder/notes" || true
    read -r before behind <<< "$(awk '/^# done / { print $3, $4 }' "$folder/notes")"
    abc=('-' '-' '-') same=-
    if command -v berkeley-abc > /dev/null && [ -n "$behind" ]; then
        count() { berkeley-abc -c "$1" | sed -n 's/.*lit(sop) *= *\([0-9]*\).*/\1/p' | tail -1; }
        read -r seconds < <(/usr/bin/time -q -f %U berkeley-abc -c "read_blif $file; $commands" 2>&1 > /dev/null | tail -1)
        abc=("$(count "read_blif $file; print_stats -f")" "$(count "read_blif $file; $commands; print_stats -f")" "$seconds")
        same=$(berkeley-abc -c "cec $file $folder/out.blif" | grep -o 'Networks are [A-Za-z ]*' | head -1)
    fi
    printf '%-24s %8s %8s %8s %8s %8s %8s  %s\n' "$(basename "$file")" "${before:-$(tail -1 "$folder/notes" | cut -c9-32)}" "${behind:--}" "$(cat "$folder/took")" "${abc[@]}" "$same"
done
