#!/usr/bin/env bash
# Times commands on made networks of N, 2N and 4N tables, beside a plain program in Rust (commands_baseline.rs) that writes and
# notes the same: the user seconds of a run, the mean of five and of three such means the least, how much they grew from the size
# before, and how many times the plain program's they are. For each network there are rows of an empty script (none), so that
# reading and writing can be told from the command.
#   bench/commands.sh [N]    N is 10000 unless given, and at most 40000; the program is crates/mvopt/out/mvopt (`make demo` builds it)
# chain:   inverters, one behind the other, and the last is seen; `collapse` names the first 4,000 of them, one a command
# buffers: buffers of three values, one behind the other, every eighth of which is seen
# tree:    gates of two inputs, half of them with a default, as a tree that is as even as may be
# random:  tables of up to three fanins among the 32 nets before, of two to four values, the last eight seen
# fan:     a net whose readers each also read a net of their own, which can go
# wide:    a constant and a net that many read, one reader of both with 4,300 lines, so that neither can go
. "$(dirname "$0")/setup" mvopt

# KIND TABLES: the network
network() {
    awk -v kind="$1" -v n="$2" '
    function draw(m) { seed = seed * 16807 % 2147483647; return int(seed / 2147483647 * m) }
    function names(letter, from, to,    i, text) {
        text = ""
        for (i = from; i < to; i++) text = text " " letter i
        return text
    }
    # a drawn gate of nets a and b, with a default or without
    function gate(a, b, net, spelled,    which) {
        which = draw(3)
        print ".table " a " " b " -> " net
        if (!spelled) print ".default 0\n" (which == 0 ? "1 1 1" : which == 1 ? "1 - 1\n- 1 1" : "0 1 1\n1 0 1")
        else if (which == 0) print "1 1 1\n0 - 0\n- 0 0"
        else if (which == 1) print "0 0 0\n1 - 1\n- 1 1"
        else print "0 0 0\n0 1 1\n1 0 1\n1 1 0"
    }
    function chain(    i) {
        print ".inputs a\n.outputs n" n - 1
        for (i = 0; i < n; i++) print ".table " (i ? "n" i - 1 : "a") " -> n" i "\n0 1\n1 0"
    }
    function buffers(    i, text) {
        text = ".mv a"
        for (i = 0; i < n; i++) text = text ", n" i
        print ".inputs a"
        for (i = 0; i < n; i++) if (i % 8 == 7 || i == n - 1) print ".outputs n" i
        print text " 3"
        for (i = 0; i < n; i++) print ".table " (i ? "n" i - 1 : "a") " -> n" i "\n0 0\n1 1\n2 2"
    }
    # n gates over n + 1 inputs: a gate reads the two that have waited longest
    function tree(    i, first, last, waiting) {
        print ".inputs" names("i", 0, n + 1) "\n.outputs n" n - 1
        first = 0
        for (last = 0; last <= n; last++) waiting[last] = "i" last
        for (i = 0; i < n; i++) {
            gate(waiting[first], waiting[first + 1], "n" i, draw(2))
            first += 2
            waiting[last++] = "n" i
        }
    }
    function random(    i, k, r, count, size, fanin, nets, rows, row, known, v, w) {
        print ".inputs" names("i", 0, 16) "\n.outputs" names("n", n - 8, n)
        for (nets = 0; nets < 16; nets++) { size[nets] = 2; called[nets] = "i" nets }
        for (i = 0; i < n; i++) {
            count = 0
            for (k = 0; k < 3; k++) {
                r = nets - 1 - draw(nets < 32 ? nets : 32)
                if (!((i, r) in known)) { known[i, r] = 1; fanin[count++] = r }
            }
            size[nets] = 2 + draw(3)
            called[nets] = "n" i
            if (size[nets] > 2) print ".mv n" i " " size[nets]
            printf ".table"
            for (k = 0; k < count; k++) { printf " %s", called[fanin[k]]; delete known[i, fanin[k]] }
            print " -> n" i "\n.default " draw(size[nets])
            rows = 2 + draw(3)
            for (r = 0; r < rows; r++) {
                row = ""
                for (k = 0; k < count; k++) row = row (draw(2) ? "-" : draw(size[fanin[k]])) " "
                v = draw(size[nets])
                w = draw(16) ? v : draw(size[nets])
                print row (v == w ? v : "(" v "," w ")")
            }
            nets++
        }
    }
    function fan(    i) {
        print ".inputs" names("i", 0, 16) "\n.outputs" names("z", 0, n / 2)
        print ".table i0 i1 i2 -> hub\n.default 0\n1 1 - 1\n0 - 1 1\n0 0 0 1"
        for (i = 0; i < n / 2; i++) {
            gate("i" draw(8), "i" 8 + draw(8), "own" i)
            gate("hub", "own" i, "z" i)
        }
    }
    function wide(    i, k, row) {
        print ".inputs" names("i", 0, 16) "\n.outputs big" names("z", 0, n / 2)
        print ".table -> one\n1\n.table i14 i15 -> hub\n.default 0\n1 1 1"
        for (i = 0; i < n / 2; i++) {
            gate("i" draw(16), "hub", "own" i)
            gate("one", "own" i, "z" i)
        }
        print ".table" names("i", 0, 13) " one hub -> big\n.default 0"
        for (i = 0; i < 4300; i++) {
            row = ""
            for (k = 0; k < 13; k++) row = row int(i / 2 ^ k) % 2 " "
            print row (i % 2 ? "1 - 1" : "- 1 1")
        }
    }
    BEGIN {
        seed = 1
        print ".model bench"
        if (kind == "chain") chain()
        if (kind == "buffers") buffers()
        if (kind == "tree") tree()
        if (kind == "random") random()
        if (kind == "fan") fan()
        if (kind == "wide") wide()
        print ".end"
    }'
}

# COMMAND: the script
script() {
    case $1 in
        none) ;;
        collapse) awk 'BEGIN { for (i = 0; i < 4000; i++) print "collapse n" i }' ;;
        *) echo "$1" ;;
    esac
}

# PROGRAM NAME: the user seconds of a run on the network and the script that stand in the folder, the least of three means of five
seconds() {
    for _ in 1 2 3; do
        { TIMEFORMAT=%U; time for _ in 1 2 3 4 5; do
            "$1" opt "$folder/net" "$folder/script" > "$folder/out.$2" 2> "$folder/notes.$2"
        done; } 2>> "$folder/took" || true
    done
    grep -q '^# done ' "$folder/notes.$2" || { echo "$2: $(tail -n 1 "$folder/notes.$2")" >&2; exit 1; }
    sort -n "$folder/took" | awk 'NR == 1 { printf "%.3f\n", $1 / 5 }'
    rm "$folder/took"
}

# NEW OLD: by how much the time grew
growth() { awk -v a="${2:-0}" -v b="$1" 'BEGIN { if (a > 0) printf "%.1f", b / a; else printf "-" }'; }

rustc -O --edition 2021 -o "$folder/plain" bench/commands_baseline.rs 2> "$folder/said" || { cat "$folder/said" >&2; exit 1; }
n=${1:-10000}
printf '%-8s %-9s %7s %7s %9s %9s %6s %8s %6s %6s\n' network command tables rules literals seconds growth plain growth ratio
for kind in chain buffers tree random fan wide; do
    commands="none sweep eliminate"
    [ "$kind" = chain ] && commands="$commands collapse"
    for command in $commands; do
        was=''
        plain_was=''
        script "$command" > "$folder/script"
        for size in "$n" $((2 * n)) $((4 * n)); do
            network "$kind" "$size" > "$folder/net"
            took=$(seconds "$program" proved)
            plain=$(seconds "$folder/plain" plain)
            for text in out notes; do
                cmp -s "$folder/$text.proved" "$folder/$text.plain" || { echo "$kind $size, $command: the programs' $text differ" >&2; exit 1; }
            done
            rules=$(grep -c '^[^#]' "$folder/notes.proved" || true)
            literals=$(awk '/^# done / { print $4 }' "$folder/notes.proved")
            printf '%-8s %-9s %7d %7d %9d %9s %6s %8s %6s %6s\n' "$kind" "$command" "$size" "$rules" "$literals" \
                "$took" "$(growth "$took" "$was")" "$plain" "$(growth "$plain" "$plain_was")" "$(growth "$took" "$plain")"
            was=$took
            plain_was=$plain
        done
    done
done
