#!/usr/bin/env bash
# Times whole runs with an empty script on designs with very many instances, or with very many bindings, and prints the user and
# the system seconds and the most memory of each, the least of three runs.
#   bench/instances.sh [N]    N is 100000 unless given; the program is crates/mvopt/out/mvopt (`make demo` builds it)
# ports:   a model of 2N inputs, all bound to one net, held 32,768 times below fifteen levels of two instances each
# bound:   N - 1 instances of a model of ten nets, nine of which are bound
# own:     19N/100 instances of a model with ten nets of its own
# chain:   as many, each behind the one before
# twice:   N tables that drive one output, which is bound, 32,768 times below fifteen levels: refused
. "$(dirname "$0")/setup" mvopt
: > "$folder/script"

# KIND N: the design
design() {
    awk -v kind="$1" -v n="$2" '
    # fifteen levels of two instances, the last of model Z, with these ports and these bindings of the last
    function levels(port, last,    k, child, binds) {
        for (k = 0; k < 15; k++) {
            child = k < 14 ? "M" (k + 1) : "Z"
            binds = k < 14 ? "x=x" : last
            print ".model M" k "\n" port " x\n.subckt " child " u " binds "\n.subckt " child " v " binds "\n.end"
        }
    }
    function step(    i) {
        print ".model Z\n.inputs x\n.outputs y\n.table x -> a0\n- =x"
        for (i = 1; i < 9; i++) print ".table a" (i - 1) " -> a" i "\n- =a" (i - 1)
        print ".table a8 -> y\n- =a8\n.end"
    }
    BEGIN {
        if (kind == "ports") {
            for (i = 0; i < 2 * n; i++) { names = names " p" i; binds = binds " p" i "=x" }
            levels(".inputs", binds)
            print ".model Z\n.inputs" names "\n.end"
        } else if (kind == "bound") {
            print ".model r\n.inputs a b c d e f g h i"
            for (i = 1; i < n; i++) print ".subckt Z u" i " a=a b=b c=c d=d e=e f=f g=g h=h i=i"
            print ".end\n.model Z\n.inputs a b c d e f g h i\n.outputs j\n.table a b -> j\n1 1 1\n.default 0\n.end"
        } else if (kind == "own") {
            print ".model r\n.inputs x"
            for (i = 0; i < 19 * n / 100; i++) print ".subckt Z u" i " x=x"
            print ".end"
            step()
        } else if (kind == "chain") {
            print ".model r\n.inputs n0"
            for (i = 0; i < 19 * n / 100; i++) print ".subckt Z u" i " x=n" i " y=n" (i + 1)
            print ".end"
            step()
        } else {
            levels(".outputs", "x=x")
            print ".model Z\n.outputs x"
            for (i = 0; i < n; i++) print ".table -> x"
            print ".end"
        }
    }'
}

# KIND: bytes, seconds and megabytes of a run, and its last note
line() {
    design "$1" "$n" > "$folder/net"
    for _ in 1 2 3; do
        /usr/bin/time -f '%U %S %M' -o "$folder/took" "$program" opt "$folder/net" "$folder/script" > "$folder/out" 2> "$folder/notes" || true
        tail -n 1 "$folder/took" >> "$folder/all"
    done
    sort -n "$folder/all" | head -n 1 | awk -v kind="$1" -v bytes="$(stat -c %s "$folder/net")" -v out="$(stat -c %s "$folder/out")" -v last="$(tail -n 1 "$folder/notes")" \
        '{ printf "%-6s %10d %10d %8s %8s %9.0f  %s\n", kind, bytes, out, $1, $2, $3 / 1024, last }'
    rm "$folder/all"
}

n=${1:-100000}
printf '%-6s %10s %10s %8s %8s %9s\n' kind bytes written user system megabytes
for kind in ports bound own chain twice; do
    line "$kind"
done
