#!/usr/bin/env bash
# Shows how ./conthiral grows: bench/growth.sh [FILTER]. For each row whose name has FILTER in it, prints time and
# memory at three sizes, a factor of ten apart, beside petgraph, tred, bison, sqlite3 or awk. A time is the median of
# three runs, in seconds of the processor; memory is the most that was resident, in MB. So do slots beside slab.
#
# Wants ./build, cargo, and Debian's packages librust-petgraph-dev, graphviz, bison, sqlite3 and time; for slots
# `CHECK=1 bench/run.sh` before. Nothing is downloaded.
set -euo pipefail
cd "$(dirname "$0")/.."
filter=${1:-}
registry=${DEBIAN_REGISTRY:-/usr/share/cargo/registry}
program=${PROGRAM:-crates/conthiral/out/conthiral}
out=$PWD/bench/out/growth
mkdir -p "$out"

cat >"$out/config.toml" <<TOML
[source.crates-io]
replace-with = "debian"
[source.debian]
directory = "$registry"
TOML
(cd bench/petgraph && cargo build --quiet --release --offline --config "$out/config.toml" --target-dir "$out/petgraph"
    rm Cargo.lock)
petgraph=$out/petgraph/release/closure
immediate=$out/petgraph/release/immediate

# make KIND SIZE: writes an input of that size, by a seed.
make() {
    python3 - "$1" "$2" <<'PYTHON' >"$out/input"
import random
import sys

kind, size = sys.argv[1], int(sys.argv[2])
rng = random.Random(size)
put = sys.stdout.write

if kind == "edges":
    # Two edges from each node on average.
    put("n0 n1\n")
    for _ in range(2 * size):
        put(f"n{rng.randrange(size)} n{rng.randrange(size)}\n")
elif kind in ("chain", "chain.gv"):
    # A long acyclic graph: an edge to the next node, and one to one of the ten after it.
    line = "n{} -> n{};\n" if kind == "chain.gv" else "n{} n{}\n"
    put("digraph g {\n" if kind == "chain.gv" else "")
    for node in range(size - 11):
        put(line.format(node, node + 1) + line.format(node, node + rng.randint(2, 11)))
    put("}\n" if kind == "chain.gv" else "")
elif kind == "functions":
    # Functions of 100 nodes and 12 variables each, with loops nested three deep, and an entry that leads to each.
    put(f"main: next {' '.join(f'n{n}' for n in range(0, size, 100))}\n")
    for node in range(size):
        at, base = node % 100, node - node % 100
        own = lambda: f"v{base + rng.randrange(12)}"
        back = [base + at - at % depth for depth in (5, 25, 50) if at % depth == depth - 1]
        after = [node + 1, *back] if at < 99 else []
        put(f"n{node}: reads {own()} {own()}; writes {own()}; next {' '.join(f'n{n}' for n in after)}\n")
elif kind == "loops":
    # One function with loops nested three deep, and branches that meet again.
    for node in range(size):
        back = [node - node % depth for depth in (5, 25, 50) if node % depth == depth - 1]
        after = [node + 1] * (node + 1 < size) + [node + 3] * (node % 5 < 2 and node + 3 < size) + back
        put(f"n{node}: next {' '.join(f'n{n}' for n in after)}\n")
elif kind == "grammar":
    # Four rules for each nonterminal, as many terminals as 60.
    names = [f"n{number}" for number in range(size // 4)]
    tokens = [f"T{number}" for number in range(60)]
    put(f"%token {' '.join(tokens)}\n%%\n")
    for at, name in enumerate(names):
        later = names[at + 1 : at + 4] or names[:1]
        right = [[rng.choice(tokens)] + rng.choices(tokens + later * 8, k=rng.randrange(4)) for _ in range(3)]
        right.append([rng.choice(tokens), *later])
        put(f"{name}: {' | '.join(' '.join(words) for words in right)};\n")
else:
    put("age,height,name\n")
    for _ in range(size):
        put(f"{rng.randrange(100)},{rng.randrange(100, 200)},n{rng.randrange(1000)}\n")
PYTHON
}

# cost WORD...: the median time of three runs, and the memory of that one, with the input as standard input. A run of
# more than 10 seconds is the only one, and one of 100 seconds is ended.
cost() {
    local turn status
    for turn in 1 2 3; do
        status=0
        /usr/bin/time -f '%U %M' -o "$out/cost" timeout 100 "$@" <"$out/input" >/dev/null 2>"$out/errors" || status=$?
        case $status in
        0 | 1) tail -n 1 "$out/cost" ;;
        124) echo '100 0' ;;
        *) cat "$out/errors" >&2; exit 1 ;;
        esac
        [ "$(tail -n 1 "$out/cost" | cut -d . -f 1)" -lt 10 ] || break
    done | sort -n | awk '{ time[NR] = $1; memory[NR] = $2 }
        END { at = int((NR + 1) / 2); printf "%.2f | %.0f", time[at], memory[at] / 1024 }'
}

# rows NAME KIND SIZE OURS... [-- THEIRS...]: a row for that size, ten times it and a hundred times it.
rows() {
    local name=$1 kind=$2 size=$3 ours=() mine theirs scale
    shift 3
    [[ $name == *"$filter"* ]] || return 0
    while [ $# != 0 ] && [ "$1" != -- ]; do
        ours+=("$1")
        shift
    done
    [ $# = 0 ] || shift
    for scale in 1 10 100; do
        make "$kind" $((size * scale))
        mine=$(cost "$program" "${ours[@]}")
        theirs='|'
        if [ $# != 0 ]; then
            [ "$1" != tred ] || make "$kind.gv" $((size * scale))
            theirs=$(cost "$@")
        fi
        echo "| $name | $((size * scale)) | $mine | $theirs |"
    done
}
# arenas: a row for each size of a full arena, of which two slots are given back and taken, ten million times.
arenas() {
    local name='a full arena, slots, beside slab' harness=bench/out/x86-64-v2/target/release/harness size row
    [[ $name == *"$filter"* ]] || return 0
    [ -x "$harness" ] || { echo "growth: no slots without $harness" >&2 && return; }
    : >"$out/input"
    for size in 10000 100000 1000000; do
        row="a full arena of slots at $size bits"
        echo "| $name | $size | $(cost "$harness" --alone conthiral 10000000 "$row") |" \
            "$(cost "$harness" --alone slab 10000000 "$row") |"
    done
}
echo '| | size | ours: seconds | MB | theirs: seconds | MB |'
echo '|---|---|---|---|---|---|'
rows 'closure, nodes, beside petgraph' edges 50 closure -- "$petgraph"
rows 'what a node leads to, nodes, beside petgraph' edges 20000 closure --from n0 -- "$petgraph" n0
rows 'reduction, nodes, beside tred' chain 200 closure --reduce -- tred
for analysis in live reaching available busy dominators; do
    rows "$analysis, nodes of functions" functions 10000 flow --analysis $analysis
done
rows 'immediate dominators, nodes, beside petgraph' loops 10000 flow --analysis immediate -- "$immediate"
rows 'tables, rules, beside bison' grammar 80 grammar /dev/stdin -- bison -o "$out/grammar.c" /dev/stdin
rows 'filter, rows, beside sqlite3' table 100000 filter - 'age<30 & height>170' -- \
    sqlite3 :memory: '.import --csv /dev/stdin t' "select * from t where age + 0 < 30 and height + 0 > 170"
rows 'filter, rows, beside awk' table 100000 filter - 'age<30 & height>170' -- \
    awk -F , 'NR == 1 || ($1 < 30 && $2 > 170)'
arenas
