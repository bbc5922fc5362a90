#!/usr/bin/env bash
# Times ./conthiral beside other programs on inputs made by a seed: closures and dominators beside petgraph, and tables
# beside bison.
# What both print of a graph is compared. A time is the median of three runs, in seconds of the processor.
#
# Wants ./build, cargo, bison, and Debian's package librust-petgraph-dev. Nothing is downloaded.
set -euo pipefail
cd "$(dirname "$0")/.."
registry=${DEBIAN_REGISTRY:-/usr/share/cargo/registry}
program=${PROGRAM:-crates/conthiral/out/conthiral}
out=$PWD/bench/out/programs
mkdir -p "$out"

cat >"$out/config.toml" <<END
[source.crates-io]
replace-with = "debian"
[source.debian]
directory = "$registry"
END
(cd bench/petgraph && cargo build --quiet --release --offline --config "$out/config.toml" --target-dir "$out/petgraph"
    rm Cargo.lock)
peer=$out/petgraph/release/closure
immediate=$out/petgraph/release/immediate

python3 - "$out" <<'END'
import random
import sys
from pathlib import Path

out = Path(sys.argv[1])
rng = random.Random(1)


def put_edges(name, nodes, edges):
    lines = (f"n{rng.randrange(nodes)} n{rng.randrange(nodes)}\n" for _ in range(edges))
    (out / name).write_text("n0 n1\n" + "".join(lines))


put_edges("reach", 200_000, 1_000_000)
put_edges("closure", 2_000, 4_000)

# A function with loops nested three deep, and branches that meet again.
nodes = 200_000
lines = []
for node in range(nodes):
    back = [node - node % depth for depth in (5, 25, 50) if node % depth == depth - 1]
    after = [node + 1] * (node + 1 < nodes) + [node + 3] * (node % 5 < 2 and node + 3 < nodes) + back
    lines.append(f"n{node}: next {' '.join(f'n{n}' for n in after)}\n")
(out / "loops").write_text("".join(lines))

# A grammar of 500 rules, 4 for each of 125 nonterminals.
names = [f"n{number}" for number in range(125)]
tokens = [f"T{number}" for number in range(60)]
rules = []
for at, name in enumerate(names):
    later = names[at + 1 : at + 4] or names[:1]
    right = [" ".join([rng.choice(tokens)] + rng.choices(tokens + later * 8, k=rng.randrange(4))) for _ in range(3)]
    rules.append(f"{name}: {' | '.join(right + [' '.join([rng.choice(tokens), *later])])};\n")
(out / "grammar.y").write_text(f"%token {' '.join(tokens)}\n%%\n{''.join(rules)}")
END

# seconds FILE WORD...: runs the words three times with FILE as standard input; the median of their times.
seconds() {
    local input=$1 turn
    shift
    for turn in 1 2 3; do
        { TIMEFORMAT='%U'; time "$@" <"$input" >"$out/output" 2>"$out/errors" || [ $? = 1 ]; } 2>&1
    done | sort -n | sed -n 2p
}
# row NAME FILE OURS... -- THEIRS...: prints both times, and ours over theirs.
row() {
    local name=$1 input=$2 ours=() mine theirs
    shift 2
    while [ "$1" != -- ]; do
        ours+=("$1")
        shift
    done
    shift
    mine=$(seconds "$input" "$program" "${ours[@]}")
    mv "$out/output" "$out/mine"
    theirs=$(seconds "$input" "$@")
    [[ $1 != "$out"/* ]] || cmp "$out/mine" "$out/output"
    awk -v name="$name" -v mine="$mine" -v theirs="$theirs" \
        'BEGIN { printf "| %s | %.2f | %.2f | %.2f |\n", name, mine, theirs, mine / (theirs > 0 ? theirs : 0.005) }'
}
echo '| | ours | theirs | ratio |'
echo '|---|---|---|---|'
row 'reach, 1,000,000 edges, beside petgraph' "$out/reach" closure --from n0 -- "$peer" n0
row 'closure, 2,000 nodes, beside petgraph' "$out/closure" closure -- "$peer"
row 'immediate dominators, 200,000 nodes, beside petgraph' "$out/loops" flow --analysis immediate -- "$immediate"
row 'tables, 500 rules, beside bison' /dev/null grammar "$out/grammar.y" -- bison -o "$out/grammar.c" "$out/grammar.y"
