#!/usr/bin/env bash
# Times bindings/rust and bindings/python beside what else does the same: bench/bindings.sh [LIBRARY]. LIBRARY is a static
# library of crates/vob_c, and else the one that ./build vob_c made. Rows of Rust are ratios of times, the median of three
# readings, and of instructions, which are the same in every run: those of a process that does four rounds, less those of
# one that does two, by callgrind. A ratio is ours over that of the best peer. Rows of Python are ratios of times.
#
# Wants cargo, valgrind, and Debian's packages librust-fixedbitset-dev librust-bit-vec-dev python3-numpy python3-networkx.
# PYTHON (python3) is what has the last two. Nothing is downloaded.
set -euo pipefail
cd "$(dirname "$0")/.."
library=$(realpath -- "${1-crates/vob_c/out/libvob_c.a}")
[ -f "$library" ] || { echo "there is no $library: run ./build vob_c" >&2 && exit 1; }
registry=${DEBIAN_REGISTRY:-/usr/share/cargo/registry}
out=$PWD/bench/out/bindings
mkdir -p "$out"

printf '[source.crates-io]\nreplace-with = "debian"\n[source.debian]\ndirectory = "%s"\n' "$registry" >"$out/config.toml"
tools/make/static "$library" "$out/libconthiral.a"
# the processor for which the library is built
export RUSTFLAGS='-C target-cpu=x86-64-v2' CONTHIRAL_LIB_DIR=$out
(cd bench/rust && cargo build --quiet --release --offline --config "$out/config.toml" --target-dir "$out/rust" && rm Cargo.lock)
harness=$out/rust/release/rust

# instructions ROW LIBRARY: how many a library takes for a round of a row
instructions() {
    local times counts=()
    for times in 2 4; do
        counts+=("$(valgrind --tool=callgrind --callgrind-out-file=/dev/null "$harness" --alone "$1" "$2" "$times" 2>&1 </dev/null |
            sed -n 's/^==[0-9]*== Collected : //p')")
    done
    echo $(((counts[1] - counts[0]) / 2))
}
echo '| Rust | goal | time | instructions | beside |'
echo '|---|---|---|---|---|'
"$harness" | while IFS=$'\t' read -r row goal time peer; do
    "$harness" --names | while IFS=$'\t' read -r name its; do
        [ "$name" != "$row" ] || echo "$(instructions "$row" "$its") $its"
    done | awk -v row="$row" -v goal="$goal" -v time="$time" -v peer="$peer" \
        'NR == 1 { mine = $1; next } NR == 2 || $1 < least { least = $1; beside = $2 }
         END { printf "| %s | %s | %s %s | %.2f | %s |\n", row, goal, time, peer, mine / least, beside }'
done

tools/make/shared "$out/libconthiral.a" "$out/libconthiral.so"
CONTHIRAL_LIBRARY=$out/libconthiral.so PYTHONPATH=bindings/python PYTHONDONTWRITEBYTECODE=1 "${PYTHON:-python3}" bench/bindings.py
