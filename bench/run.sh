#!/usr/bin/env bash
# Times Conthiral beside vob 4.0.1 and its peers: bench/run.sh [CPU] [FILTER]. CPU is x86-64-v2 (the
# default) or x86-64-v3; FILTER is a part of the names of the rows. Builds everything, compares all
# checksums, times, and writes bench/out/CPU.tsv. TURNS (21) is the number of turns of which the least
# time is taken; a row that isn't settled gets up to four times as many. CHECK=1 stops after the
# checksums; JUMPS=anywhere leaves jumps to the compilers (apart). `bench/report.py merge` of three such
# files gives one of bench/results, whose readings took TURNS=3.
#
# Wants rt, cargo, g++ and Debian's packages librust-fixedbitset-dev librust-bit-vec-dev
# librust-bit-set-dev librust-slab-dev librust-smallbitvec-dev librust-num-traits-dev libboost-dev. Nothing is
# downloaded. VOB_SOURCE names src/lib.rs of vob 4.0.1 (bench/vob/lib.rs), which isn't part
# of this repository.
set -euo pipefail
cd "$(dirname "$0")/.."
cpu=${1:-x86-64-v2}
filter=${2:-}
jumps=${JUMPS:-apart}
source=$(realpath -m "${VOB_SOURCE:-bench/vob/lib.rs}")
registry=${DEBIAN_REGISTRY:-/usr/share/cargo/registry}

case $cpu in
x86-64-v2 | x86-64-v3) ;;
*) echo "no such CPU here: $cpu (x86-64-v2 or x86-64-v3)" >&2; exit 2 ;;
esac
case $jumps in
apart)
    by_clang=-mbranches-within-32B-boundaries
    by_gcc=(-Wa,-mbranches-within-32B-boundaries)
    by_rustc='-C llvm-args=-x86-branches-within-32B-boundaries'
    ;;
anywhere) by_clang='' by_gcc=() by_rustc='' ;;
*) echo "no such word for jumps here: $jumps (apart or anywhere)" >&2; exit 2 ;;
esac
[ -r "$source" ] || { echo "no source of vob 4.0.1 at $source: set VOB_SOURCE" >&2; exit 2; }
[ -d "$registry" ] || { echo "no crates at $registry: install Debian's packages" >&2; exit 2; }

cd bench
out=$PWD/out
libs=$out/$cpu
mkdir -p "$libs" "$out/vob/src"

# The toolchain's compiler, which is told to keep jumps off 32-byte boundaries: on processors with Intel's jump
# conditional code erratum a loop isn't kept decoded where one lies across. All libraries are built so, or with
# JUMPS=anywhere none.
kit=$(dirname "$(dirname "$(readlink -f "$(command -v rt)")")")
toolchain=$out/toolchain-$jumps
mkdir -p "$toolchain/bin"
ln -sfn "$kit/toolchain/lib" "$toolchain/lib"
ln -sf "$kit"/toolchain/bin/* "$toolchain/bin"
rm "$toolchain/bin/clang"
printf '#!/bin/sh\nexec "%s" "$@" %s\n' "$kit/toolchain/bin/clang" "$by_clang" >"$toolchain/bin/clang"
chmod +x "$toolchain/bin/clang"

# Ours: proved, then built by that compiler for this CPU.
if [ "$cpu" = x86-64-v2 ]; then flag=(); else flag=("--cpu=$cpu"); fi
words=(--extern "std=$kit/rlibs/std.rlib" -L "dependency=$kit/rlibs")
for library in $(sed -n "s/^vob_bench staticlib://p" ../crates.txt); do
    words+=(--extern "$library=../$library/out/rlib/$library.rlib")
done
for library in $(../tools/run/below vob_bench); do
    words+=(-L "dependency=../$library/out/rlib")
done
(
    cd "../crates/vob_bench"
    rt lib "${flag[@]}"
    "$kit/bin/rattle" build --crate-name vob_bench src/lib.rt "${words[@]}" "${flag[@]}" --crate-type staticlib \
        --antt-project "$kit/rattle/logic/antt-project.json" --logic-built "$kit/logic_built" \
        --incremental out/incremental --toolchain "$toolchain" -o "$libs/proved.a"
) | tail -n 1
# Each function of each library starts at a cache line: where a short loop lies among them can take
# half of its time, and a change elsewhere would move it.
objcopy --set-section-alignment '.text.*=64' "$libs/proved.a" "$libs/libvob_bench.a"
gcc -O2 -fno-builtin-malloc -march="$cpu" -c heap/heap.c -o "$libs/heap.o"
ar rs "$libs/libvob_bench.a" "$libs/heap.o"

# The twin.
g++ -std=c++17 -O3 -DNDEBUG -falign-functions=64 -march="$cpu" "${by_gcc[@]}" -c twin/twin.cpp -o "$libs/twin.o"
rm -f "$libs/libtwin.a"
ar rcs "$libs/libtwin.a" "$libs/twin.o"

# The original crate, as its source is given.
cp "$source" "$out/vob/src/lib.rs"
cat >"$out/vob/Cargo.toml" <<TOML
[package]
name = "vob"
version = "4.0.1"
edition = "2021"

[dependencies]
num-traits = "0.2"

[features]
unsafe_internals = []
serde = []
wincode = []

[workspace]
TOML

# Debian's crates in the place of crates.io.
mkdir -p "$out/cargo"
cat >"$out/cargo/config.toml" <<TOML
[source.crates-io]
replace-with = "debian"

[source.debian]
directory = "$registry"
TOML
rm -f harness/Cargo.lock
RUSTFLAGS="-C target-cpu=$cpu -C llvm-args=-align-all-functions=6 $by_rustc -L native=$libs" \
    cargo build --quiet --offline --release --config "$out/cargo/config.toml" \
    --manifest-path harness/Cargo.toml --target-dir "$libs/target"

turns=${TURNS:-21}
words=(--turns "$turns")
if [ -n "${CHECK:-}" ]; then words+=(--check); fi
table=out/$cpu.tsv
{
    echo "# date $(date -u +%F)"
    echo "# machine $(sed -n 's/^model name[^:]*: //p' /proc/cpuinfo | head -n 1)"
    echo "# cpu $cpu"
    echo "# kit $(rt version)"
    echo "# rustc $(rustc --version)"
    echo "# least of $turns turns"
    echo "# jumps $jumps"
    "$libs/target/release/harness" "${words[@]}" "$filter"
} >"$out/new.tsv"
if [ -n "${CHECK:-}" ]; then exit 0; fi
mv "$out/new.tsv" "$table"
echo "written to bench/$table" >&2
