#!/bin/bash
# Times the pushing of steps into a chain: forty doublings, 10,000 small steps, 1,000 steps each over the one before it, and
# 100 steps over set.mm.
#   bench/chain.sh [FOLDER]     FOLDER: where the program is built and kept, else a new one under /tmp
# Limits: forty doublings 10 ms, 10,000 small steps 2 s, 100 steps over set.mm 10 ms.
set -eu
top=$(cd "$(dirname "$0")/.." && pwd)
folder=${1:-$(mktemp -d)}
mkdir -p "$folder/crates/chain_bench/src"
[ -d "$folder/.git" ] || git -C "$folder" init -q
cp "$top/crates.txt" "$folder/crates.txt"
for crate in $(sed -n 's/^\([a-z_]*\):.*/\1/p' "$top/crates.txt"); do
    [ -d "$folder/crates/$crate" ] || cp -r "$top/crates/$crate" "$folder/crates/"
done
echo 'chain_bench: anyhow mm_base mm_database proof_model sheet_text solve_model step_chain' >> "$folder/crates.txt"
cp "$top/bench/chain.rt.txt" "$folder/crates/chain_bench/src/main.rt"
(cd "$folder/crates/chain_bench" && rt run > "$folder/build.log" 2>&1) || { tail -5 "$folder/build.log"; exit 1; }
"$folder/crates/chain_bench/out/chain_bench"
