#!/bin/bash
# Times 10,000 unifications in a store of 200,000 nodes, each binding one node.
#   bench/unify.sh [FOLDER]     FOLDER: where the program is built and kept, else a new one under /tmp
# To meet: a few seconds for each line. The memory is that of the whole process.
set -eu
top=$(cd "$(dirname "$0")/.." && pwd)
folder=${1:-$(mktemp -d)}
used='mm_base mm_model undo_trail term_model term_arena term_unify'
mkdir -p "$folder/crates/bench_unify/src"
[ -d "$folder/.git" ] || git -C "$folder" init -q
: > "$folder/crates.txt"
for crate in $used; do
    [ -d "$folder/crates/$crate" ] || cp -r "$top/crates/$crate" "$folder/crates/"
    grep "^$crate:" "$top/crates.txt" >> "$folder/crates.txt"
done
echo 'bench_unify: mm_base term_model term_arena term_unify anyhow' >> "$folder/crates.txt"
cp "$top/bench/unify.rt.txt" "$folder/crates/bench_unify/src/main.rt"
program="$folder/crates/bench_unify/out/bench_unify"
(cd "$folder/crates/bench_unify" && rt run > "$folder/build.log" 2>&1) || { tail -5 "$folder/build.log"; exit 1; }
for kind in apart chain; do
    echo "== $kind: $("$program" "$kind")"
    /usr/bin/time -f '%e s, %M KB' "$program" "$kind" 2>&1 > /dev/null || (time -p "$program" "$kind" > /dev/null) 2>&1 | grep real
done
