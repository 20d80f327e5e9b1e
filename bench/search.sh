#!/bin/bash
# Times the search for references over set.mm of Debian's package metamath-databases: of each seventh assertion with its
# hypotheses in the other order the first that fits, the same with the conclusion of another assertion, and all that fit.
# A search is to take at most 5 ms where the head is `wi` or `wceq`, and at most 1 ms elsewhere.
#   bench/search.sh [FOLDER]      FOLDER: where the program is built and kept, else a new one under /tmp
set -eu
top=$(cd "$(dirname "$0")/.." && pwd)
folder=${1:-$(mktemp -d)}
database=/usr/share/metamath/databases/set.mm
[ -f "$database" ] || { echo "set.mm: not there"; exit 0; }
used='mm_base mm_model model_laws mm_tokens names number_set frame_lists mm_frames syntax_grammar formula_parse sheet_text proof_model solve_model solve_laws written_model mm_database pair_set distinct_vars hyp_order ref_search'
mkdir -p "$folder/crates/bench_search/src"
[ -d "$folder/.git" ] || git -C "$folder" init -q
: > "$folder/crates.txt"
for crate in $used; do
    [ -d "$folder/crates/$crate" ] || cp -a "$top/crates/$crate" "$folder/crates/"
    grep "^$crate:" "$top/crates.txt" >> "$folder/crates.txt"
done
echo 'bench_search: mm_base mm_frames mm_database ref_search anyhow' >> "$folder/crates.txt"
cp "$top/bench/search.rt.txt" "$folder/crates/bench_search/src/main.rt"
program="$folder/crates/bench_search/out/bench_search"
(cd "$folder/crates/bench_search" && rt run > "$folder/build.log" 2>&1) || { tail -5 "$folder/build.log"; exit 1; }
"$program" "$database"
