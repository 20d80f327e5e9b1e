#!/bin/bash
# Times the opening of Metamath databases, with the trees of all their assertions, and compares how many are usable with
# what an independent program counts.
#   bench/opening.sh [FOLDER]     FOLDER: where the program is built and kept, else a new one under /tmp
# The databases are those of Debian's package metamath-databases. What is missing is skipped. The last one is made here: a
# formula of 400 tokens over one production that sets two formulas side by side, so that each way to put brackets is a tree.
# To meet: set.mm in at most 4 s and 500 MB, and the formula of 400 tokens within seconds.
# Where as many assertions are usable as begin with the provable typecode, none was found to have no tree or two.
# What earlier checks kept of the crates (out/) is copied, so that nothing that they proved is proved again.
set -eu
top=$(cd "$(dirname "$0")/.." && pwd)
folder=${1:-$(mktemp -d)}
used='mm_base mm_model model_laws mm_tokens names number_set frame_lists mm_frames syntax_grammar formula_parse sheet_text fault_lines mm_database'
mkdir -p "$folder/crates/bench_opening/src"
[ -d "$folder/.git" ] || git -C "$folder" init -q
: > "$folder/crates.txt"
for crate in $used; do
    [ -d "$folder/crates/$crate" ] || cp -a "$top/crates/$crate" "$folder/crates/"
    grep "^$crate:" "$top/crates.txt" >> "$folder/crates.txt"
done
echo 'bench_opening: mm_base mm_frames mm_database syntax_grammar anyhow' >> "$folder/crates.txt"
cp "$top/bench/opening.rt.txt" "$folder/crates/bench_opening/src/main.rt"
program="$folder/crates/bench_opening/out/bench_opening"
(cd "$folder/crates/bench_opening" && rt run > "$folder/build.log" 2>&1) || { tail -5 "$folder/build.log"; exit 1; }
# the program's line, its time from start to end and its greatest memory
measure() {
    if [ -x /usr/bin/time ]; then
        /usr/bin/time -f 'in all %e s, %M kB' "$program" "$1" 2>&1
    else
        python3 - "$program" "$1" <<'PYTHON'
import os, subprocess, sys, time
start = time.time()
started = subprocess.Popen(sys.argv[1:])
usage = os.wait4(started.pid, 0)[2]
print(f"in all {time.time() - start:.2f} s, {usage.ru_maxrss} kB", flush=True)
PYTHON
    fi
}
while read -r database assertions usable; do
    file=/usr/share/metamath/databases/$database.mm
    if [ ! -f "$file" ]; then echo "$database: not there"; continue; fi
    echo "== $database (to meet: $assertions assertions, $usable usable)"
    measure "$file"
done <<COUNTS
set 40426 39136
iset 9457 9259
nf 6360 6198
ql 1215 1186
hol 209 185
peano 48 30
COUNTS
{
    echo '$c wff |- $. $v A B $. wA $f wff A $. wB $f wff B $. beside $a wff A B $.'
    echo 'long $a |-'
    for _ in $(seq 399); do echo A; done
    echo '$.'
} > "$folder/beside.mm"
echo "== a formula of 400 tokens with many trees (to meet: 2 assertions, 0 usable)"
measure "$folder/beside.mm"
