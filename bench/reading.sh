#!/bin/bash
# Times the reading of Metamath databases against the peer `metamath`, side by side in one run.
#   bench/reading.sh [FOLDER]     FOLDER: where the program is built and kept, else a new one under /tmp
# The databases are those of Debian's package metamath-databases. What is missing is skipped.
# Counts to meet on set.mm: 191462 statements, 1620 symbols, 91278 labels, 40426 assertions, 299377 hypotheses, 155825 pairs.
set -eu
top=$(cd "$(dirname "$0")/.." && pwd)
folder=${1:-$(mktemp -d)}
used='mm_base mm_model model_laws mm_tokens names number_set frame_lists mm_frames'
mkdir -p "$folder/crates/bench_reading/src"
[ -d "$folder/.git" ] || git -C "$folder" init -q
: > "$folder/crates.txt"
for crate in $used; do
    [ -d "$folder/crates/$crate" ] || cp -r "$top/crates/$crate" "$folder/crates/"
    grep "^$crate:" "$top/crates.txt" >> "$folder/crates.txt"
done
echo 'bench_reading: mm_base mm_tokens mm_frames anyhow' >> "$folder/crates.txt"
cp "$top/bench/reading.rt.txt" "$folder/crates/bench_reading/src/main.rt"
program="$folder/crates/bench_reading/out/bench_reading"
(cd "$folder/crates/bench_reading" && rt run > "$folder/build.log" 2>&1) || { tail -5 "$folder/build.log"; exit 1; }
# the greatest memory that the program had, in kB
peak() {
    if [ -x /usr/bin/time ]; then /usr/bin/time -f %M "$program" "$1" 2>&1 > /dev/null; else echo '?'; fi
}
for database in set iset nf ql; do
    file=/usr/share/metamath/databases/$database.mm
    if [ ! -f "$file" ]; then echo "$database: not there"; continue; fi
    echo "== $database: $("$program" "$file")"
    echo "here $( (time -p "$program" "$file" > /dev/null) 2>&1 | grep real), $(peak "$file") kB"
    if command -v metamath > /dev/null; then
        echo "peer $( (time -p metamath "read \"$file\"" exit > /dev/null) 2>&1 | grep real)"
    else
        echo "peer not there"
    fi
done
