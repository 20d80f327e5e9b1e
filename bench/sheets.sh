#!/bin/bash
# Times the reading of worksheets of nearly 2^24 bytes. Each is to take at most 2 s.
#   bench/sheets.sh [FOLDER]      FOLDER: where the program is built and kept, else a new one under /tmp
set -eu
top=$(cd "$(dirname "$0")/.." && pwd)
folder=${1:-$(mktemp -d)}
used='mm_base mm_model mm_tokens names sheet_text sheet_read'
mkdir -p "$folder/crates/bench_sheets/src"
[ -d "$folder/.git" ] || git -C "$folder" init -q
: > "$folder/crates.txt"
for crate in $used; do
    [ -d "$folder/crates/$crate" ] || cp -r "$top/crates/$crate" "$folder/crates/"
    grep "^$crate:" "$top/crates.txt" >> "$folder/crates.txt"
done
echo 'bench_sheets: mm_base sheet_text sheet_read anyhow' >> "$folder/crates.txt"
cp "$top/bench/sheets.rt.txt" "$folder/crates/bench_sheets/src/main.rt"
program="$folder/crates/bench_sheets/out/bench_sheets"
(cd "$folder/crates/bench_sheets" && rt run > "$folder/build.log" 2>&1) || { tail -5 "$folder/build.log"; exit 1; }

# a header, lines by this rule until there are enough bytes, and the last step with the footer
make_sheet() {
    awk -v most=16777000 -v rule="$1" 'BEGIN {
        line = "$( <MM> <PROOF_ASST> THEOREM=big LOC_AFTER=?"; print line; bytes = length(line) + 1
        for (n = 1; ; n++) {
            if (rule == "steps") line = n > 1 ? n ":" n - 1 ",1:ax-mp |- ( ph -> ( ps -> ch ) )" : "1::ax-1 |- ph"
            if (rule == "short") line = n "::"
            if (rule == "long") line = (n == 1 ? "1:: |-" : " ( ph -> ps ) ( ph -> ps ) ( ph -> ps ) ( ph -> ps )")
            if (rule == "comments") line = "* the step that follows rests on the one before it"
            if (rule == "symbols") line = (n == 1 ? "$d x y" : " x" n " y" n " z" n)
            if (rule == "proof") line = (n == 1 ? "$= (" : " ax-mp ax-1 ax-2 ABCDEFGHIJ ABCDEFGHIJ")
            if (bytes + length(line) + 1 > most) break
            print line; bytes += length(line) + 1
        }
        if (rule == "proof") print " $."
        print "qed::"; print "$)"
    }'
}
for rule in steps short long comments symbols proof; do
    make_sheet "$rule" > "$folder/$rule.mmp"
    echo "== $rule: $("$program" "$folder/$rule.mmp")"
    ( time -p "$program" "$folder/$rule.mmp" > /dev/null ) 2>&1 | grep real
done
