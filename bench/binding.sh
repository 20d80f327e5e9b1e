#!/bin/bash
# Times the binding of worksheets of 20,000 short steps, and of one with 20,000 `$d` statements, over set.mm of Debian's
# package metamath-databases. Each is to take at most 2 s.
#   bench/binding.sh [FOLDER]     FOLDER: where the program is built and kept, else a new one under /tmp
set -eu
top=$(cd "$(dirname "$0")/.." && pwd)
folder=${1:-$(mktemp -d)}
database=/usr/share/metamath/databases/set.mm
[ -f "$database" ] || { echo "set.mm: not there"; exit 0; }
used='mm_base mm_model model_laws mm_tokens names number_set frame_lists mm_frames syntax_grammar formula_parse sheet_text proof_model solve_model written_model mm_database sheet_read work_vars pair_set sheet_bind'
mkdir -p "$folder/crates/bench_binding/src"
[ -d "$folder/.git" ] || git -C "$folder" init -q
: > "$folder/crates.txt"
for crate in $used; do
    [ -d "$folder/crates/$crate" ] || cp -a "$top/crates/$crate" "$folder/crates/"
    grep "^$crate:" "$top/crates.txt" >> "$folder/crates.txt"
done
echo 'bench_binding: mm_base mm_database sheet_read sheet_bind anyhow' >> "$folder/crates.txt"
cp "$top/bench/binding.rt.txt" "$folder/crates/bench_binding/src/main.rt"
program="$folder/crates/bench_binding/out/bench_binding"
(cd "$folder/crates/bench_binding" && rt run > "$folder/build.log" 2>&1) || { tail -5 "$folder/build.log"; exit 1; }

# a header, 20,000 lines by this rule, and the last step with the footer
make_sheet() {
    awk -v rule="$1" 'BEGIN {
        print "$( <MM> <PROOF_ASST> THEOREM=zzz LOC_AFTER=?"
        for (n = 1; n <= 20000; n++) {
            if (rule == "steps") print "s" n "::a1i |- ( ph -> ps )"
            if (rule == "mixed") print "s" n (n % 2 ? "::a1i |- ( ph -> ( ps -> ( ch /\\ th ) ) )" : "::eqid |- ( A + B ) = ( B + A )")
            if (rule == "work") print "s" n "::a1i |- ( &W" n " -> &W" n + 1 " )"
            if (rule == "hypotheses") print "hs" n "::zzz." n " |- ( ph -> ps )"
            if (rule == "blank") print "s" n "::a1i"
            if (rule == "pairs") print "$d x " substr("yzwvu", n % 5 + 1, 1)
        }
        print "qed:: |- ph"; print "$)"
    }'
}
for rule in steps mixed work hypotheses blank pairs; do
    make_sheet "$rule" > "$folder/$rule.mmp"
done
(cd "$folder" && "$program" "$database" steps.mmp mixed.mmp work.mmp hypotheses.mmp blank.mmp pairs.mmp)
