#!/usr/bin/env python3
"""Measures what `mmp` takes for inputs that are large, deep or made to hurt, each at three sizes, mostly n, 2n and 4n.

    bench/hostile.py PROGRAM [WORD ..]      PROGRAM: the built mmp; WORD: only the kinds whose name has one of these words
        --seconds S     the processor seconds of one run, else 60; a run that needs more is told as `over`
        --memory M      the megabytes of one run, else 6000
        --scale K       all sizes times K, else 1
        --table         rows of a table for docs/LIMITS.md

A kind is one database, with a theorem `x` or a worksheet or both. A row tells the size, the processor time, its ratio to the time
of the size before, the greatest memory, the status, and the first line of what was told. The stack has 8 MB; a status of -11 means that it ran out.
Times are of one run, so that short ones are noise.
"""
import argparse, os, re, resource, shutil, subprocess, sys, tempfile

P = """$c ( ) -> -. wff |- $.
$v ph ps ch $.
wph $f wff ph $.
wps $f wff ps $.
wch $f wff ch $.
wn $a wff -. ph $.
wi $a wff ( ph -> ps ) $.
${
  min $e |- ph $.
  maj $e |- ( ph -> ps ) $.
  ax-mp $a |- ps $.
$}
ax-1 $a |- ( ph -> ( ps -> ph ) ) $.
ax-2 $a |- ( ( ph -> ( ps -> ch ) ) -> ( ( ph -> ps ) -> ( ph -> ch ) ) ) $.
id $a |- ( ph -> ph ) $.
"""
X = "x $p |- ( ph -> ph ) $= wph id $.\n"
AX1 = "|- ( ph -> ( ps -> ph ) )"
SET = "/usr/share/metamath/databases/set.mm"
KINDS = []


def kind(what, *sizes):
    """A kind: its name, the sizes that are run, and what makes (database, worksheet or None) of a size."""
    def add(make):
        KINDS.append((make.__name__.replace("_", " "), what, sizes, make))
        return make
    return add


def sheet(lines, last="qed::id |- ( ph -> ph )", name="zz"):
    return f"$( <MM> <PROOF_ASST> THEOREM={name} LOC_AFTER=?\n" + "".join(line + "\n" for line in lines) + last + "\n$)\n"


SMALL = sheet([])


def letters(number):
    """A number as the letters of a compressed proof."""
    last, rest = chr(65 + (number - 1) % 20), (number - 1) // 20
    front = ""
    while rest:
        front = chr(85 + (rest - 1) % 5) + front
        rest = (rest - 1) // 5
    return front + last


def folded(words, width=76):
    """Words in lines of about this many bytes."""
    lines, line = [], ""
    for word in words:
        if len(line) + len(word) > width:
            lines.append(line)
            line = ""
        line += word + " "
    return "\n".join(lines + [line])


# ---- databases

@kind("bytes of one `$c`", 1 << 22, 1 << 23, 1 << 24)
def database_constants(n):
    return P + X + "$c " + folded(f"c{k:06x}" for k in range(n // 8)) + " $.\n", SMALL


@kind("bytes of `$c` statements of one symbol", 1 << 22, 1 << 23, 1 << 24)
def database_statements(n):
    return P + X + "".join(f"$c c{k:06x} $.\n" for k in range(n // 14)), SMALL


@kind("bytes of one comment", 1 << 24, 1 << 25, 1 << 26)
def database_comment(n):
    return P + X + "$( " + "ab cd\n" * (n // 6) + "$)\n", SMALL


@kind("bytes of one word in a comment", 1 << 24, 1 << 25, 1 << 26)
def database_comment_word(n):
    return P + X + "$( " + "a" * n + " $)\n", SMALL


@kind("bytes of blocks, one in the other, all closed", 1 << 22, 1 << 23, 1 << 24)
def database_blocks(n):
    return P + X + "${ " * (n // 6) + "$} " * (n // 6) + "\n", SMALL


@kind("bytes of blocks, one in the other, none closed", 1 << 22, 1 << 23, 1 << 24)
def database_open_blocks(n):
    return P + X + "${ " * (n // 3) + "\n", SMALL


@kind("bytes of blocks, one behind the other", 1 << 22, 1 << 23, 1 << 24)
def database_empty_blocks(n):
    return P + X + "${ $} " * (n // 6) + "\n", SMALL


@kind("variables, each with a `$f` in a block", 100_000, 200_000, 400_000)
def database_floats(n):
    return P + X + "".join(f"${{ $v v{k} $. f{k} $f wff v{k} $. $}}\n" for k in range(n)), SMALL


@kind("labels, each of an `$a` of three symbols", 250_000, 500_000, 1_000_000)
def database_labels(n):
    return P + X + "".join(f"l{k} $a |- -. ph $.\n" for k in range(n)), SMALL


@kind("symbols of one `$d`, and an assertion without them", 2_500, 5_000, 10_000)
def distinct_one(n):
    names = " ".join(f"v{k}" for k in range(n))
    return P + f"$v {names} $.\n$d {names} $.\n" + X, SMALL


@kind("symbols of one `$d`, and an assertion with them all", 500, 1_000, 2_000)
def distinct_used(n):
    names = " ".join(f"v{k}" for k in range(n))
    floats = "".join(f"f{k} $f wff v{k} $.\n" for k in range(n))
    return P + f"$v {names} $.\n{floats}$d {names} $.\ny $a |- {names} $.\n" + X, SMALL


@kind("`$d` of two symbols outside blocks, and as many assertions", 5_000, 10_000, 20_000)
def distinct_outside(n):
    return P + "$d ph ps $.\n" * n + "".join(f"l{k} $a |- -. ph $.\n" for k in range(n)) + X, SMALL


@kind("`$d` of two of n variables each, all pairs apart, and an assertion without them", 10_000, 20_000, 40_000)
def distinct_apart(n):
    names = [f"v{k}" for k in range(n)]
    pairs = "".join(f"$d v{k} v{(7 * k + 1) % n} $.\n" for k in range(n) if k != (7 * k + 1) % n)
    return P + "$v " + " ".join(names) + " $.\n" + pairs + X, SMALL


@kind("`$e` of one assertion", 2_500, 5_000, 10_000)
def frame_essentials(n):
    return P + X + "${\n" + "".join(f"e{k} $e |- ph $.\n" for k in range(n)) + "y $a |- ph $.\n$}\n", SMALL


@kind("`$f` of one assertion", 1_000, 2_000, 4_000)
def frame_floats(n):
    names = [f"v{k}" for k in range(n)]
    return P + X + "$v " + " ".join(names) + " $.\n" + "".join(f"f{v} $f wff {v} $.\n" for v in names) + "y $a |- " + " ".join(names) + " $.\n", SMALL


@kind("`$e` outside blocks, and as many assertions", 500, 1_000, 2_000)
def frame_square(n):
    return P + X + "".join(f"e{k} $e |- ph $.\n" for k in range(n)) + "".join(f"y{k} $a |- ph $.\n" for k in range(n)), sheet([], "qed::id |- ( ph -> ph )", "x")


@kind("`$f` outside blocks, and as many assertions with one variable", 20_000, 40_000, 80_000)
def frame_outside(n):
    floats = "".join(f"$v v{k} $. f{k} $f wff v{k} $.\n" for k in range(n))
    return P + X + floats + "".join(f"y{k} $a |- v{k} $.\n" for k in range(n)), SMALL


@kind("typecodes, each joined to the next by a chain", 500, 1_000, 2_000)
def grammar_chain(n):
    text = "$c " + " ".join(f"t{k}" for k in range(n + 1)) + " $.\n$v " + " ".join(f"v{k}" for k in range(n + 1)) + " $.\n"
    text += "".join(f"f{k} $f t{k} v{k} $.\n" for k in range(n + 1)) + "".join(f"c{k} $a t{k + 1} v{k} $.\n" for k in range(n))
    return P + text + f"cl $a wff v{n} $.\n$v u $.\nfu $f t0 u $.\ny $a |- ( u -> u ) $.\n" + X, sheet(["1::id |- ( u -> u )"])


@kind("typecodes, each joined to the one before by a chain", 500, 1_000, 2_000)
def grammar_chain_back(n):
    text = "$c " + " ".join(f"t{k}" for k in range(n + 1)) + " $.\n$v " + " ".join(f"v{k}" for k in range(n + 1)) + " $.\n"
    text += "".join(f"f{k} $f t{k} v{k} $.\n" for k in range(n + 1)) + "".join(f"c{k} $a t{k + 1} v{k} $.\n" for k in reversed(range(n)))
    return P + text + f"cl $a wff v{n} $.\n$v u $.\nfu $f t0 u $.\ny $a |- ( u -> u ) $.\n" + X, sheet(["1::id |- ( u -> u )"])


@kind("productions that begin alike, and an assertion of 400 brackets", 1_000, 2_000, 4_000)
def grammar_alike(n):
    text = "$c " + " ".join(f"k{k}" for k in range(n)) + " $.\n" + "".join(f"w{k} $a wff ( ph k{k} ps ) $.\n" for k in range(n))
    formula = "ph"
    for k in range(400):
        formula = f"( {formula} k{k % n} ps )"
    return P + text + f"y $a |- {formula} $.\n" + X, SMALL


@kind("productions without constants but one at the end, and an assertion of 100 variables", 20, 40, 80)
def grammar_late(n):
    text = "$c " + " ".join(f"k{k}" for k in range(n)) + " $.\n" + "".join(f"w{k} $a wff ph ps ch k{k} $.\n" for k in range(n))
    return P + text + "y $a |- " + "ph " * 100 + "k0 $.\n" + X, SMALL


@kind("tokens of a formula with very many trees", 100, 200, 400)
def ambiguous(n):
    return P + "wj $a wff ph ps $.\ny $a |- " + "ph " * n + "$.\n" + X, sheet([f"1:: |- " + "ph " * n])


@kind("tokens of a formula that nests to the right", 1_000, 2_000, 4_000)
def nested_right(n):
    return P + "y $a |- " + "-. " * n + "ph $.\n" + X, sheet(["1:: |- " + "-. " * n + "ph"])


@kind("tokens of a formula that nests to the left", 1_000, 2_000, 4_000)
def nested_left(n):
    return P + "$c ! $.\nwf $a wff ph ! $.\ny $a |- ph " + "! " * n + "$.\n" + X, sheet(["1:: |- ph " + "! " * n])


@kind("tokens of a formula of brackets", 1_000, 2_000, 4_000)
def nested_brackets(n):
    formula = "( ph -> " * (n // 4) + "ps" + " )" * (n // 4)
    return P + f"y $a |- {formula} $.\n" + X, sheet(["1:: |- " + formula])


@kind("tokens of a formula that nests with 50 chains between its nodes", 1_000, 2_000, 4_000)
def nested_chains(n):
    codes = range(1, 51)
    text = "$c ~ " + " ".join(f"t{k}" for k in codes) + " $.\n$v " + " ".join(f"v{k}" for k in codes) + " $.\n"
    text += "".join(f"f{k} $f t{k} v{k} $.\n" for k in codes) + "c1 $a t1 ph $.\n"
    text += "".join(f"c{k} $a t{k} v{k - 1} $.\n" for k in codes[1:]) + "wd $a wff ~ v50 $.\n"
    return P + text + "y $a |- " + "~ " * n + "ph $.\n" + X, sheet([])


@kind("letters of the names of a label, a constant and a step", 1_000_000, 2_000_000, 4_000_000)
def names_long(n):
    label, constant = "l" * n, "c" * n
    return P + X + f"$c {constant} $.\n{label} $a wff {constant} $.\n", sheet([("s" * n) + "::id |- ( " + constant + " -> " + constant + " )"])


# ---- proofs

NOP = "$c T $.\n${ nop.1 $e |- T $. nop $a |- T $. $}\naxt $a |- T $.\n"
DROP = "${ drop.1 $e |- T $. drop.2 $e |- T $. drop $a |- T $. $}\n"
DUP = "${ dup.1 $e |- ph $. dup $a |- ph $. $}\n"


@kind("letters of a compressed proof", 250_000, 500_000, 1_000_000)
def proof_letters(n):
    return P + NOP + "x $p |- T $= ( axt nop ) A" + folded(["B" * 70] * (n // 70), 70) + " $.\n", None


@kind("labels of a normal proof", 250_000, 500_000, 1_000_000)
def proof_normal(n):
    return P + NOP + "x $p |- T $= axt " + folded(["nop"] * n) + " $.\n", None


@kind("entries of the stack", 250_000, 500_000, 1_000_000)
def proof_stack(n):
    return P + DUP + "x $p |- ( ph -> ph ) $= ( wi id dup ) " + folded(["AAB"] * n, 75) + "AC" + folded(["D" * 70] * (n // 70) + ["D" * (n % 70)], 70) + " $.\n", None


@kind("entries of the stack that are left over", 250_000, 500_000, 1_000_000)
def proof_left_over(n):
    return P + "x $p |- ( ph -> ph ) $= ( id ) " + folded(["A" * 70] * (n // 70), 70) + " $.\n", None


@kind("marks, each named once", 50_000, 100_000, 200_000)
def proof_marks(n):
    proof = ["AZ"] + ["BZ"] * (n - 1) + [letters(4 + k) + "C" for k in range(n)]
    return P + NOP + DROP + "x $p |- T $= ( axt nop drop ) " + folded(proof) + " $.\n", None


@kind("labels in the brackets of a proof", 50_000, 100_000, 200_000)
def proof_labels(n):
    text = "".join(f"n{k} $a wff T{k} $.\n" for k in range(n))
    return P + "$c " + " ".join(f"T{k}" for k in range(n)) + " $.\n" + text + "x $p |- ( ph -> ph ) $= ( id " + folded(f"n{k}" for k in range(n)) + " ) AB $.\n", None


@kind("doublings of a formula by marks", 20, 22, 24)
def proof_doublings(n):
    proof = "AZ" + "".join(letters(4 + k) + "BZ" for k in range(n)) + "C"
    return P + "x $p |- ( ph -> ph ) $= ( wi id ) " + proof + " $.\n", None


@kind("`$d` of two symbols that are active at a theorem", 20_000, 40_000, 80_000)
def proof_pairs(n):
    names = [f"v{k}" for k in range(n)]
    return P + "$v " + " ".join(names) + " $.\n" + "".join(f"f{v} $f wff {v} $.\n" for v in names) + "".join(f"$d v{k} v{k + 1} $.\n" for k in range(n - 1)) + X, None


@kind("theorems before the one that is checked", 50_000, 100_000, 200_000)
def proof_theorems(n):
    return P + "".join(f"t{k} $p |- ( ph -> ph ) $= wph id $.\n" for k in range(n)) + X, SMALL


# ---- worksheets

@kind("bytes of steps with references", 1 << 22, 1 << 23, (1 << 24) - 200)
def sheet_steps(n):
    return P, sheet(f"s{k:06}::ax-1 {AX1}" for k in range(n // 40 - 2))


@kind("bytes of steps without formula", 1 << 20, 1 << 21, 1 << 22)
def sheet_blank(n):
    return P, sheet(f"s{k:06}::ax-1" for k in range(n // 14 - 5))


@kind("bytes of steps with unknown references", 1 << 22, 1 << 23, (1 << 24) - 200)
def sheet_unknown(n):
    return P, sheet(f"s{k:06}::nope {AX1}" for k in range(n // 40 - 2))


@kind("bytes of comments of one line", 1 << 22, 1 << 23, (1 << 24) - 200)
def sheet_comments(n):
    return P, sheet(["* a b c"] * (n // 8 - 20))


@kind("bytes of one comment of many lines", 1 << 22, 1 << 23, (1 << 24) - 200)
def sheet_comment(n):
    return P, sheet(["*"] + [" a b c"] * (n // 7 - 20))


@kind("bytes of one line of a comment", 1 << 22, 1 << 23, (1 << 24) - 200)
def sheet_comment_line(n):
    return P, sheet(["* " + "ab " * (n // 3 - 60)])


@kind("bytes of one formula", 1 << 22, 1 << 23, (1 << 24) - 200)
def sheet_formula(n):
    return P, sheet(["1:: |- " + "-. " * (n // 3 - 60) + "ph"])


@kind("bytes of empty lines", 1 << 22, 1 << 23, (1 << 24) - 200)
def sheet_empty_lines(n):
    return P, sheet(["\n" * (n - 200)])


@kind("bytes of blanks at the ends of lines", 1 << 22, 1 << 23, (1 << 24) - 200)
def sheet_blanks(n):
    return P, sheet(["* a" + " " * 1000] * (n // 1004 - 2))


@kind("bytes of a proof that is passed over", 1 << 22, 1 << 23, (1 << 24) - 200)
def sheet_proof(n):
    return P, sheet(["$= " + "ab\n" * (n // 3 - 60) + "$."])


@kind("empty proofs that are passed over", 250_000, 500_000, 1_000_000)
def sheet_proofs(n):
    return P, sheet(["$= $."] * n)


@kind("steps that each name all before", 500, 1_000, 2_000)
def places_all(n):
    names = [f"s{k}" for k in range(n)]
    return P, sheet(f"{names[k]}:{','.join(names[:k])}: |- ph" for k in range(n))


@kind("steps that each name the one before, by modus ponens", 5_000, 10_000, 20_000)
def places_chain(n):
    lines = ["h0::zz.1 |- ph", "a::id |- ( ph -> ph )"] + [f"{k}:{k - 1},a:ax-mp |- ph" for k in range(1, n)]
    return P, sheet(lines, f"qed:{n - 1},a:ax-mp |- ph")


@kind("places of one step, all `?`", 250_000, 500_000, 1_000_000)
def places_open(n):
    return P, sheet(["1:" + ",".join("?" * n) + ": |- ph"])


@kind("places of one step that fits", 2_500, 5_000, 10_000)
def places_fit(n):
    database = P + "${\n" + "".join(f"e{k} $e |- ph $.\n" for k in range(n)) + "y $a |- ph $.\n$}\n"
    return database, sheet([f"h{k}::zz.{k} |- ph" for k in range(n)], "qed:" + ",".join(str(k) for k in range(n)) + ":y |- ph")


@kind("places that are missing of one step", 2_500, 5_000, 10_000)
def places_missing(n):
    database = P + "${\n" + "".join(f"e{k} $e |- ph $.\n" for k in range(n)) + "y $a |- ph $.\n$}\n"
    return database, sheet(["1::y |- ps"])


@kind("steps whose two places are missing", 2_500, 5_000, 10_000)
def places_derived(n):
    return P, sheet(f"s{k}::ax-mp |- ( ph -> ps )" for k in range(n))


@kind("hypotheses of the theorem", 10_000, 20_000, 40_000)
def sheet_hypotheses(n):
    return P, sheet(f"h{k}::zz.{k} |- ph" for k in range(n))


@kind("work variables, a new one each step", 20_000, 40_000, 80_000)
def work_apart(n):
    return P, sheet(f"{k}::id |- ( &W{k + 1} -> &W{k + 1} )" for k in range(n))


@kind("work variables, each bound to the next", 5_000, 10_000, 20_000)
def work_chain(n):
    return P, sheet(f"{k}::id |- ( &W{k + 1} -> &W{k + 2} )" for k in range(n))


@kind("work variables, each bound to the one before, from the last on", 5_000, 10_000, 20_000)
def work_chain_back(n):
    return P, sheet(f"{k}::id |- ( &W{k + 2} -> &W{k + 1} )" for k in reversed(range(n)))


@kind("work variables, all bound to the first", 5_000, 10_000, 20_000)
def work_star(n):
    return P, sheet(f"{k}::id |- ( &W1 -> &W{k + 2} )" for k in range(n))


@kind("work variables, bound in pairs, then pairs in pairs", 4_096, 8_192, 16_384)
def work_pairs(n):
    lines, width = [], 1
    while width < n:
        lines += [f"s{width}.{k}::id |- ( &W{k + 1} -> &W{k + width + 1} )" for k in range(0, n - width, 2 * width)]
        width *= 2
    return P, sheet(lines)


@kind("work variables that are named from the last on", 20_000, 40_000, 80_000)
def work_names(n):
    return P, sheet([f"{k}:: |- ( &W{n - k} -> &W{k + 1} )" for k in range(n)] + [f"b{k}::ax-1" for k in range(n)])


@kind("symbols of the database that are spelled as work variables", 20_000, 40_000, 80_000)
def work_symbols(n):
    return P + "$c " + " ".join(f"&W{k + 1}" for k in range(n)) + " $.\n", sheet(f"b{k}::ax-1" for k in range(1_000))


@kind("steps without formula, each over the one before, with one work variable", 1_000, 2_000, 4_000)
def work_long_chain(n):
    return P + DUP, sheet(["0:: |- &W1"] + [f"{k}:{k - 1}:dup" for k in range(1, n)])


WRAP = "${ wrap.1 $e |- ph $. wrap $a |- -. ph $. $}\n"


@kind("steps without formula, each longer than the one before", 2_000, 4_000, 8_000)
def work_deep(n):
    return P + WRAP, sheet(["0:: |- &W1"] + [f"{k}:{k - 1}:wrap" for k in range(1, n)])


@kind("steps without formula, each longer than the one after", 2_000, 4_000, 8_000)
def work_deep_back(n):
    unwrap = "${ unwrap.1 $e |- -. ph $. unwrap $a |- ph $. $}\n"
    return P + unwrap, sheet(["0:: |- &W1"] + [f"{k}:{k - 1}:unwrap" for k in range(1, n)])


@kind("steps, each with a `$d` line", 20_000, 40_000, 80_000)
def sheet_distinct_lines(n):
    return P, sheet(line for k in range(n) for line in (f"{k}::ax-1 {AX1}", "$d ph ps"))


@kind("symbols of one `$d` line", 500, 1_000, 2_000)
def sheet_distinct_one(n):
    names = [f"v{k}" for k in range(n)]
    return P + "$v " + " ".join(names) + " $.\n" + "".join(f"f{v} $f wff {v} $.\n" for v in names), sheet(["$d " + " ".join(names)])


@kind("steps of 500 tokens that need 10,000 pairs", 50, 100, 200)
def sheet_pairs(n):
    names = [f"v{k}" for k in range(200)]
    database = P + "$v " + " ".join(names) + " $.\n" + "".join(f"f{v} $f wff {v} $.\n" for v in names) + "${ $d ph ps $. y $a |- ( ph -> ps ) $. $}\n"
    def side(part):
        formula = part[0]
        for name in part[1:]:
            formula = f"( {formula} -> {name} )"
        return formula
    return database, sheet(f"{k}::y |- ( {side(names[:100])} -> {side(names[100:])} )" for k in range(n))


@kind("steps without a reference, over a small database", 5_000, 10_000, 20_000)
def search_small(n):
    return P, sheet(f"{k}:: |- ( ( ph -> ps ) -> ( ( ps -> ch ) -> ( ph -> ps ) ) )" for k in range(n))


@kind("steps without a reference that nothing fits, and as many assertions", 500, 1_000, 2_000)
def search_square(n):
    database = P + "".join(f"y{k} $a |- ( -. ph -> -. ( ph -> {'-. ' * (k % 50)} ps ) ) $.\n" for k in range(n))
    return database, sheet(f"{k}:: |- ( -. ph -> -. ( ps -> -. ps ) )" for k in range(n))


@kind("steps of six places without a reference, over an assertion that fits in none of 720 orders", 500, 1_000, 2_000)
def search_orders(n):
    names = [f"v{k}" for k in range(5)]
    text = "$v " + " ".join(names) + " $.\n" + "".join(f"f{v} $f wff {v} $.\n" for v in names)
    hyps = "".join(f"e{v} $e |- {v} $.\n" for v in names) + "e5 $e |- ( ph -> ph ) $.\n"
    lines = [f"h{k}::zz.{k} |- {'-. ' * k} ch" for k in range(6)]
    return P + text + "${\n" + hyps + "y $a |- -. ph $.\n$}\n", sheet(lines + [f"s{k}:5,4,3,2,1,0: |- -. ph" for k in range(n)])


@kind("steps without a reference, over set.mm", 1_250, 2_500, 5_000)
def search_set(n):
    if not os.path.exists(SET):
        return None
    parts = ["x e. A", "A = B", "( ph /\\ ps )", "A. x ph", "( A u. B ) C_ C", "-. ph"]
    steps = []
    for k in range(n):
        a, b, c = parts[k % 6], parts[k // 6 % 6], parts[k // 36 % 6]
        steps.append(f"{k}:: |- ( ( {a} -> {b} ) -> ( ( {b} -> {c} ) -> ( {a} -> {c} ) ) )")
    return SET, sheet(steps)


# ---- running

def limited(seconds, megabytes):
    def set_limits():
        resource.setrlimit(resource.RLIMIT_CPU, (seconds, seconds + 1))
        resource.setrlimit(resource.RLIMIT_AS, (megabytes << 20, megabytes << 20))
        resource.setrlimit(resource.RLIMIT_CORE, (0, 0))
        resource.setrlimit(resource.RLIMIT_STACK, (8 << 20, 8 << 20))
    return set_limits


def run(words, folder, seconds, megabytes):
    """Processor seconds, greatest memory in MB, the status or what ended it, and the first line that was told."""
    with open(f"{folder}/out", "wb") as out, open(f"{folder}/log", "wb") as log:
        started = subprocess.Popen(words, stdout=out, stderr=log, preexec_fn=limited(seconds, megabytes))
        _, status, usage = os.wait4(started.pid, 0)
        started.returncode = 0
    code = os.waitstatus_to_exitcode(status)
    told = open(f"{folder}/log", "rb").readline(200) or open(f"{folder}/out", "rb").readline(200)
    return usage.ru_utime + usage.ru_stime, usage.ru_maxrss / 1024, "over" if code in (-24, -9) else str(code), told.decode().strip()


def write_files(make, n, folder):
    """Writes the files of a kind at a size."""
    made = make(n)
    if made is None:
        return
    database, text = made
    if database != SET:
        open(f"{folder}/d.mm", "w").write(database)
        if re.search(r"^x \$p", database, re.M):
            open(f"{folder}/x", "w").close()
    if text is not None:
        open(f"{folder}/s.mmp", "w").write(text)


def words_for(program, make, n, folder):
    """The commands of a kind at a size: (name, words)."""
    for name in os.listdir(folder):
        os.remove(f"{folder}/{name}")
    # in a process of its own: what is started from a large one counts the memory of that one
    maker = os.fork()
    if maker == 0:
        ended = 1
        try:
            write_files(make, n, folder)
            ended = 0
        finally:
            os._exit(ended)
    if os.waitpid(maker, 0)[1]:
        sys.exit(f"{make.__name__}: its files could not be made")
    path, text = f"{folder}/d.mm", f"{folder}/s.mmp"
    commands = []
    if os.path.exists(f"{folder}/x"):
        commands.append(("verify", [program, "verify", path, "x"]))
    if os.path.exists(text):
        commands.append(("unify", [program, "unify", path if os.path.exists(path) else SET, text]))
    return commands


def measured(options, name, what, sizes, make, folder):
    before, stopped = {}, set()
    for n in sizes:
        n *= options.scale
        for command, words in words_for(options.program, make, n, folder):
            if command in stopped:
                continue
            seconds, memory, status, told = run(words, folder, options.seconds, options.memory)
            ratio = f"{seconds / before[command]:.1f}" if command in before else ""
            before[command] = max(seconds, 0.01)
            if status == "over":
                stopped.add(command)
            told = told if len(told) <= 60 else told[:57] + "..."
            if options.table:
                print(f"| {name}, {what} | {command} | {n} | {seconds:.2f} | {ratio} | {memory:.0f} | {status} {told} |", flush=True)
            else:
                print(f"{name}: {command}, {n} {what}: {seconds:.2f} s, {ratio or '-'}, {memory:.0f} MB, {status} {told}", flush=True)


def trials(options, folder):
    before = None
    for n in (250, 500, 1000):
        seconds, memory, status, told = run([options.program, "trial", str(n)], folder, options.seconds, options.memory)
        ratio = f"{seconds / before:.1f}" if before else ""
        before = max(seconds, 0.01)
        if options.table:
            print(f"| trial, blocks | trial | {n} | {seconds:.2f} | {ratio} | {memory:.0f} | {status} {told} |", flush=True)
        else:
            print(f"trial: {n} blocks: {seconds:.2f} s, {ratio or '-'}, {memory:.0f} MB, {status} {told}", flush=True)


def main():
    words = argparse.ArgumentParser()
    words.add_argument("program", type=os.path.abspath)
    words.add_argument("only", nargs="*")
    words.add_argument("--seconds", type=int, default=60)
    words.add_argument("--memory", type=int, default=6000)
    words.add_argument("--scale", type=int, default=1)
    words.add_argument("--table", action="store_true")
    options = words.parse_args()
    folder = tempfile.mkdtemp()
    try:
        for name, what, sizes, make in KINDS:
            if not options.only or any(word in name for word in options.only):
                measured(options, name, what, sizes, make, folder)
        if not options.only or "trial" in options.only:
            trials(options, folder)
    finally:
        shutil.rmtree(folder)


main()
