#!/usr/bin/env python3
"""Runs the program on the examples, and writes README.md beside them with each worksheet, the command and the answer, and the files
that are answers themselves.

    examples/answers.py PROGRAM [SET_MM]     PROGRAM: the built mmp, as crates/mmp/out/mmp; SET_MM: the database set.mm, else that of
                                             Debian's package metamath-databases

It stops where a call ends with another status than the one that is listed for it.
"""
import os
import subprocess
import sys

HERE = os.path.dirname(os.path.abspath(__file__))
SET = "/usr/share/metamath/databases/set.mm"
# Stands for the worksheet where words follow it; else it is the last word.
SHEET = "SHEET"

PARTS = [
    ("Propositional logic: P.mm", "Implication and negation, two axioms and modus ponens.", [
        ("modus_ponens.mmp", ["unify", "--proof=normal", "P.mm"], 0, "A worksheet that fits. The proof lists its labels."),
        ("modus_ponens.mmp", ["unify", "P.mm"], 0, "The same with a compressed proof."),
        ("no_fit.mmp", ["unify", "P.mm"], 1, "A conclusion that does not follow. The step is set aside."),
        ("identity_finished.mmp", ["unify", "P.mm"], 0, "Formulas that are left out."),
        ("identity_unfinished.mmp", ["unify", "P.mm"], 1, "A formula that nothing determines."),
        ("missing_step_finished.mmp", ["unify", "P.mm"], 0, "A hypothesis that is left out, and is found."),
        ("missing_step_unfinished.mmp", ["unify", "P.mm"], 1, "Hypotheses that are left out, and are to be proved."),
        ("other_order_finished.mmp", ["unify", "P.mm"], 0, "Hypotheses in another order."),
        ("set_aside_unfinished.mmp", ["unify", "P.mm"], 1, "A step that cannot fit, between others that do."),
        ("work_variables_unfinished.mmp", ["unify", "P.mm"], 1, "Work variables that are one."),
        ("after_a_label_finished.mmp", ["unify", "P.mm"], 0, "A theorem at a place within the database."),
        ("after_a_label_unfinished.mmp", ["unify", "P.mm"], 1, "A reference behind that place."),
    ]),
    ("Sets and classes: Q.mm and Q2.mm", "P.mm with sets and classes, and with assertions that have hypotheses and distinct variables. Q2.mm "
     "has a second way to write an equation of sets.", [
         ("searched_finished.mmp", ["unify", "Q.mm"], 0, "A step without a reference."),
         ("searched_unfinished.mmp", ["unify", "Q.mm"], 1, "A step that no assertion gives."),
         ("distinct_finished.mmp", ["unify", "Q.mm"], 0, "Distinct variables are written as `$d`."),
         ("distinct_finished.mmp", ["unify", "--dv=given", "Q.mm"], 1, "The same where only given pairs are allowed."),
         ("distinct_unfinished.mmp", ["unify", "Q.mm"], 1, "A clash."),
         ("mmj2_style_finished.mmp", ["unify", "Q.mm"], 0, "Indented formulas, a formula over two lines, and an old proof that is passed over."),
         ("mmj2_style_unfinished.mmp", ["unify", "Q.mm"], 1, "The same in the middle of the work."),
         ("two_trees_refused.mmp", ["unify", "Q2.mm"], 3, "A formula that can be read in two ways."),
     ]),
    ("The first example of the Metamath book: demo0.mm", "", [
        ("book_finished.mmp", ["unify", "demo0.mm"], 0, "A theorem that the database has, with formulas left out."),
        ("book_refused.mmp", ["unify", "demo0.mm"], 3, "Another formula than the theorem's."),
    ]),
    ("set.mm", "The database of Debian's package `metamath-databases`.", [
        ("set_three_plus_two_unfinished.mmp", ["unify", SET], 1, "A draft: two definitions and two hypotheses are found, one is missing."),
        ("set_three_plus_two_finished.mmp", ["unify", SET], 0, "The draft, gone on with."),
        ("set_equality_finished.mmp", ["unify", SET], 0, "A formula and a reference that are left out."),
        ("set_equality_unfinished.mmp", ["unify", SET], 1, "A hypothesis that is missing."),
        ("set_distinct_finished.mmp", ["unify", SET], 0, "Distinct variables."),
        ("set_distinct_unfinished.mmp", ["unify", SET], 1, "A clash."),
        ("set_existing_finished.mmp", ["unify", SET], 0, "A theorem that is there, proved anew."),
        ("set_existing_unfinished.mmp", ["unify", SET], 1, "A theorem that stands too late."),
    ]),
    ("Proofs that are checked: V.mm", "P.mm with three theorems.", [
        (None, ["verify", "V.mm", "good"], 0, "A proof that is accepted."),
        (None, ["verify", "V.mm", "bad"], 8, "A proof whose code has a fault."),
        (None, ["verify", "V.mm", "wrong"], 8, "A proof of another formula."),
        (None, ["verify", "V.mm", "ax-1"], 8, "An axiom has no proof."),
        (None, ["verify", SET, "2p2e4"], 0, "Over set.mm."),
    ]),
    ("Proofs as worksheets", "", [
        (None, ["export", "demo0.mm", "th1"], 0, "The first example of the Metamath book. The answer is `book_exported.mmp`."),
        ("book_exported.mmp", ["unify", "demo0.mm"], 0, "That worksheet is written again as it is."),
        (None, ["export", "--proof=normal", "V.mm", "good"], 0, "One use of an axiom."),
        (None, ["export", "V.mm", "bad"], 8, "A proof that is refused."),
        (None, ["export", SET, "idi"], 8, "A theorem that no assertion gives: it is its own hypothesis."),
        (None, ["export", SET, "3p2e5"], 0, "Over set.mm."),
    ]),
    ("Theorems put into a database", "", [
        ("modus_ponens.mmp", ["install", "P.mm"], 0, "Two hypotheses, at the end of the database. The answer is `P_with_r.mm`."),
        (None, ["verify", "P_with_r.mm", "r"], 0, "In it the proof is accepted."),
        ("after_a_label_finished.mmp", ["install", "P.mm"], 0, "Within the database."),
        ("missing_step_finished.mmp", ["install", "P.mm"], 0, "A step and a reference that are found."),
        ("distinct_finished.mmp", ["install", "Q.mm"], 0, "Distinct variables."),
        ("no_fit.mmp", ["install", "P.mm"], 1, "A worksheet that is not finished."),
        ("book_finished.mmp", ["install", "demo0.mm"], 3, "A theorem that the database has."),
    ]),
    ("Labels that fit a step", "", [
        ("searched_finished.mmp", ["select", "Q.mm", SHEET, "qed"], 0, "An axiom and its copy."),
        ("distinct_finished.mmp", ["select", "Q.mm", SHEET, "1"], 0, "An assertion that needs a pair of distinct variables."),
        ("distinct_finished.mmp", ["select", "--dv=given", "Q.mm", SHEET, "1"], 0, "The same where only given pairs are allowed: nothing fits."),
        ("identity_unfinished.mmp", ["select", "P.mm", SHEET, "qed"], 3, "A step whose places have work variables."),
    ]),
    ("Steps that are filled", "", [
        ("formulas_alone_unfinished.mmp", ["auto", "Q.mm"], 0, "Formulas without references and hypotheses: each step gets its own."),
        ("set_aside_unfinished.mmp", ["auto", "P.mm"], 1, "Steps that nothing serves, or that have a reference, stay as they are."),
    ]),
    ("The program by itself", "", [
        (None, ["trial", "3"], 0, "A worksheet of three blocks."),
        (None, ["unify", "P.mm"], 4, "Words that fit no command."),
        (None, ["unify", "P.mm", "nothing.mmp"], 5, "A file that is not there."),
    ]),
]

# The files here that are answers, each with its command.
ANSWERS = [
    ("book_exported.mmp", ["export", "demo0.mm", "th1"]),
    ("P_with_r.mm", ["install", "P.mm", "modus_ponens.mmp"]),
]

HEAD = """# Examples

Small databases and worksheets to try. A file is named by what it shows and how it ends; `modus_ponens.mmp` is finished, and `no_fit.mmp`
is not. Below stands each worksheet, the command, given in this folder, and what came of it.

This file is written by `examples/answers.py` from runs of the program.
"""


def block(text):
    return ["```", *text.rstrip("\n").split("\n"), "```", ""]


def shown(program, sheet, words, status, about, database):
    """One example: the worksheet, the command, and the answer."""
    if sheet and SHEET not in words:
        words = words + [SHEET]
    words = [{SET: database, SHEET: sheet}.get(word, word) for word in words]
    done = subprocess.run([program] + words, cwd=HERE, stdout=subprocess.PIPE, stderr=subprocess.PIPE)
    if done.returncode != status:
        sys.exit(f"{' '.join(words)}: status {done.returncode}, and not {status}: {done.stderr.decode()}")
    out = [f"### {sheet or ' '.join(words)}", "", about, ""]
    if sheet:
        out += block(open(os.path.join(HERE, sheet), encoding="utf-8").read())
    out += block("$ mmp " + " ".join(words) + "\n" + done.stdout.decode())
    if not done.stderr:
        return out + [f"Status {status}, and nothing on standard error.", ""]
    return out + [f"Status {status}. Standard error:", ""] + block(done.stderr.decode())


def main():
    program = os.path.abspath(sys.argv[1])
    database = sys.argv[2] if len(sys.argv) > 2 else SET
    for name, words in ANSWERS:
        with open(os.path.join(HERE, name), "wb") as file:
            subprocess.run([program] + words, cwd=HERE, stdout=file, stderr=subprocess.DEVNULL, check=True)
    out = [HEAD]
    for title, about, examples in PARTS:
        out += [f"## {title}", ""] + ([about, ""] if about else [])
        for sheet, words, status, said in examples:
            out += shown(program, sheet, words, status, said, database)
    with open(os.path.join(HERE, "README.md"), "w", encoding="utf-8") as file:
        file.write("\n".join(out).rstrip() + "\n")


main()
