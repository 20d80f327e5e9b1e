#!/usr/bin/env python3
"""Writes docs/CRATES.md, the catalogue of the crates: of each what it is, from the first lines of its code, what it gives, and which
crates of the repository it uses, from crates.txt.

    python3 docs/crates.py

It stops where a crate stands in no layer or in two, uses one that stands behind it, or has no first lines.
"""
import os
import re
import sys

HERE = os.path.dirname(os.path.abspath(__file__))
TOP = os.path.join(HERE, "..")

# The layers, lowest first, with their crates in reading order.
LAYERS = [
    ("Base", ["mm_base"]),
    ("Definitions", ["mm_model", "sheet_text", "proof_model", "solve_model", "fault_lines", "trial_texts", "written_model",
                     "export_model", "install_model", "select_model", "auto_model"]),
    ("Laws of the definitions", ["model_laws", "theorem_laws", "proof_laws", "solve_laws", "sheet_laws", "install_laws"]),
    ("The answer of a call", ["call_answers"]),
    ("Readers of databases", ["mm_tokens", "names", "number_set", "frame_lists", "mm_frames"]),
    ("Proofs of a database", ["compressed_proof", "stack_verify", "db_install"]),
    ("Formulas", ["syntax_grammar", "formula_parse", "mm_database"]),
    ("Text of worksheets", ["sheet_read", "sheet_print"]),
    ("Small calls under the worksheet", ["work_vars", "pair_set", "distinct_vars", "hyp_order", "hyp_derive"]),
    ("Binding and searching", ["sheet_bind", "ref_search", "auto_fill"]),
    ("The store of shared terms", ["undo_trail", "term_model", "term_arena", "term_unify"]),
    ("Laws of the answer", ["again_laws", "answer_laws", "push_laws", "writing_laws", "chain_laws", "whole_laws", "select_laws",
                            "auto_laws", "auto_answer_laws", "fitting_laws", "export_laws", "headline_laws", "installed_laws",
                            "kept_laws"]),
    ("Judging", ["step_chain"]),
    ("From judged steps to a written worksheet", ["written_steps", "step_filling", "leaf_names", "step_naming", "step_searching",
                                                  "step_report", "sheet_writing", "proof_tree", "sheet_proof", "phase_laws",
                                                  "filling_laws"]),
    ("The program", ["proof_export", "sheet_unify", "sheet_theorem", "ref_select", "sheet_filling", "sheet_gen", "mmp_run", "mmp"]),
    ("The editor session", ["edit_model", "edit_laws", "edit_requests", "edit_replies", "edit_unify", "edit_source"]),
    ("Tests", ["database_tests", "sheet_tests", "step_tests", "mmp_tests", "failure_tests", "install_tests", "edit_tests"]),
]

HEAD = """# Crates

The crates of the repository by layers, lowest first. Of each stands what it is; behind "Gives" the public types and functions, and
behind "Uses" the crates of the repository and of the kit that it is built on. How a crate works, and why so, stands in
[ARCHITECTURE.md](ARCHITECTURE.md).

This file is written by `docs/crates.py` from the first lines of each crate and from `crates.txt`.
"""


def uses():
    """The libraries that each crate uses, by `crates.txt`."""
    found = {}
    for line in open(os.path.join(TOP, "crates.txt"), encoding="utf-8"):
        name, colon, libraries = line.split("#")[0].partition(":")
        if colon:
            found[name.split()[0]] = libraries.split()
    return found


def root(crate):
    """The text of a crate's root file."""
    folder = os.path.join(TOP, "crates", crate, "src")
    for name in ("lib.rt", "main.rt"):
        path = os.path.join(folder, name)
        if os.path.exists(path):
            return open(path, encoding="utf-8").read()
    sys.exit(f"{crate}: no root file")


def header(crate, text):
    """What a crate says of itself."""
    lines = [line[3:].strip() for line in text.split("\n") if line.startswith("//!")]
    if not lines:
        sys.exit(f"{crate}: no first lines")
    return " ".join(lines)


def gives(text):
    """The public names of a root file: its own functions and types, and those that it hands on."""
    found = re.findall(r"^pub (?:fn|struct|enum|trait|const) (\w+)", text, re.MULTILINE)
    for listed in re.findall(r"^pub use ([^;]+);", text, re.MULTILINE):
        found.extend(name for name in re.findall(r"\w+", listed.split("::", 1)[1]))
    return sorted(set(found), key=str.lower)


def check(known):
    """Each crate stands in one layer, and behind all that it uses."""
    listed = [crate for _, crates in LAYERS for crate in crates]
    wrong = sorted(set(known) ^ set(listed)) + sorted(crate for crate in set(listed) if listed.count(crate) > 1)
    if wrong:
        sys.exit("in no layer, in two, or not in crates.txt: " + " ".join(wrong))
    for place, crate in enumerate(listed):
        later = [used for used in known[crate] if used in listed[place:]]
        if later:
            sys.exit(f"{crate} uses what stands behind it: " + " ".join(later))


def main():
    known = uses()
    check(known)
    out = [HEAD]
    for layer, crates in LAYERS:
        out.append(f"## {layer}\n")
        for crate in crates:
            text = root(crate)
            out.append(f"- **{crate}**: {header(crate, text)}")
            names = gives(text)
            if names:
                out.append("  - Gives: " + ", ".join(f"`{name}`" for name in names))
            if known[crate]:
                out.append("  - Uses: " + ", ".join(known[crate]))
        out.append("")
    with open(os.path.join(HERE, "CRATES.md"), "w", encoding="utf-8") as file:
        file.write("\n".join(out).rstrip() + "\n")


main()
