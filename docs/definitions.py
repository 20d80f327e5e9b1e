#!/usr/bin/env python3
"""Writes DEFINITIONS.md, beside this file, from the comments of the definition crates."""
import os
import re

HERE = os.path.dirname(os.path.abspath(__file__))
CRATES = os.path.join(HERE, "..", "crates")

# Each crate with what it is about, its files in reading order with what each states, and where that comes from.
ORDER = [
    ("mm_base", "What every other definition speaks of: trees, files, faults of devices.", [
        ("Trees", "trees in general", ""),
        ("SameTrees", "two typecodes, or two trees, are equal", ""),
        ("Limits", "the sizes past which an input or an output is refused, and up to which places are tried in all orders", "FORMAT, Limits"),
        ("Pairs", "pairs of distinct variables", "book 4.2.4"),
        ("Outside", "what a store and a sink tell, and the causes of their faults", ""),
        ("Files", "files as a list of names and bytes", ""),
        ("MemStore", "what a store in memory tells", ""),
        ("MemSink", "what a sink in memory tells", ""),
    ]),
    ("mm_model", "The database language.", [
        ("Words", "words of a text", "book 4.1.1; FORMAT, Databases"),
        ("Faults", "which of several faults is the first", "FORMAT, Faults of a database"),
        ("Labels", "labels", "book 4.1.1"),
        ("Names", "names and numbers of symbols and labels", ""),
        ("Tokens", "tokens, comments, and the faults 1 to 4", "book 4.1.1, 4.1.2; FORMAT, Faults of a database"),
        ("Statements", "statements, scopes, and the faults 10 to 30", "book 4.1.3, 4.2; FORMAT, Faults of a database"),
        ("Frames", "what is active at a place, frames, the place behind an assertion", "book 4.2.7, 4.2.8; FORMAT, Databases"),
        ("Rows", "what is asked of productions", ""),
        ("Chains", "chains of productions, and which productions are kept", "FORMAT, Databases"),
        ("Productions", "the productions of a database", "FORMAT, Databases"),
        ("Texts", "the text of a tree", "FORMAT, What a formula says"),
        ("Typed", "typed trees, and the trees of an expression", "FORMAT, What a formula says"),
        ("Sizes", "the nodes of a tree", "FORMAT, Faults of a worksheet"),
        ("Substitution", "substitution on trees and on texts", "book 4.1.4"),
        ("Book", "a database as worksheets see it, and its usable assertions", "FORMAT, Databases"),
        ("BookFacts", "facts of a database without a fault", ""),
    ]),
    ("sheet_text", "The worksheet language.", [
        ("Lines", "lines", "FORMAT, Worksheets"),
        ("SheetStatements", "statements", "FORMAT, Worksheets"),
        ("Forms", "headers and steps", "FORMAT, Worksheets"),
        ("TextFaults", "the faults 40 to 50", "FORMAT, Faults of a worksheet"),
        ("Reads", "what a text says", "FORMAT, Worksheets"),
        ("Layout", "the text of a worksheet", "FORMAT, The written worksheet"),
        ("Spellable", "the worksheets that a text can spell", ""),
    ]),
    ("fault_lines", "How faults are told.", [
        ("Refusals", "the refusals of a worksheet", "FORMAT, Faults of a worksheet"),
        ("FaultLines", "the lines of faults", "FORMAT, Report and log lines"),
        ("NamedFaults", "a fault as the program tells it", ""),
    ]),
    ("trial_texts", "The texts of the trial of the program by itself.", [
        ("TrialTexts", "a database, and a worksheet of any number of blocks", "FORMAT, The trial"),
    ]),
    ("proof_model", "Proofs.", [
        ("Proofs", "proofs as trees of labels", "book 4.3"),
        ("Machine", "the stack machine and its faults", "book 4.1.4; FORMAT, The stack machine"),
        ("Codes", "the steps of a normal and of a compressed proof", "book appendix B; FORMAT, How a worksheet is unified"),
        ("ProofCode", "compressed proofs as texts, and the faults of such a text", "book appendix B; FORMAT, The proof code"),
        ("DatabaseProofs", "the theorems of a database and their proofs", "book 4.3; FORMAT, The proof code"),
        ("Arities", "proofs whose labels have as many subproofs as they take", ""),
    ]),
    ("solve_model", "What a worksheet asks of its formulas.", [
        ("Firsts", "the first of several", ""),
        ("Trees", "leaves of trees: replaced, listed", ""),
        ("Formulas", "what a token says, and the trees of a formula", "FORMAT, What a formula says"),
        ("PairSets", "sets of pairs", ""),
        ("Binding", "the place and the theorem of a worksheet", "FORMAT, The place of a theorem"),
        ("BindFaults", "the faults 60 to 73", "FORMAT, Faults of a worksheet"),
        ("Bound", "a worksheet with its trees; verdicts that need no solution; the work size", "FORMAT, How a worksheet is unified"),
        ("Solutions", "unknowns, valuations, and what a valuation solves", "FORMAT, How a worksheet is unified"),
        ("Verdicts", "which steps are accepted", "FORMAT, How a worksheet is unified"),
        ("MostGeneral", "the most general valuation", "FORMAT, How a worksheet is unified"),
    ]),
    ("written_model", "The written worksheet.", [
        ("WrittenSteps", "written steps", ""),
        ("Filled", "missing places, and the steps that fill them", "FORMAT, How a worksheet is unified"),
        ("Named", "names of new work variables", "FORMAT, How a worksheet is unified"),
        ("Pairs", "needed pairs and clashes", "book 4.1.4; FORMAT, How a worksheet is unified"),
        ("Found", "the reference that a search finds", "FORMAT, How a worksheet is unified"),
        ("Fitting", "all assertions that fit a step", ""),
        ("ProofTrees", "when a worksheet is finished, and the proof of a step", "FORMAT, How a worksheet is unified"),
        ("Report", "the report", "FORMAT, Report and log lines"),
        ("Written", "what a worksheet becomes, its last faults, and the answer to it", "FORMAT, The written worksheet; Faults of a worksheet"),
        ("ProvesItself", "what a written text says of itself", ""),
        ("Opened", "the databases that laws speak of", ""),
        ("Again", "what a written worksheet becomes when it is unified again", ""),
        ("ReadBack", "laws: what a text without a fault reads as, and that a laid out worksheet reads back", ""),
        ("ProofsPush", "laws: what a proof leaves on the stack", ""),
        ("Existence", "laws: a most general valuation exists, and each worksheet has an answer", ""),
        ("WrittenAgain", "laws: written again as itself, and the answer is one", ""),
    ]),
    ("export_model", "Proofs of a database as worksheets.", [
        ("Exported", "the worksheet of an accepted proof", "FORMAT, Proofs as worksheets"),
    ]),
    ("install_model", "A worksheet's theorem put into the text of a database.", [
        ("Installed", "where a theorem goes, and the text with it", "FORMAT, Theorems put into a database"),
        ("Moved", "the statements of the block, and how labels and frames move", ""),
        ("InstallAnswers", "the answer to a worksheet whose theorem is to be put in", "FORMAT, Theorems put into a database"),
    ]),
    ("select_model", "The assertions that a step of a written worksheet fits.", [
        ("Selected", "the answer to a worksheet of which one step is asked about", "FORMAT, The labels that fit a step"),
    ]),
    ("auto_model", "Steps that are filled with the first assertion that serves.", [
        ("AutoFilled", "the worksheet with its steps filled", "FORMAT, Steps that are filled"),
    ]),
    ("install_laws", "Laws of a theorem that is put into a text. Of its definitions the answer of a call takes the labels that a proof names.", [
        ("TwoDatabases", "labels that a proof names; laws of the stack machine over two databases", ""),
    ]),
    ("call_answers", "What a call of the program answers.", [
        ("CommandLine", "the words of the command line", "FORMAT, Command words"),
        ("Verified", "what `verify` says of a label", "FORMAT, The proof code, The stack machine"),
        ("Endings", "what an answer has for the output and for the log, and its status", "FORMAT, Statuses"),
        ("Trial", "the trial of the program by itself", "FORMAT, The trial"),
        ("Exportable", "which proofs become finished worksheets", "PROVED, What it means for a worksheet"),
        ("Finishes", "what becomes of a worksheet that is finished as it stands, but for its size", ""),
        ("Exports", "what `export` answers to an accepted proof", "FORMAT, Proofs as worksheets"),
        ("Kept", "what a text with a theorem in it keeps of the text", "PROVED, What it means for a worksheet"),
        ("PutsIn", "what `install` answers to a worksheet", "FORMAT, Theorems put into a database"),
        ("Asks", "what `select` answers to a step of a worksheet", "FORMAT, The labels that fit a step"),
        ("Fills", "what `auto` answers to a worksheet", "FORMAT, Steps that are filled"),
        ("CallAnswers", "the answer by cases: the main theorem", "FORMAT, Statuses"),
        ("Given", "what a call leaves behind of its answer in files, output and log", "FORMAT, Statuses"),
    ]),
    ("edit_model", "The editor session. No program reaches it yet.", [
        ("Requests", "what a line of the input asks for", ""),
        ("Sessions", "the open sheets, and the replies to lines", ""),
        ("Serves", "what the program takes from its input and writes, by its status", ""),
    ]),
]

LAWS = ["model_laws", "theorem_laws", "proof_laws", "solve_laws", "sheet_laws", "chain_laws", "again_laws", "answer_laws", "push_laws", "writing_laws", "headline_laws", "phase_laws", "filling_laws", "whole_laws", "install_laws", "installed_laws", "select_laws", "auto_laws", "auto_answer_laws", "fitting_laws", "export_laws", "kept_laws", "edit_laws"]

# The statements that no contract names, by crate and file.
STATED = []

HEAD = """# Definitions

What the contracts of this repository mean rests on the definitions in this list. They stand in the crates that have no code of their own, but for one file of `install_laws`, and know nothing of stores of terms, undoing, charts or indexes. The crates stand in reading order, lowest first, and so do the files of each.

Of each file the list has, in its order, the definitions that other files rest on, the propositions and the rules of faults, each with the line that says what it is. The other definitions are parts of these and stand behind "Parts"; most have such a line in the file. `book` is *Metamath: A Computer Language for Mathematical Proofs*, second edition; FORMAT is [FORMAT.md](FORMAT.md). Where a section is named, the file states it.

A definition is tried on worked examples, which stand beside it in `specs/` as files `..Examples.antt`, or in `proofs/` where they take a tactic. A law is claimed where the contract of a public function names it; the last part lists these laws. The main theorem is what the contract of `run` in `mmp_run` says of a call.

This file is written by `docs/definitions.py` from the comments of the definitions.
"""

NAME = re.compile(r"(?:abbrev pub|unfoldable pub|pub record|pub data)\s+([^\s:({]+)")
TYPE = re.compile(r"pub (?:struct|enum) (\w+)")


def indent(line):
    return len(line) - len(line.lstrip())


def definitions(path):
    """The definitions of a file, each with its comment, and the file's own first comment."""
    found, comment, inside, begun = [], [], None, False
    for line in open(path, encoding="utf-8"):
        text = line.strip()
        if not text:
            comment = []
            continue
        if inside is not None and indent(line) < inside:
            inside = None
        if text.startswith("-- ----"):
            comment = []
            continue
        if text.startswith("--"):
            if begun:
                comment.append(text[2:].strip())
            continue
        begun = True
        if text in ("abbrev mutual", "mutual"):
            inside = indent(line) + 2
            continue
        match = NAME.match(text)
        if match is None and inside == indent(line):
            match = re.match(r"pub ([^\s:({]+)\s*:", text)
        if match:
            found.append((match.group(1), " ".join(comment)))
        comment = []
    return found


def types(crate):
    """The Rust types of a crate, each with the first sentence of its comment."""
    found = []
    folder = os.path.join(CRATES, crate, "src")
    for name in sorted(os.listdir(folder)):
        comment = []
        for line in open(os.path.join(folder, name), encoding="utf-8"):
            text = line.strip()
            if text.startswith("///"):
                comment.append(text[3:].strip())
                continue
            match = TYPE.match(line)
            if match and comment:
                found.append((match.group(1), " ".join(comment)))
            if not text.startswith("#["):
                comment = []
    return found


def laws(crate):
    """The public functions of a crate of laws, each with its comment."""
    found = []
    folder = os.path.join(CRATES, crate, "src")
    for name in sorted(os.listdir(folder)):
        comment = []
        for line in open(os.path.join(folder, name), encoding="utf-8"):
            text = line.strip()
            if text.startswith("///"):
                comment.append(text[3:].strip())
                continue
            match = re.match(r"pub fn (\w+)", text)
            if match and comment:
                found.append((match.group(1), " ".join(comment)))
            comment = []
    return found


def sources():
    """The names that stand in each file of definitions, proofs and code."""
    found = {}
    for folder, _, names in os.walk(CRATES):
        if "/out" in folder:
            continue
        for name in names:
            if name.endswith((".antt", ".rt")):
                path = os.path.normpath(os.path.join(folder, name))
                with open(path, encoding="utf-8") as file:
                    found[path] = set(re.findall(r"[^\s(){};,.:λ]+", file.read()))
    return found


def is_shown(name, text, path, names):
    """Whether a definition has a line of its own: it has a comment, and others rest on it, or it is a proposition or a rule."""
    if not text:
        return False
    if name[0].isupper() or text[0].isdigit():
        return True
    return any(name in words for other, words in names.items() if other != path)


def sentence(text):
    text = text[0].upper() + text[1:]
    return text if text[-1] in ".:;" else text + "."


def main():
    out = [HEAD]
    names = sources()
    for crate, about, files in ORDER:
        out.append(f"## {crate}\n\n{about}\n")
        kinds = [t for t in types(crate) if crate != "mm_base" or t[0] in ("Sym", "Label", "Typecode", "Pair", "Tree", "List", "Kinds", "Status")]
        if kinds:
            out.append("- **Types of the code**")
            out.extend(f"  - `{name}`: {sentence(text)}" for name, text in kinds)
        for name, about_file, source in files:
            source = f" ({source})" if source else ""
            out.append(f"- **{name}**: {about_file}{source}")
            path = os.path.normpath(os.path.join(CRATES, crate, "specs", name + ".antt"))
            found = definitions(path)
            shown = [d for d in found if is_shown(*d, path, names)]
            out.extend(f"  - `{n}`: {sentence(text)}" for n, text in shown)
            parts = [f"`{d[0]}`" for d in found if d not in shown]
            if parts:
                out.append("  - Parts: " + ", ".join(parts))
        out.append("")
    out.append("## Laws that are proved\n")
    for crate in LAWS:
        out.append(f"- **{crate}**")
        out.extend(f"  - `{name}`: {sentence(text)}" for name, text in laws(crate))
    if STATED:
        out.append("\n## Stated, not proved\n")
    for crate, name, stated in STATED:
        found = dict(definitions(os.path.join(CRATES, crate, "specs", name + ".antt")))
        out.append(f"- **{name}** of {crate}")
        out.extend(f"  - `{n}`: {sentence(found[n])}" for n in stated)
    with open(os.path.join(HERE, "DEFINITIONS.md"), "w", encoding="utf-8") as file:
        file.write("\n".join(out).rstrip() + "\n")


main()
