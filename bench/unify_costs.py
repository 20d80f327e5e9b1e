#!/usr/bin/env python3
"""Measures what `mmp` takes for worksheets over set.mm and for what grows fast, in one run.

    bench/unify_costs.py PROGRAM [RUNS]     PROGRAM: the built mmp, as crates/mmp/out/mmp; RUNS: runs of each row, else 3

Each row is the least processor time of its runs, and its ratio to what `metamath` takes to read set.mm. What a worksheet takes on the
opened database is told as the difference to a worksheet of one step. The worksheets of 100 steps are made from proofs of set.mm with
95 to 105 steps; of five of them the one that takes longest is told. What is missing is skipped. To meet:
    100 steps with references 0.05 s and with half of them 0.4 s, 5,000 steps 10 s, on the opened database;
    forty doublings 0.05 s and `trial 1000` 2 s; 300 MB in all for the worksheets of 100 steps.
"""
import multiprocessing, os, random, shutil, subprocess, sys, tempfile
sys.dont_write_bytecode = True
from books import Book, sheet

DATABASE = "/usr/share/metamath/databases/set.mm"
SMALL = """$c ( ) -> wff |- $.
$v ph ps $.
wph $f wff ph $.
wps $f wff ps $.
wi $a wff ( ph -> ps ) $.
${
  pair.1 $e |- ph $.
  pair $a |- ( ph -> ph ) $.
$}
"""


def run(words, wanted):
    """Processor seconds and greatest memory in MB."""
    with open(os.devnull, "w") as nothing:
        started = subprocess.Popen(words, stdout=nothing, stderr=nothing)
        _, status, usage = os.wait4(started.pid, 0)
    if wanted is not None and os.waitstatus_to_exitcode(status) not in wanted:
        print("    status", os.waitstatus_to_exitcode(status), *words)
    return usage.ru_utime + usage.ru_stime, usage.ru_maxrss / 1024


def least(words, runs, wanted):
    rows = [run(words, wanted) for _ in range(runs)]
    return min(r[0] for r in rows), max(r[1] for r in rows)


def repeated(rounds):
    """So many times an identity, the formula before it behind this antecedent, and modus ponens."""
    lines = ["$( <MM> <PROOF_ASST> THEOREM=unify_costs LOC_AFTER=?", "h1::unify_costs.1 |- ( ph -> ps )", "h2::unify_costs.2 |- ( ps -> ch )"]
    lines.append(f"{3 if rounds else 'qed'}:1,2:syl |- ( ph -> ch )")
    last = 3
    for n in range(rounds):
        a, b, c = "ABCD"[n % 4], "ABCD"[n // 4 % 4], "ABCD"[n // 16 % 4]
        part = f"( ( {a} i^i {b} ) C_ ( {c} u. {a} ) /\\ A. x e. {b} ( x = {a} -> th ) )"
        whole = f"( {part} -> {part} )"
        lines.append(f"{last + 1}::id |- {whole}")
        lines.append(f"{last + 2}:{last}:a1i |- ( {whole} -> ( ph -> ch ) )")
        lines.append(f"{'qed' if n == rounds - 1 else last + 3}:{last + 1},{last + 2}:ax-mp |- ( ph -> ch )")
        last += 3
    return "\n".join(lines) + "\n$)\n"


def without_half(text):
    """Every second reference of a step that is no hypothesis is left out."""
    lines, count = [], 0
    for line in text.split("\n"):
        if line[:1] not in ("$", "h", "") and ":" in line:
            count += 1
            if count % 2 == 0:
                first, formula = line.split(" ", 1)
                line = first.rsplit(":", 1)[0] + ": " + formula
        lines.append(line)
    return "\n".join(lines)


def hundreds():
    book = Book(DATABASE)
    labels = sorted(book.proofs)
    random.Random(1).shuffle(labels)
    found = []
    for label in labels:
        theorem = book.theorem(label)
        if theorem and 95 <= len(theorem.steps) <= 105 and book.is_global(theorem):
            found.append(sheet(theorem, "unify_costs", "given", book))
            if len(found) == 5:
                break
    return found


def doublings():
    steps = "".join(f"{k + 2}:{k + 1}:pair\n" for k in range(40))
    return f"$( <MM> <PROOF_ASST> THEOREM=dbl LOC_AFTER=?\nh1::dbl.1 |- ph\n{steps}qed:: |- ph\n$)\n"


def main():
    program, runs = os.path.abspath(sys.argv[1]), int(sys.argv[2]) if len(sys.argv) > 2 else 3
    folder = tempfile.mkdtemp()

    def path(name, text):
        open(f"{folder}/{name}", "w").write(text)
        return f"{folder}/{name}"

    peer = None

    def tell(name, seconds, most, unit="s"):
        ratio = f"{seconds / peer:.3f} of the peer's reading" if peer and unit == "s" else ""
        print(f"{name}: {seconds:.3f} {unit} (to meet: {most} {unit}) {'' if seconds <= most else 'OVER '}{ratio}", flush=True)

    if os.path.exists(DATABASE):
        if shutil.which("metamath"):
            peer = least(["metamath", f'read "{DATABASE}"', "exit"], runs, None)[0]
            print(f"the peer reads set.mm: {peer:.2f} s", flush=True)
        unify = [program, "unify", DATABASE]
        one, memory = least(unify + [path("one.mmp", repeated(0))], runs, (0,))
        print(f"one step, the database opened: {one:.2f} s" + (f", {one / peer:.2f} of the peer's reading" if peer else ""), flush=True)
        # in a process of its own: what is started from a large one counts the memory of that one
        with multiprocessing.Pool(1) as pool:
            texts = pool.apply(hundreds)
        for name, most, change in (("100 steps with references", 0.05, lambda t: t), ("100 steps, half of them without", 0.4, without_half)):
            rows = [least(unify + [path("hundred.mmp", change(text))], runs, (0,)) for text in texts]
            memory = max([memory] + [r[1] for r in rows])
            tell(name, max(r[0] for r in rows) - one, most)
        rows = least(unify + [path("many.mmp", repeated(1666))], runs, (0,))
        tell("5,000 steps", rows[0] - one, 10)
        tell("memory", memory, 300, "MB")
        print(f"memory with 5,000 steps: {rows[1]:.0f} MB", flush=True)
    else:
        print("set.mm: not there")
    tell("forty doublings", least([program, "unify", path("small.mm", SMALL), path("dbl.mmp", doublings())], runs, (3,))[0], 0.05)
    tell("trial 1000", least([program, "trial", "1000"], runs, (0,))[0], 2)
    shutil.rmtree(folder)


main()
