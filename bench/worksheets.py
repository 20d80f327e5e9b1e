#!/usr/bin/env python3
"""Makes worksheets of proofs of Debian's databases and unifies them with `mmp`.

    bench/worksheets.py PROGRAM [COUNT] [NAME ..]   PROGRAM: the built mmp, as crates/mmp/out/mmp; COUNT: theorems a database, else 20;
                                                    NAME: databases, else set, iset, nf and hol

A sample of theorems with 4 to 60 steps is taken, the same in each run. Of each there are eight worksheets: for the theorem itself and
for a new one at the end, in four ways: as the proof is, without references, without formulas but the last, and with steps and places
left out that are to be derived. Told are, for each way: worksheets, those that came out finished, those that stayed open by a work
variable alone (without formulas a proof need not say all), those that are written again as the same bytes, and the finished ones whose
proof `metamath` accepts. A line for each that is none of these. What is missing is skipped.
"""
import concurrent.futures, os, random, re, shutil, subprocess, sys, tempfile
sys.dont_write_bytecode = True
from books import Book, sheet, written_parts

FOLDER = "/usr/share/metamath/databases"
WAYS = ["given", "searched", "blank", "derived"]


def unify(program, database, path):
    done = subprocess.run([program, "unify", database, path], stdout=subprocess.PIPE, stderr=subprocess.PIPE)
    return done.returncode, done.stdout.decode(), done.stderr.decode()


def trial(program, database, folder, theorem, name, way, book):
    """What came of one worksheet: its status, its text, whether it is written again, and the report."""
    path = f"{folder}/{name}.{way}.mmp"
    open(path, "w").write(sheet(theorem, name, way, book))
    status, text, log = unify(program, database, path)
    again = False
    if status in (0, 1):
        open(path, "w").write(text)
        again = unify(program, database, path)[:2] == (status, text)
    return status, text, log, again


def is_open(text):
    return re.search(r" &\S*\d(\s|$)", text) is not None


def chosen(book, count):
    labels = sorted(book.proofs)
    random.Random(1).shuffle(labels)
    found = []
    for label in labels:
        theorem = book.theorem(label)
        if theorem and 4 <= len(theorem.steps) <= 60 and theorem.formula[0] == "|-" and book.is_global(theorem):
            found.append(theorem)
            if len(found) == count:
                break
    return found


def accepted(book, results, folder):
    """The worksheets whose proof the peer accepts. Each new theorem stands behind the database; the proof of one that was there
    stands in the place of its own, with the pairs that were written."""
    if not shutil.which("metamath"):
        return None
    good = set()
    for way in WAYS:
        edits, behind, labels = [], [], []
        for (label, name, w), (status, text, _, _) in results.items():
            if w != way or status != 0:
                continue
            hyps, last, proof, pairs = written_parts(text)
            pairs = "".join(pair + " $. " for pair in pairs)
            labels.append((label, name, w))
            if name == label:
                start, inner, end = book.proofs[label][1]
                edits.append((start, start, pairs))
                edits.append((inner, end, proof[2:-2]))
            else:
                shown = "".join(f"{h} $e {f} $.\n" for h, f in hyps)
                behind.append(f"${{\n{pairs}\n{shown}{name} $p {last} {proof}\n$}}\n")
        text = book.text
        for start, end, new in sorted(edits, reverse=True):
            text = text[:start] + new + text[end:]
        path = f"{folder}/{way}.mm"
        open(path, "w", encoding="latin-1").write(text + "\n" + "".join(behind))
        words = [f'read "{path}"'] + [f"verify proof {name}" for _, name, _ in labels] + ["exit"]
        shown = subprocess.run(["metamath"] + words, stdout=subprocess.PIPE, stderr=subprocess.STDOUT, errors="replace").stdout
        parts = re.split(r"MM> verify proof (\S+)", shown)
        for name, said in zip(parts[1::2], parts[2::2]):
            if name in said.split() and not re.search(r"[?]Error|[?]Warning|incomplete|not proved", said):
                good.update(key for key in labels if key[1] == name)
        os.remove(path)
    return good


def main():
    program, count = os.path.abspath(sys.argv[1]), int(sys.argv[2]) if len(sys.argv) > 2 else 20
    for database in sys.argv[3:] or ["set", "iset", "nf", "hol"]:
        path = f"{FOLDER}/{database}.mm"
        if not os.path.exists(path):
            print(f"{database}: not there")
            continue
        book = Book(path)
        folder = tempfile.mkdtemp()
        work = [(t, name, way) for t in chosen(book, count) for name in (t.label, "new." + t.label) for way in WAYS]
        with concurrent.futures.ThreadPoolExecutor(os.cpu_count()) as pool:
            done = list(pool.map(lambda w: trial(program, path, folder, *w, book), work))
        results = {(t.label, name, way): r for (t, name, way), r in zip(work, done)}
        good = accepted(book, results, folder)
        for way in WAYS:
            for new in (False, True):
                rows = [(k, r) for k, r in results.items() if k[2] == way and (k[0] != k[1]) == new]
                finished = [k for k, r in rows if r[0] == 0]
                left = [k for k, r in rows if r[0] == 1 and is_open(r[1])]
                again = [k for k, r in rows if r[3]]
                proved = "-" if good is None else len([k for k in finished if k in good])
                kind = "a new theorem" if new else "the theorem itself"
                print(f"{database}, {way}, {kind}: {len(rows)} worksheets, {len(finished)} finished, {len(left)} open,"
                      f" {len(again)} written again, {proved} accepted", flush=True)
                for key, (status, _, log, same) in rows:
                    wrong = status > 1 or not same or (status == 1 and key not in left) or (status == 0 and good is not None and key not in good)
                    if wrong:
                        print("   ", key[1], status, "written again" if same else "differs", *log.split("\n")[-3:-1], sep="; ")
        shutil.rmtree(folder)


main()
