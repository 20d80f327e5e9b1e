#!/usr/bin/env python3
"""Exports proofs of Debian's databases with `mmp export`, and puts them in again under new names with `mmp install`.

    bench/exports.py PROGRAM [COUNT] [NAME ..]      PROGRAM: the built mmp, as crates/mmp/out/mmp; COUNT: theorems a database, else 100;
                                                    NAME: databases, else hol, ql, nf, iset and set

Theorems are taken evenly from the whole database, the same in each run. Told are: how many became a worksheet and why others did not;
how many worksheets are those of the exporter of export.py, which knows nothing of this one; how many `unify` writes again as the same
bytes; and how many it writes again where no formula but those of hypotheses and the last step is left (of the others those that a work
variable leaves open are told apart, since a proof need not say all). Then a hundred worksheets, taken evenly, get a new name, and new
labels for their hypotheses, and are put in behind their old theorems, one into the text with the others; told are how many were put in,
whether the text is the old one but for the blocks, and how many new proofs, and whether all old ones, `metamath` accepts. Last come
processor seconds of one call, over the first ten. A line for each that is not as it should be. What is missing is skipped.
"""
import collections, concurrent.futures, os, re, shutil, subprocess, sys, tempfile
sys.dont_write_bytecode = True
import export

FOLDER = "/usr/share/metamath/databases"

# At most so many theorems of a database are put in.
MOST_PUT_IN = 100

# What may be wrong with a worksheet; a proof need not say all, so the second is none.
OTHER, OPEN, DIFFERS, NOT_AGAIN = "differs from export.py's", "is open without formulas", "differs without formulas", "is not written again"


def run(words):
    """Status, output, log and processor seconds."""
    with tempfile.TemporaryFile() as out, tempfile.TemporaryFile() as log:
        started = subprocess.Popen(words, stdout=out, stderr=log)
        _, status, usage = os.wait4(started.pid, 0)
        out.seek(0)
        log.seek(0)
        return os.waitstatus_to_exitcode(status), out.read(), log.read().decode(), usage.ru_utime + usage.ru_stime


def write(path, text):
    with open(path, "wb") as file:
        file.write(text)
    return path


def without_proof(sheet):
    return "".join(line + "\n" for line in sheet.decode().splitlines() if not line.startswith("$= "))


def stripped(sheet):
    """No proof, and no formula but those of hypotheses and the last step."""
    lines = []
    for line in without_proof(sheet).splitlines():
        if re.match(r"\d+:", line):
            line = line.split(" ", 1)[0]
        lines.append(line)
    return "".join(line + "\n" for line in lines).encode()


def renamed(sheet, label, name):
    """A new theorem behind the old one."""
    text = without_proof(sheet).replace(f"THEOREM={label} LOC_AFTER=?", f"THEOREM={name} LOC_AFTER={label}", 1)
    return re.sub(r"^h(\d+)::\S+", lambda m: f"h{m[1]}::{name}.{m[1]}", text, flags=re.M).encode()


def is_open(sheet):
    return re.search(rb" &\S*\d(\s|$)", sheet) is not None


def reason(log):
    """A line without what it tells of its theorem alone."""
    return re.sub(r"( at|(?<=step)|(?<=size)|(?<=bytes)|(?<=labels)|(?<=worksheet)|(?<=theorem)) .*", "", log.strip().split("\n")[-1])


def tried(program, path, folder, label, own):
    """What comes of one theorem: the worksheet, or none with the line; and what is wrong with it."""
    status, sheet, log, seconds = run([program, "export", path, label])
    if status != 0:
        return label, None, reason(log), seconds, []
    wrong = []
    if without_proof(sheet) != own:
        wrong.append(OTHER)
    file = write(f"{folder}/{label}.mmp", sheet)
    if run([program, "unify", path, file])[:2] != (0, sheet):
        wrong.append(NOT_AGAIN)
    again, text, _, _ = run([program, "unify", path, write(file, stripped(sheet))])
    if (again, text) != (0, sheet):
        wrong.append(OPEN if again in (0, 1) and is_open(text) else DIFFERS)
    return label, sheet, "", seconds, wrong


def evenly(rows, count):
    count = min(count, len(rows))
    return [rows[k * len(rows) // count] for k in range(count)]


def put_in(program, path, folder, sheets):
    """The text with all theorems, the names of those that were put in, and the lines of the others."""
    current, names, lines = path, [], []
    for count, (label, sheet) in enumerate(sheets):
        name = f"new.{label}"
        file = write(f"{folder}/new.mmp", renamed(sheet, label, name))
        status, text, log, _ = run([program, "install", current, file])
        if status != 0:
            lines.append(f"{name}: status {status}: {log.strip().splitlines()[-1] if log else ''}")
            continue
        names.append(name)
        current = write(f"{folder}/{count % 2}.mm", text)
    with open(current, "rb") as file:
        return file.read(), current, names, lines


def without_blocks(text, names):
    """The text without the blocks of these theorems."""
    for name in names:
        at = text.index(b"\n" + name.encode() + b" $p ")
        start = text.rindex(b"\n${\n", 0, at + 1)
        end = text.index(b"\n$}\n", at) + 4
        text = text[:start] + text[end:]
    return text


def accepted(path, names):
    """The new theorems that the peer accepts, and whether it finds nothing wrong in all proofs."""
    words = [f'read "{path}"'] + [f"verify proof {name}" for name in names] + ["verify proof *", "exit"]
    shown = subprocess.run(["metamath"] + words, stdout=subprocess.PIPE, stderr=subprocess.STDOUT, errors="replace").stdout
    parts = re.split(r"MM> verify proof (\S+)", shown)
    sound = {name for name, said in zip(parts[1::2], parts[2::2]) if not re.search(r"[?]Error|[?]Warning|incomplete|not proved", said)}
    return [name for name in names if name in sound], "*" in sound


def seconds_of(program, path, folder, sheets):
    """Processor seconds of one call of each kind, over some theorems."""
    sums = collections.Counter()
    for label, sheet in sheets:
        file = write(f"{folder}/new.mmp", renamed(sheet, label, f"new.{label}"))
        for kind, words in (("verify", [path, label]), ("export", [path, label]), ("unify", [path, file]), ("install", [path, file])):
            sums[kind] += run([program, kind] + words)[3]
    return ", ".join(f"{kind} {total / len(sheets):.2f}" for kind, total in sums.items())


def measure(program, name, count):
    path = f"{FOLDER}/{name}.mm"
    if not os.path.exists(path):
        print(f"{name}: not there")
        return
    book = export.read(path)
    every = list(book[1])
    labels = evenly(every, count)
    own = {label: export.export(book, label) for label in labels}
    del book
    folder = tempfile.mkdtemp()
    with concurrent.futures.ThreadPoolExecutor(os.cpu_count()) as pool:
        rows = list(pool.map(lambda label: tried(program, path, folder, label, own[label]), labels))
    sheets = [(row[0], row[1]) for row in rows if row[1] is not None]
    wrong = collections.Counter(what for row in rows for what in row[4])
    print(f"{name}: {len(labels)} of {len(every)} theorems, {len(sheets)} worksheets, {len(sheets) - wrong[OTHER]} as those of export.py,"
          f" {len(sheets) - wrong[NOT_AGAIN]} written again, {len(sheets) - wrong[OPEN] - wrong[DIFFERS]} also without formulas,"
          f" {wrong[OPEN]} open without formulas", flush=True)
    for line, number in collections.Counter(row[2] for row in rows if row[1] is None).most_common():
        print(f"    none: {number} {line}; first {next(row[0] for row in rows if row[1] is None and row[2] == line)}")
    for row in rows:
        for what in row[4]:
            if what != OPEN:
                print(f"    {row[0]} {what}")
    if sheets:
        put = evenly(sheets, MOST_PUT_IN)
        text, last, names, lines = put_in(program, path, folder, put)
        with open(path, "rb") as file:
            same = without_blocks(text, names) == file.read()
        shown = f"{name}: {len(names)} of {len(put)} put in, the text {'is the old one but for them' if same else 'DIFFERS'}"
        if shutil.which("metamath"):
            good, all_good = accepted(last, names)
            shown += f", {len(good)} accepted, {'all proofs accepted' if all_good else 'NOT all proofs accepted'}"
            lines += [f"{label} is not accepted" for label in names if label not in good]
        print(shown, flush=True)
        for line in lines:
            print("    " + line)
        print(f"{name}: processor seconds of a call: {seconds_of(program, path, folder, sheets[:10])}", flush=True)
    shutil.rmtree(folder)


def main():
    program, count = os.path.abspath(sys.argv[1]), int(sys.argv[2]) if len(sys.argv) > 2 else 100
    for name in sys.argv[3:] or ["hol", "ql", "nf", "iset", "set"]:
        measure(program, name, count)


if __name__ == "__main__":
    main()
