#!/usr/bin/env python3
"""Asks `mmp select` about steps of exported worksheets, and measures what that takes beside the opening of the database.

    bench/selects.py PROGRAM [COUNT] [NAME ..]      PROGRAM: the built mmp, as crates/mmp/out/mmp; COUNT: theorems a database, else 20;
                                                    NAME: databases, else hol, ql, nf, iset and set, or paths that end with .mm

Theorems are taken evenly from the whole database, the same in each run, and exported; of each worksheet `qed` and the step in the middle
are asked about. Told are: how many of these steps list their own reference, which fits by the proof; how many are given the first label
of their list by `unify` where the reference is left out; how many labels a step lists, on average and at most. Then processor seconds of
a call, each the least of three: of `unify` over the shortest of the worksheets, which is the opening of the database but for little, of
`unify` over the longest, and of `select` over the steps that list most and whose search takes longest, with the ratio to the first.
A line for each that is not as it should be. What is missing is skipped.
"""
import os, re, shutil, sys, tempfile
sys.dont_write_bytecode = True
from exports import FOLDER, run, without_proof, write

RUNS = 3


def theorems(path):
    """The labels of all `$p`."""
    with open(path, "rb") as file:
        text = re.sub(rb"\$\(\s.*?\s\$\)", b" ", file.read(), flags=re.S)
    return [label.decode() for label in re.findall(rb"(\S+)\s+\$p\s", text)]


def steps(text):
    """Name, reference and line of each step that is no hypothesis."""
    found = []
    for line in text.splitlines():
        match = re.match(r"([\w.-]+):[^:\s]*:(\S+) ", line)
        if match and line[0] not in "h$":
            found.append((match[1], match[2], line))
    return found


def asked(text):
    """The step in the middle, and the last."""
    every = steps(text)
    return every[len(every) // 2:len(every) // 2 + 1] + every[-1:] if len(every) > 1 else every


def searched(program, path, file, text, name, reference, line):
    """The reference that the search gives the step, or none."""
    without = line.replace(":" + reference + " ", ": ", 1)
    write(file, text.replace("\n" + line + "\n", "\n" + without + "\n", 1).encode())
    log = run([program, "unify", path, file])[2]
    match = re.search(rf"^{re.escape(name)} found (\S+)", log, flags=re.M)
    return match and match[1]


def rows_of(program, path, folder, label):
    """Of each step that is asked about: its worksheet and name, the labels, the seconds, and what is wrong."""
    status, sheet, _, _ = run([program, "export", path, label])
    if status != 0:
        return []
    text = without_proof(sheet)
    file, rows = write(f"{folder}/{label}.mmp", text.encode()), []
    for name, reference, line in asked(text):
        status, out, log, seconds = run([program, "select", path, file, name])
        labels, wrong = out.decode().split(), []
        if status != 0:
            wrong.append(f"status {status}: {log.strip()}")
        elif reference not in labels:
            wrong.append(f"does not list {reference}")
        elif searched(program, path, f"{folder}/searched.mmp", text, name, reference, line) != labels[0]:
            wrong.append(f"is not given {labels[0]} by unify")
        rows.append((label, file, name, labels, seconds, wrong))
    return rows


def least(words):
    return min(run(words)[3] for _ in range(RUNS))


def tell_seconds(program, path, name, rows):
    by_size = sorted({row[1] for row in rows}, key=os.path.getsize)
    opening = least([program, "unify", path, by_size[0]])
    longest = least([program, "unify", path, by_size[-1]])
    shown = [f"opening {opening:.3f}", f"unify of the longest worksheet {longest:.3f}, {longest / opening:.2f} of the opening"]
    for about, key in (("the step with most labels", lambda row: len(row[3])), ("the step that took longest", lambda row: row[4])):
        row = max(rows, key=key)
        seconds = least([program, "select", path, row[1], row[2]])
        shown.append(f"{about} ({row[0]} {row[2]}, {len(row[3])} labels) {seconds:.3f}, {seconds / opening:.2f} of the opening")
    print(f"{name}: processor seconds: " + "; ".join(shown), flush=True)


def measure(program, name, count):
    path = name if name.endswith(".mm") else f"{FOLDER}/{name}.mm"
    if not os.path.exists(path):
        print(f"{name}: not there")
        return
    every = theorems(path)
    labels = [every[k * len(every) // min(count, len(every))] for k in range(min(count, len(every)))]
    folder = tempfile.mkdtemp()
    rows = [row for label in labels for row in rows_of(program, path, folder, label)]
    if rows:
        numbers = [len(row[3]) for row in rows]
        right = sum(not row[5] for row in rows)
        print(f"{name}: {len(rows)} steps of {len({row[1] for row in rows})} worksheets, {right} list their reference and begin with what"
              f" unify finds, {sum(numbers) / len(numbers):.1f} labels a step and at most {max(numbers)}", flush=True)
        for label, _, step, _, _, wrong in rows:
            for what in wrong:
                print(f"    {label} {step} {what}")
        tell_seconds(program, path, name, rows)
    shutil.rmtree(folder)


def main():
    program, count = os.path.abspath(sys.argv[1]), int(sys.argv[2]) if len(sys.argv) > 2 else 20
    for name in sys.argv[3:] or ["hol", "ql", "nf", "iset", "set"]:
        measure(program, name, count)


if __name__ == "__main__":
    main()
