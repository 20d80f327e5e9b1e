#!/usr/bin/env python3
"""Fills steps of exported worksheets with `mmp auto`, and measures what that takes beside the opening of the database.

    bench/autos.py PROGRAM [COUNT] [STEPS] [OPEN] [NAME ..]      PROGRAM: the built mmp, as crates/mmp/out/mmp; COUNT: worksheets a database,
                                                                 else 10; STEPS: at least so many steps a worksheet, else 100; OPEN: so many
                                                                 of them lose reference and hypotheses, else 20; NAME: databases, else iset
                                                                 and set

Theorems are taken evenly from the whole database, the same in each run, until enough of their worksheets are so long. Of each, steps with
one to three hypotheses are opened, evenly. Told are: how many steps were opened; how many got some reference, and how many the one that
they had; how many worksheets are finished; whether `auto` writes again what it wrote. Then processor seconds of a call: of `unify` over a
worksheet of one step, which is the opening of the database but for little, of `unify` over the opened worksheets and of `auto` over them,
and the seconds at most of one `auto` beside the opening. A line for each that is not as it should be. What is missing is skipped.
"""
import os, re, shutil, sys, tempfile
sys.dont_write_bytecode = True
from exports import FOLDER, evenly, run, without_proof, write
from selects import theorems

STEP = re.compile(r"^([\w.-]+):([^:\s]*):(\S+) ")


def opened(text, count):
    """The worksheet with so many steps opened, and their references by name."""
    lines = text.splitlines()
    numbers = [k for k, line in enumerate(lines)
               if line[0] not in "h$" and (m := STEP.match(line)) and 1 <= len(m[2].split(",")) <= 3 and m[2] and "?" not in m[2]]
    had = {}
    for k in evenly(numbers, count) if numbers else []:
        name, _, reference = STEP.match(lines[k]).groups()
        had[name] = reference
        lines[k] = STEP.sub(r"\1:: ", lines[k], count=1)
    return "".join(line + "\n" for line in lines), had


def worksheets(program, path, count, steps):
    """Long worksheets, of theorems taken evenly."""
    every, found = theorems(path), []
    for label in evenly(every, 40 * count):
        status, sheet, _, _ = run([program, "export", path, label])
        if status == 0 and sum(1 for line in sheet.decode().splitlines() if STEP.match(line)) >= steps:
            found.append((label, without_proof(sheet)))
        if len(found) == count:
            break
    return found


def measure(program, name, count, steps, count_opened):
    path = f"{FOLDER}/{name}.mm"
    if not os.path.exists(path):
        print(f"{name}: not there")
        return
    folder = tempfile.mkdtemp()
    found = worksheets(program, path, count, steps)
    if not found:
        print(f"{name}: no worksheet is so long")
        return
    one = re.sub(r"\n(?!qed:)[^$\n][^\n]*", "", found[0][1])
    one = re.sub(r"\nqed:[^ ]*", "\nqed::", one)
    opening = min(run([program, "unify", path, write(f"{folder}/one.mmp", one.encode())])[3] for _ in range(3))
    total = filled = same = finished = again = 0
    unified = autos = most = 0.0
    for label, text in found:
        sheet, had = opened(text, count_opened)
        file = write(f"{folder}/{label}.mmp", sheet.encode())
        unified += run([program, "unify", path, file])[3]
        status, out, log, seconds = run([program, "auto", path, file])
        autos, most = autos + seconds, max(most, seconds)
        if status not in (0, 1):
            print(f"    {label}: status {status}: {log.strip()}")
            continue
        now = {m[1]: m[3] for line in out.decode().splitlines() if (m := STEP.match(line)) and line[0] != "h"}
        total, filled = total + len(had), filled + sum(1 for step in had if step in now)
        same, finished = same + sum(1 for step in had if now.get(step) == had[step]), finished + (status == 0)
        if run([program, "auto", path, write(file, out)])[:2] == (status, out):
            again += 1
        else:
            print(f"    {label} is not filled again as it is")
    print(f"{name}: {len(found)} worksheets of {steps} steps and more, {total} steps opened, {filled} filled, {same} with the reference that they had,"
          f" {finished} worksheets finished, {again} written again")
    print(f"{name}: processor seconds of a call: opening {opening:.2f}, unify {unified / len(found):.2f}, auto {autos / len(found):.2f};"
          f" auto at most {most - opening:.2f} beside the opening", flush=True)
    shutil.rmtree(folder)


def main():
    numbers = [int(word) for word in sys.argv[2:] if word.isdigit()]
    names = [word for word in sys.argv[2:] if not word.isdigit()]
    count, steps, count_opened = numbers + [10, 100, 20][len(numbers):]
    for name in names or ["iset", "set"]:
        measure(os.path.abspath(sys.argv[1]), name, count, steps, count_opened)


if __name__ == "__main__":
    main()
