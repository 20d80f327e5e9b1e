#!/usr/bin/env python3
"""Checks proofs of Debian's databases with `mmp verify`, and compares with the peer `metamath`, in one run.

    bench/verify.py PROGRAM [COUNT]     PROGRAM: the built mmp, as crates/mmp/out/mmp; COUNT: labels a database, else 300

Of a database with more theorems than COUNT a sample is taken, the same in each run. Each label is one process, so that it
reads the database anew. Told are: labels tried, labels not accepted, the time of all, and over the first ten of them the
ratio to `metamath "read DB" "verify proof LABEL" exit` and the greatest memory. What is missing is skipped.
"""
import os, random, re, shutil, subprocess, sys, time

FOLDER = "/usr/share/metamath/databases"
NAMES = ["demo0", "miu", "big-unifier", "hol", "ql", "peano", "nf", "iset", "set"]


def theorems(path):
    text = re.sub(rb"\$\(\s.*?\s\$\)", b" ", open(path, "rb").read(), flags=re.S)
    return [label.decode() for label in re.findall(rb"(\S+)\s+\$p\s", text)]


def run(words):
    begin = time.monotonic()
    done = subprocess.run(words, stdout=subprocess.PIPE, stderr=subprocess.PIPE)
    return time.monotonic() - begin, done


def measure(program, path, labels):
    here = peer = 0.0
    for label in labels:
        here += run([program, "verify", path, label])[0]
        if shutil.which("metamath"):
            peer += run(["metamath", f'read "{path}"', f"verify proof {label}", "exit"])[0]
    return here, peer


def main():
    program, count = sys.argv[1], int(sys.argv[2]) if len(sys.argv) > 2 else 300
    for name in NAMES:
        path = f"{FOLDER}/{name}.mm"
        if not os.path.exists(path):
            print(f"{name}: not there")
            continue
        every = theorems(path)
        labels = every if len(every) <= count else random.Random(1).sample(every, count)
        total, refused = 0.0, []
        for label in labels:
            seconds, done = run([program, "verify", path, label])
            total += seconds
            if done.returncode != 0 or done.stdout.decode() != f"{label} accepted\n":
                refused.append((label, done.returncode, done.stderr.decode().strip()))
        here, peer = measure(program, path, labels[:10])
        ratio = f"{here / peer:.2f} of the peer" if peer else "nothing to compare"
        print(f"{name}: {len(labels)} of {len(every)} labels, {len(refused)} not accepted, {total:.1f} s, {ratio}", flush=True)
        for row in refused[:5]:
            print("   ", *row)
        if os.path.exists("/usr/bin/time") and labels:
            shown = subprocess.run(["/usr/bin/time", "-f", "%M", program, "verify", path, labels[0]], stderr=subprocess.PIPE, stdout=subprocess.DEVNULL)
            print(f"    {shown.stderr.decode().split()[-1]} kB")


main()
