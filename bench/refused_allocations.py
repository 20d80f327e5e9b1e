#!/usr/bin/env python3
"""Refuses each allocation of `mmp` in turn, and looks at what it then answers, writes and changes.

    bench/refused_allocations.py PROGRAM        PROGRAM: the built mmp, as crates/mmp/out/mmp

Over small inputs `verify`, `unify` to standard output, `unify --in-place`, `trial` and refused calls are run with the Nth allocation
refused, for each N up to the number of allocations of the call; and, in a second pass, with all from the Nth on. Each run has to end with
status 7 with nothing written and each file as before, or with the answer of the call where nothing was refused: status, both texts and
files the same. The allocations are the calls of `malloc`, `calloc` and `realloc` that take memory, counted and refused by a small library
that is compiled here by `cc` and loaded before the C library; `posix_memalign`, `aligned_alloc` and `mmap` are not refused. A run in which
the refused one was not reached, or more than one was refused, is told as well. A call of which no allocation is counted ends the script.
The last line sums up; the exit status is 1 where one run differs.
"""
import os, shutil, subprocess, sys, tempfile

LIBRARY = r"""
#define _GNU_SOURCE
#include <errno.h>
#include <fcntl.h>
#include <stdint.h>
#include <stdlib.h>
#include <string.h>
#include <unistd.h>
extern void *__libc_malloc(size_t), *__libc_calloc(size_t, size_t), *__libc_realloc(void *, size_t);
static long asked, refused, at, all, ready;
static void start(void) {
    const char *n = getenv("REFUSED_AT"), *every = getenv("REFUSED_ALL");
    ready = 1;
    at = n ? atol(n) : 0;
    all = every != 0;
}
static int is_refused(void) {
    if (!ready) start();
    asked++;
    if (at && (asked == at || (all && asked > at))) { refused++; errno = ENOMEM; return 1; }
    return 0;
}
void *malloc(size_t n) { return is_refused() ? 0 : __libc_malloc(n); }
void *calloc(size_t n, size_t m) { return is_refused() ? 0 : __libc_calloc(n, m); }
void *realloc(void *p, size_t n) { return is_refused() ? 0 : __libc_realloc(p, n); }
__attribute__((destructor)) static void tell(void) {
    const char *name = getenv("REFUSED_TOLD");
    long counts[2] = {asked, refused};
    int file = name ? open(name, O_WRONLY | O_CREAT | O_TRUNC, 0600) : -1;
    if (file >= 0) { if (write(file, counts, sizeof counts)) {} close(file); }
}
"""

TOP = os.path.dirname(os.path.dirname(os.path.abspath(__file__)))
IDENTITY = "x $p |- ( ph -> ph ) $= wph wph wph wi wi wph wph wi wph wph ax-1 wph wph wph wi wph wi wi wph wph wph wi wi wph wph wi wi wph wph wph wi ax-1 wph wph wph wi wph ax-2 ax-mp ax-mp $.\n"
MORE = "$c = $.\n${ $d ph ps $. ap $a |- ( ph -> ps ) $. $}\nid $a |- ( ph -> ph ) $.\n"
SEARCHED = """$( <MM> <PROOF_ASST> THEOREM=many LOC_AFTER=?
* a comment
  of two lines
h1::many.1 |- ph
h2::many.2 |- ( ph -> ps )
3:1,2: |- ps
4::ax-mp |- ch
5:: |- ( &W1 -> &W1 )
6::id
7:1,?:ax-mp |- &W2
8::ap |- ( ps -> ch )
9::nope |- ph
$d ph ch
qed:3:id |- ( ps -> ps )
$)
"""
FOUND = """$( <MM> <PROOF_ASST> THEOREM=found LOC_AFTER=?
h1::found.1 |- ph
h2::found.2 |- ( ph -> ps )
3:2,1:ax-mp
4::ap |- ( ps -> ch )
5:3,4: |- ch
qed::ax-mp |- ( ps -> ch )
$= x $.
$)
"""


def calls(folder):
    """The calls: (name, words, the file that may be replaced or None)."""
    small = open(f"{TOP}/examples/P.mm").read()
    files = {"d.mm": small + IDENTITY + MORE, "one.mmp": open(f"{TOP}/examples/modus_ponens.mmp").read(), "many.mmp": SEARCHED,
             "found.mmp": FOUND, "bad.mm": small + "$c ( $.\n", "bad.mmp": "$( <MM> <PROOF_ASST> THEOREM=bad LOC_AFTER=?\nqed:: |- (\n$)\n",
             "open.mmp": "$( <MM> <PROOF_ASST>\n"}
    for name, text in files.items():
        open(f"{folder}/{name}", "w").write(text)
    rows = [("verify", ["verify", "d.mm", "x"]), ("verify, no theorem", ["verify", "d.mm", "id"]), ("verify, compressed", ["verify", "V.mm", "good"])]
    shutil.copy(f"{TOP}/examples/V.mm", f"{folder}/V.mm")
    for sheet in ("one", "many", "found"):
        rows.append((f"unify {sheet}", ["unify", "d.mm", f"{sheet}.mmp"]))
        rows.append((f"unify {sheet}, normal, given", ["unify", "--proof=normal", "--dv=given", "d.mm", f"{sheet}.mmp"]))
        rows.append((f"unify {sheet}, in place", ["unify", "--in-place", "d.mm", f"{sheet}.mmp"]))
    rows += [("unify, a bad database", ["unify", "bad.mm", "one.mmp"]), ("unify, a bad worksheet", ["unify", "d.mm", "bad.mmp"]),
             ("unify, a bad header", ["unify", "d.mm", "open.mmp"]), ("unify, no file", ["unify", "none.mm", "one.mmp"]),
             ("trial 2", ["trial", "2"]), ("trial 9", ["trial", "9"]), ("words", ["unify"])]
    return rows


def state(folder):
    """What the folder holds."""
    return {name: open(f"{folder}/{name}", "rb").read() for name in sorted(os.listdir(folder))}


def run(program, words, folder, library, told, at=0, all_from=False):
    """Status, output, log, allocations asked for and refused."""
    setting = {"LD_PRELOAD": library, "REFUSED_TOLD": told}
    if at:
        setting["REFUSED_AT"] = str(at)
    if all_from:
        setting["REFUSED_ALL"] = "1"
    if os.path.exists(told):
        os.remove(told)
    done = subprocess.run([program] + words, cwd=folder, env=setting, stdin=subprocess.DEVNULL, stdout=subprocess.PIPE, stderr=subprocess.PIPE)
    asked = refused = -1
    if os.path.exists(told):
        counts = open(told, "rb").read()
        asked, refused = (int.from_bytes(counts[k:k + 8], "little") for k in (0, 8))
    return (done.returncode, done.stdout, done.stderr), asked, refused


def judged(answer, after, before, whole, changed):
    """Why a run is not as it has to be, or None."""
    if answer[0] == 7:
        if answer[1] or answer[2]:
            return "status 7, and something was written"
        return None if after == before else "status 7, and a file was changed"
    if answer != whole:
        return f"status {answer[0]}, and another answer"
    return None if after == changed else "the same answer, and other files"


def tried(program, name, words, folder, library, told):
    """The runs of one call: how many, how many of them ended with status 7, how many differ."""
    before = state(folder)
    whole, count, _ = run(program, words, folder, library, told)
    changed = state(folder)
    if count < 1:
        sys.exit(f"{name}: no allocation was counted")
    runs = sevens = wrong = 0
    for all_from in (False, True):
        for at in range(1, count + 1):
            for file, text in before.items():
                open(f"{folder}/{file}", "wb").write(text)
            answer, asked, refused = run(program, words, folder, library, told, at, all_from)
            why = judged(answer, state(folder), before, whole, changed)
            if why is None and (refused < 1 or asked < at or (not all_from and refused != 1)):
                why = f"{asked} allocations, {refused} refused"
            runs += 1
            sevens += answer[0] == 7
            if why:
                wrong += 1
                print(f"    {name}, allocation {at}{' and on' if all_from else ''}: {why}")
            for file in set(os.listdir(folder)) - set(before):
                os.remove(f"{folder}/{file}")
    for file, text in before.items():
        open(f"{folder}/{file}", "wb").write(text)
    print(f"{name}: status {whole[0]}, {count} allocations, {runs} runs, {sevens} with status 7, {runs - sevens} with the same answer, {wrong} wrong", flush=True)
    return runs, wrong


def main():
    program = os.path.abspath(sys.argv[1])
    outer = tempfile.mkdtemp()
    folder, library, told = f"{outer}/files", f"{outer}/refusing.so", f"{outer}/told"
    os.mkdir(folder)
    open(f"{outer}/refusing.c", "w").write(LIBRARY)
    subprocess.run(["cc", "-O1", "-shared", "-fPIC", "-o", library, f"{outer}/refusing.c"], check=True)
    rows = calls(folder)
    totals = [tried(program, name, words, folder, library, told) for name, words in rows]
    shutil.rmtree(outer)
    runs, wrong = (sum(t[k] for t in totals) for k in (0, 1))
    print(f"refused allocations: {len(rows)} calls, {runs} runs, {wrong} wrong")
    sys.exit(1 if wrong else 0)


main()
