"""Reads Metamath databases, and makes worksheets of their proofs. Used by the scripts beside it."""
import re


class Theorem:
    """A `$p` with what its proof shows: (name, places, reference, formula) for each step, its `$e` first."""

    def __init__(self, label, span, hyps, formula, steps):
        self.label, self.span, self.hyps, self.formula, self.steps = label, span, hyps, formula, steps


class Book:
    """A database: its text, the frames of its assertions, and the proofs of its theorems as they stand."""

    def __init__(self, path):
        self.text = open(path, "rb").read().decode("latin-1")
        # comments become blanks, so that places in the text stay
        self.plain = re.sub(r"\$\(\s.*?\s\$\)", lambda m: " " * len(m.group()), self.text, flags=re.S)
        self.frames, self.proofs, self.floats = {}, {}, {}
        self._read()

    def _read(self):
        blocks, active, label, variables = [], [], None, set()
        words = re.finditer(r"\S+", self.plain)
        for word in words:
            at, word = word.start(), word.group()
            if word == "${":
                blocks.append(len(active))
            elif word == "$}":
                del active[blocks.pop():]
            elif word[0] != "$":
                label = (word, at)
            else:
                formula = []
                for part in words:
                    end, part = part.end(), part.group()
                    if part in ("$.", "$="):
                        break
                    formula.append(part)
                if word == "$v":
                    variables.update(formula)
                elif word == "$f":
                    active.append((label[0], True, formula))
                    if not blocks:
                        self.floats[formula[1]] = label[0]
                elif word == "$e":
                    active.append((label[0], False, formula))
                elif word in ("$a", "$p"):
                    used = set(formula)
                    for _, floating, tokens in active:
                        if not floating:
                            used.update(tokens)
                    hyps = [h for h in active if not h[1] or h[2][1] in used]
                    self.frames[label[0]] = (hyps, formula)
                if word == "$p":
                    inner = end
                    proof = []
                    for part in words:
                        if part.group() == "$.":
                            break
                        proof.append(part.group())
                        end = part.end()
                    self.proofs[label[0]] = (proof, (label[1], inner, end), list(active))

    def _pushes(self, label):
        """The steps of a proof: a label, or the number of a marked step; None stands for a mark."""
        proof, _, _ = self.proofs[label]
        if proof[0] != "(":
            return list(proof)
        close = proof.index(")")
        names = [h[0] for h in self.frames[label][0]] + proof[1:close]
        pushes, value = [], 0
        for letter in "".join(proof[close + 1:]):
            if letter == "Z":
                pushes.append(None)
            elif "A" <= letter <= "T":
                value = 20 * value + ord(letter) - 64
                pushes.append(names[value - 1] if value <= len(names) else value - len(names) - 1)
                value = 0
            else:
                value = 5 * value + ord(letter) - 84
        return pushes

    def theorem(self, label):
        """The theorem with the steps of its proof; none where a step of it is no assertion of the usual form."""
        if "?" in self.proofs[label][0]:
            return None
        hyps, formula = self.frames[label]
        here = {h[0]: h for h in self.proofs[label][2]}
        steps, by_hyp = [], {}
        for name, floating, tokens in hyps:
            if not floating:
                by_hyp[name] = len(steps)
                steps.append((str(len(steps) + 1), None, name, tokens))
        stack, kept = [], []
        for push in self._pushes(label):
            if push is None:
                kept.append(stack[-1])
            elif isinstance(push, int):
                stack.append(kept[push])
            elif push in here:
                stack.append((here[push][2], by_hyp.get(push)))
            else:
                slots, conclusion = self.frames[push]
                first = len(stack) - len(slots)
                taken, values, places = stack[first:], {}, []
                del stack[first:]
                for (_, floating, tokens), (entry, step) in zip(slots, taken):
                    if floating:
                        values[tokens[1]] = entry[1:]
                    else:
                        places.append(step)
                shown = [conclusion[0]]
                for token in conclusion[1:]:
                    shown.extend(values.get(token, (token,)))
                step = None
                if shown[0] == "|-":
                    step = len(steps)
                    steps.append((str(step + 1), places, push, shown))
                elif places:
                    return None
                stack.append((shown, step))
        if not steps or len(stack) != 1 or steps[-1][1] is None or any(None in s[1] for s in steps if s[1] is not None):
            return None
        last = steps[-1]
        steps[-1] = ("qed",) + last[1:]
        return Theorem(label, self.proofs[label][1], hyps, formula, steps)

    def is_global(self, theorem):
        """Whether each variable of it has its `$f` outside all blocks."""
        known = set(self.floats)
        local = {h[2][1] for h in self.proofs[theorem.label][2] if h[1]} - known
        return not any(token in local for step in theorem.steps for token in step[3])

    def is_determined(self, reference):
        """Whether the last `$e` of an assertion has no variable of its own."""
        hyps, formula = self.frames[reference]
        given = set(formula)
        last = [h[2] for h in hyps if not h[1]]
        for tokens in last[:-1]:
            given.update(tokens)
        slots = {h[2][1] for h in hyps if h[1]}
        return bool(last) and not (set(last[-1]) & slots) - given


def sheet(theorem, name, way, book):
    """The worksheet of a proof, for the theorem itself or a new one. The ways: `given`, `searched` (no references), `blank` (no
    formulas but those of hypotheses and the last step), `derived` (steps and places left out)."""
    renamed = name != theorem.label
    lines = [f"$( <MM> <PROOF_ASST> THEOREM={name} LOC_AFTER=?"]
    left_out, cut = set(), set()
    if way == "derived":
        uses = {}
        for i, step in enumerate(theorem.steps):
            for k, place in enumerate(step[1] or []):
                uses.setdefault(place, []).append((i, k))
        for i, step in enumerate(theorem.steps):
            if step[1] and book.is_determined(step[2]):
                cut.add(i)
        for i, step in enumerate(theorem.steps):
            if step[1] == [] and uses.get(i) and all(u in cut and k == len(theorem.steps[u][1]) - 1 for u, k in uses[i]):
                left_out.add(i)
    for i, (step, places, reference, formula) in enumerate(theorem.steps):
        if i in left_out:
            continue
        shown = " ".join(formula)
        if places is None:
            label = f"{name}.{step}" if renamed else reference
            lines.append(f"h{step}::{label} {shown}")
            continue
        if i in cut:
            places = places[:-1]
        listed = ",".join(theorem.steps[p][0] for p in places)
        if way == "searched":
            reference = ""
        if way == "blank" and step != "qed":
            shown = ""
        lines.append(f"{step}:{listed}:{reference} {shown}".rstrip())
    return "\n".join(lines) + "\n$)\n"


def written_parts(text):
    """Of a written worksheet: its hypotheses, the last step's formula, its proof and its pairs."""
    lines = text.split("\n")
    hyps = [line[1:].split(" ", 1) for line in lines if re.match(r"h[^ ]*::", line)]
    last = [line.split(" ", 1)[1] for line in lines if line.startswith("qed:")][0]
    proof = [line for line in lines if line.startswith("$= ")]
    pairs = [line for line in lines if line.startswith("$d ")]
    return [(h.split(":")[2], f) for h, f in hyps], last, proof[0] if proof else None, pairs
