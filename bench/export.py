#!/usr/bin/env python3
"""Prints the worksheets of proofs as an exporter of its own makes them; bench/exports.py compares the program's with them.
    bench/export.py DATABASE [LABEL..]      all theorems where no label is given
"""
import sys


def tokens_of(path):
    """The tokens of a database outside its comments."""
    tokens, in_comment = [], False
    for token in open(path).read().split():
        if token == '$(':
            in_comment = True
        elif token == '$)':
            in_comment = False
        elif not in_comment:
            tokens.append(token)
    return tokens


def up_to(tokens, at, *ends):
    """The tokens from a place up to one of these, and the place of that."""
    begin = at
    while tokens[at] not in ends:
        at += 1
    return tokens[begin:at], at


def read(path):
    """The frames by label, the theorems by label with what is active there, and the numbers of symbols."""
    tokens = tokens_of(path)
    frames, theorems, symbols = {}, {}, {}
    active, pairs, blocks, label, at = [], [], [], None, 0
    while at < len(tokens):
        word = tokens[at]
        if word == '${':
            blocks.append((len(active), len(pairs)))
        elif word == '$}':
            hyps, count = blocks.pop()
            del active[hyps:], pairs[count:]
        elif word in ('$c', '$v'):
            names, at = up_to(tokens, at + 1, '$.')
            for name in names:
                symbols.setdefault(name, len(symbols))
        elif word == '$d':
            names, at = up_to(tokens, at + 1, '$.')
            pairs += [(a, b) for i, a in enumerate(names) for b in names[i + 1:]]
        elif word in ('$f', '$e'):
            formula, at = up_to(tokens, at + 1, '$.')
            active.append((label, word, formula))
        elif word in ('$a', '$p'):
            formula, at = up_to(tokens, at + 1, '$.', '$=')
            variables = set(formula).union(*[h[2] for h in active if h[1] == '$e'])
            hyps = [h for h in active if h[1] == '$e' or h[2][1] in variables]
            frames[label] = formula, hyps
            if word == '$p':
                proof, at = up_to(tokens, at + 1, '$.')
                theorems[label] = formula, hyps, list(active), list(pairs), proof
        else:
            label = word
        at += 1
    return frames, theorems, symbols


def steps_of(proof, mandatory):
    """The steps of a proof: a label, what a mark kept, or a mark."""
    if not proof or proof[0] != '(':
        return [('label', label) for label in proof]
    close = proof.index(')')
    labels = mandatory + proof[1:close]
    steps, number = [], 0
    for letter in ''.join(proof[close + 1:]):
        if letter == 'Z':
            steps.append(('mark', None))
        elif letter > 'T':
            number = number * 5 + ord(letter) - 84
        else:
            number = number * 20 + ord(letter) - 65
            steps.append(('label', labels[number]) if number < len(labels) else ('again', number - len(labels)))
            number = 0
    return steps


def export(database, name):
    """The worksheet of a theorem's proof."""
    frames, theorems, symbols = database
    goal, hyps, active, pairs, proof = theorems[name]
    lines, formulas, stack, kept = [], [], [], []

    def line(prefix, places, label, formula):
        listed = ','.join(str(formulas.index(p) + 1) if p in formulas else '?' for p in places)
        lines.append('%s:%s:%s %s' % (prefix, listed, label, ' '.join(formula)))

    for label, kind, formula in active:
        if kind == '$e':
            line('h%d' % (len(formulas) + 1), [], label, formula)
            formulas.append(tuple(formula))
    given = {h[0]: tuple(h[2]) for h in active}
    for kind, what in steps_of(proof, [h[0] for h in hyps]):
        if kind == 'mark':
            kept.append(stack[-1])
        elif kind == 'again':
            stack.append(kept[what])
        elif what in given:
            stack.append(given[what])
        else:
            formula, wanted = frames[what]
            entries = stack[len(stack) - len(wanted):]
            del stack[len(stack) - len(wanted):]
            values = {h[2][1]: e[1:] for h, e in zip(wanted, entries) if h[1] == '$f'}
            pushed = tuple(s for symbol in formula for s in values.get(symbol, (symbol,)))
            stack.append(pushed)
            places = [e for h, e in zip(wanted, entries) if h[1] == '$e']
            if formula[0] == '|-' and pushed == tuple(goal):
                line('qed', places, what, pushed)
                break
            if formula[0] == '|-' and pushed not in formulas:
                line(len(formulas) + 1, places, what, pushed)
                formulas.append(pushed)
    else:
        line('qed', [], '', goal)
    numbered = sorted({tuple(sorted((symbols[a], symbols[b]))) for a, b in pairs})
    names = list(symbols)
    header = '$( <MM> <PROOF_ASST> THEOREM=%s LOC_AFTER=?' % name
    return '\n'.join([header] + lines + ['$d %s %s' % (names[a], names[b]) for a, b in numbered] + ['$)', ''])


if __name__ == '__main__':
    book = read(sys.argv[1])
    for theorem in sys.argv[2:] or book[1]:
        print(export(book, theorem))
