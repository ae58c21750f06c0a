#!/usr/bin/env python3
"""Respells the names of the definitions and lemmas in crates/*/specs and crates/*/proofs: words in snake case.

usage: tools/respell_names.py [ROOT]      rewrites the files in place; ROOT is the repository, by default this one

What is declared there with a dash between words, or with a capital inside a word that begins small, gets underscores.
The names that the prover makes (those of goals and of invariants) and the functions of src/ are no declarations, and stay.
"""
import os
import re
import sys

# names that get another one than underscores alone would make of them
GIVEN = {
    'leF': 'fraction_le', 'minF': 'fraction_min', 'maxF': 'fraction_max',
    'leF-case': 'fraction_le_case', 'by-leF': 'by_fraction_le',
    'minF-left': 'fraction_min_left', 'minF-right': 'fraction_min_right', 'minF-over': 'fraction_min_over',
    'maxF-left': 'fraction_max_left', 'maxF-right': 'fraction_max_right', 'maxF-under': 'fraction_max_under',
    'minZ-is': 'int_min_is', 'maxZ-is': 'int_max_is',
    # the lemma on a definition of the same name
    'entry-from': 'entry_from_lem', 'entry-line': 'entry_line_lem',
}
# names that an import gives, and a bound variable: they are declared nowhere
BOUND = {'betaOf', 'pairedOf', 'risesTo', 'psiOf'}
NAME = r"[^\s(){}\[\].,;:=|λ\"`]+"
DECLARATION = re.compile(r"^\s*((?:abbrev |pub |unfoldable |data |record )*)(" + NAME + r")((?: \([^:]*:[^)]*\))*) :( .*)?$")
MADE = re.compile(r"\s*(goal|given|need)\.")


def files(root, *kinds):
    for top, folders, names in os.walk(os.path.join(root, 'crates')):
        folders[:] = sorted(f for f in folders if f != 'out')
        for name in sorted(names):
            if name.endswith(kinds):
                yield os.path.join(top, name)


def code(line):
    return line.split('--')[0].rstrip()


def declared(root):
    names = set()
    for path in files(root, '.antt'):
        with open(path, encoding='utf-8') as f:
            for line in f:
                found = DECLARATION.match(code(line))
                if found and not MADE.match(found.group(4) or ''):
                    names.add(found.group(2))
    return names


def respelt(name):
    if name in GIVEN:
        return GIVEN[name]
    if name[0].isupper():
        return name
    words = re.sub(r'(?<=[a-z0-9])([A-Z])(?=[a-z]|$)', lambda m: '_' + m.group(1).lower(), name)
    return words.replace('-', '_')


def main():
    root = sys.argv[1] if len(sys.argv) > 1 else os.path.join(os.path.dirname(os.path.abspath(__file__)), '..')
    names = declared(root) | BOUND
    new = {n: respelt(n) for n in names if respelt(n) != n}
    for n in sorted(new):
        others = [m for m in names if m != n and new.get(m, m) == new[n]]
        print(n, '->', new[n], '  falls together with ' + ', '.join(others) if others else '')
    token = re.compile(r"(?<![^\s(){}\[\].,;:=|λ\"`])(" + '|'.join(re.escape(n) for n in sorted(new, key=len, reverse=True)) + r")(?![^\s(){}\[\].,;:=|λ\"`])")
    for path in files(root, '.antt', '.rt'):
        with open(path, encoding='utf-8') as f:
            old = f.read()
        text = token.sub(lambda m: new[m.group(1)], old)
        if text != old:
            with open(path, 'w', encoding='utf-8') as f:
                f.write(text)


if __name__ == '__main__':
    main()
