#!/usr/bin/env python3
"""Gives the definitions and lemmas of this repository the spelling of its proof language, by the table respell.tsv beside this file.

usage: respell.py [FOLDER]

It turns whole words of specs/, proofs/ and the clauses of src/. A word with a dash in a comment, outside a code span, is prose and stays. A second run changes
nothing.
"""
import pathlib
import re
import sys

WORD = re.compile(r'[^\s(){}.;,@"«»\[\]`]+')
SPAN = re.compile(r'`[^`\n]*`')


def main() -> None:
    top = pathlib.Path(sys.argv[1] if len(sys.argv) > 1 else '.')
    rows = (pathlib.Path(__file__).parent / 'respell.tsv').read_text().splitlines()
    table = dict(row.split('\t') for row in rows)

    def turn(text: str) -> str:
        return WORD.sub(lambda m: table.get(m.group(), m.group()), text)

    def prose(text: str) -> str:
        spans = SPAN.sub(lambda m: turn(m.group()), text)
        return WORD.sub(lambda m: m.group() if '-' in m.group() else table.get(m.group(), m.group()), spans)

    paths = [
        path
        for path in sorted(top.glob('crates/*/**/*'))
        if path.relative_to(top).parts[2] in ('src', 'specs', 'proofs') and path.suffix in ('.antt', '.rt')
    ]
    # Some rows give a name that another row takes, so a tree that was turned is left as it is: no name with a capital inside stands in it.
    capitals = {old for old in table if old.lower() != old and old[0].islower() and '-' not in old}
    if not any(capitals & set(WORD.findall(path.read_text())) for path in paths):
        return
    for path in paths:
        sign = '--' if path.suffix == '.antt' else '//'
        old = path.read_text()
        new = []
        for line in old.split('\n'):
            code, mark, comment = line.partition(sign)
            new.append(turn(code) + mark + prose(comment))
        if '\n'.join(new) != old:
            path.write_text('\n'.join(new))


main()
