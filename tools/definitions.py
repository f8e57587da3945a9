#!/usr/bin/env python3
"""Writes docs/DEFINITIONS.md from the specs of all crates: each definition with the sentence that stands before it.

Use, anywhere: tools/definitions.py            writes the page anew
               tools/definitions.py --check    writes nothing, and fails where the page is not what would be written
               tools/definitions.py --bare     lists the definitions before which no sentence stands

The page's head, up to its first heading of the second order, is written by hand and stays. Behind it come, each in the order of
crates.txt and of each crate's specs/Lib.antt: the definitions that the contract of `serial` rests on, which are those of the
files that it cites and of all files that these cite; those of the other files in specs/; and those in specs/inside/, which tell
how the code keeps the others. It fails where something that `serial` rests on lies in specs/inside/.
"""
import os
import re
import sys

from repository import TOP, cited_in, crates, definitions, files_under, lines_of, modules

PAGE = f'{TOP}/docs/DEFINITIONS.md'
ROWS = re.compile(r'(^|/)(\w*Rows\w*|RowWords)$')
TABLE = '| Definition | What it says |'
PARTS = (
    ('What the headline says', 'What must be read to know what `serial` promises: its contract, and all definitions that it rests on.'),
    ('What other public calls and laws say', 'The layers below `serial`, parts that the program doesn\'t use yet, and laws of the definitions above.'),
    ('Inside the crates', 'How the code keeps what the definitions above say. What `serial` promises rests on none of these.'),
)


def contract_of_serial():
    """The path of the file that has `serial`, and its lines from its name to its body."""
    for path in files_under(f'{TOP}/crates/ml_run/src', '.rt'):
        lines = lines_of(path)
        starts = [n for n, line in enumerate(lines) if line.startswith('pub fn serial')]
        if starts:
            return path, lines[starts[0]:lines.index('{', starts[0])]
    sys.exit('no file of crates/ml_run/src has a line that begins with `pub fn serial`')


def headline_files(path, files):
    """The spec files that the contract of `serial` rests on."""
    seen, left = set(), list(cited_in(path, files))
    while left:
        file = left.pop()
        if file not in seen:
            seen.add(file)
            left += cited_in(files[file], files)
    return seen


def rows_of(path):
    """The lines of a file's part of the page."""
    head, found = definitions(path)
    lines = [head, ''] if head else []
    said = [(name, text) for _, name, text in found if text]
    if said:
        lines += [TABLE, '|---|---|']
        lines += ['| `%s` | %s |' % (name, text.replace('|', '\\|')) for name, text in said] + ['']
    bare = [f'`{name}`' for _, name, text in found if text == '']
    if bare:
        lines += [f'Without a sentence: {", ".join(bare)}.', '']
    return lines


def part_of(title, text, files):
    """A part of the page: its crates, with their files."""
    lines = [f'## {title}', '', text, '']
    for crate in dict.fromkeys(name for name, _ in files):
        own = {file: path for (name, file), path in files.items() if name == crate}
        rows = [f'`{file}`' for file in own if ROWS.search(file)]
        parts = [(file, rows_of(path)) for file, path in own.items() if not ROWS.search(file)]
        shown = [line for file, part in parts if TABLE in part for line in [f'#### `{crate}/specs/{file}.antt`', '', *part]]
        if rows:
            shown += [f'Worked rows, computed by the checker: {", ".join(rows)}.', '']
        if shown:
            lines += [f'### `{crate}`', '', *shown]
    return lines


def page():
    """The whole page, and what is wrong with the folders."""
    files = {(crate, name): path for crate in crates() for name, path in modules(crate).items()}
    path, contract = contract_of_serial()
    headline = headline_files(path, files)
    inside = {it for it in files if it[1].startswith('inside/')}
    wrong = [f'`serial` rests on {crate}/specs/{name}.antt' for crate, name in files if (crate, name) in headline & inside]
    with open(PAGE, encoding='utf-8') as text:
        head = re.split(r'(?m)^## ', text.read())[0].rstrip('\n')
    lines = [head, '']
    for number, (title, text) in enumerate(PARTS):
        chosen = (headline, files.keys() - headline - inside, inside - headline)[number]
        part = part_of(title, text, {it: path for it, path in files.items() if it in chosen})
        if number == 0:
            part[4:4] = ['```rust', *contract, '```', '']
        lines += part if chosen else []
    return '\n'.join(lines).rstrip('\n') + '\n', wrong


def bare():
    for crate in crates():
        for name, path in modules(crate).items():
            for number, word, text in definitions(path)[1]:
                if text == '' and not ROWS.search(name):
                    yield f'{os.path.relpath(path, TOP)}:{number}: {word}'


def main():
    if '--bare' in sys.argv:
        print('\n'.join(bare()))
        return 0
    text, wrong = page()
    for line in wrong:
        print(f'{line}, which lies in specs/inside/')
    with open(PAGE, encoding='utf-8') as old:
        is_same = old.read() == text
    if '--check' in sys.argv:
        if not is_same:
            print('docs/DEFINITIONS.md is not what tools/definitions.py writes: run it')
        return 1 if wrong or not is_same else 0
    with open(PAGE, 'w', encoding='utf-8') as new:
        new.write(text)
    return 1 if wrong else 0


sys.exit(main())
