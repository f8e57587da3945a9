#!/usr/bin/env python3
"""Lists lines over the limit and names that are defined twice, and fails where there is one.

Use, anywhere: tools/lines.py [--count] [CRATE ..]

The limits are 100 columns in src/ and specs/, so in each clause too, and 160 in proofs/. Lines of imports and of attributes
count for nothing, since `rt fmt` lays them out, nor does a text in quotes that has its line to itself. A name is defined once in a crate: among
the definitions of its specs/, and among the functions, types and constants of its src/ that are no method. A definition and
the code that it is the meaning of may share a name. Worked rows, tests and crates of tests (`.._rows`) may use names again.
With --count only the numbers are printed, a line for each crate that has some.
"""
import os
import re
import sys

from repository import IMPORT, TOP, crates, definitions, files_under, lines_of

LIMITS = {'src': 100, 'specs': 100, 'proofs': 160}
ATTRIBUTE = re.compile(r'\s*#!?\[')
TEXT = re.compile(r'\s*b?"(?:[^"\\]|\\.)*"[,;)]*$')
CLAUSE = re.compile(r'\s*(requires|ensures)\b')
ITEM = re.compile(r'(?:pub(?:\([^)]*\))?\s+)?(?:const\s+|ghost\s+|unsafe\s+)*(?:fn|struct|enum|trait|type|const)\s+(\w+)')
ROWS = re.compile(r'(^|/)(\w*Rows\w*|RowWords)\.antt$')
TESTS = re.compile(r'(^|/)(\w*tests|\w*rows|test_\w+)(\.rt$|/)')


def long_lines(crate):
    """The long lines of a crate: where they stand, and what they are."""
    for part, limit in LIMITS.items():
        for path in files_under(f'{TOP}/crates/{crate}/{part}', ('.rt', '.antt')):
            in_clause = False
            for number, line in enumerate(lines_of(path), 1):
                # a clause goes on until a body begins, or ends the item
                in_clause = bool(CLAUSE.match(line)) or in_clause and not line.startswith(('{', '}'))
                if len(line) > limit and not any(it.match(line) for it in (IMPORT, ATTRIBUTE, TEXT)):
                    what = 'a clause' if in_clause else 'a line'
                    yield f'{os.path.relpath(path, TOP)}:{number}: {what} of {len(line)} columns, {limit} at most'


def items(path):
    """The functions, types and constants of a source file that are no method, with their lines."""
    in_tests = False
    for number, line in enumerate(lines_of(path), 1):
        in_tests = line.startswith('mod tests') or in_tests and not line.startswith('}')
        found = ITEM.match(line)
        if found and not in_tests and found.group(1) != '_':
            yield number, found.group(1)


def defined_twice(crate):
    """The names that a crate defines twice, with the places."""
    read_specs = lambda path: [it[:2] for it in definitions(path)[1]]
    for part, ending, aside, read in (('specs', '.antt', ROWS, read_specs), ('src', '.rt', TESTS, items)):
        places = {}
        for path in files_under(f'{TOP}/crates/{crate}/{part}', ending):
            for number, name in [] if aside.search(path) or crate.endswith('_rows') else read(path):
                places.setdefault(name, []).append(f'{os.path.relpath(path, TOP)}:{number}')
        for name, found in places.items():
            if len(found) > 1:
                yield f'{found[0]}: `{name}` is defined again in {", ".join(found[1:])}'


def main():
    failed = False
    for crate in [it for it in sys.argv[1:] if it != '--count'] or sorted(crates()):
        long, twice = list(long_lines(crate)), list(defined_twice(crate))
        failed = failed or bool(long or twice)
        if '--count' not in sys.argv:
            for line in long + twice:
                print(line)
        elif long or twice:
            of_part = [sum(f'/{part}/' in it for it in long) for part in LIMITS]
            clauses = sum(': a clause of' in it for it in long)
            print(f'{crate}: {of_part[0]} lines in src ({clauses} of clauses), {of_part[1]} in specs, {of_part[2]} in proofs; {len(twice)} names twice')
    return 1 if failed else 0


sys.exit(main())
