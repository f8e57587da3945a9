#!/usr/bin/env python3
"""Runs every block of commands of README.md, and runs that the program must refuse, and compares what they print.

Use, anywhere: tools/readme.py           with the program that `rt ci`, or `rt run` in crates/megalog, left in out/
               tools/readme.py --long    with the blocks too that take long: a first proof, and the gate itself

It prints what differs, and fails where something does. The blocks are the lines between ```sh and ```. They run one after
another in one shell, which begins in the repository's folder, as README.md says, with an empty folder for what `mktemp` makes.
Where a block of plain ``` follows at once, it is what the commands print, on standard output and standard error; where none
does, they print nothing. Each ends with status 0. A block ```sh long takes minutes or more; of it standard output alone is
compared, and nothing where no block follows.

Then come the runs of REFUSED, each with its status, its line on standard error and nothing on standard output: some for each
row of README.md's table of statuses but want of memory; and a run of over 200,000 bytes, in and out. Last, each file that
README.md and docs/ name by its path, or link to, is looked for.
"""
import glob
import os
import re
import subprocess
import sys
import tempfile

from repository import TOP, lines_of

PROGRAM = f'{TOP}/crates/megalog/out/megalog'
RULES, SCRIPT = b':- relation(p/1). p(2). p(1).', b'?- p(X).'
FILES = {
    'rules': RULES,
    's1': SCRIPT,
    'long': b'%' * 1048577,
    'clash': b'a = b = c.',
    'item': b'p(1).',
}
# status, line, and words; `folder` is a folder, and output goes to a full device where the status is 9
REFUSED = (
    (2, 'megalog: bad words', ['run', 'rules']),
    (2, 'megalog: bad words', ['serial']),
    (2, 'megalog: bad words', ['serial', 'rules', '-s1']),
    (2, 'megalog: bad words', ['serial', 'rules'] + 65 * ['s1']),
    (2, 'megalog: bad words', ['serial', b'\xff']),
    (3, 'megalog: no file gone', ['serial', 'gone']),
    (3, 'megalog: no file gone', ['serial', 'rules', 's1', 'gone']),
    (4, 'megalog: too long long', ['serial', 'long']),
    (5, 'megalog: cannot read folder', ['serial', 'folder']),
    (5, 'megalog: cannot read folder', ['serial', 'rules', 'folder']),
    (6, 'megalog: rules PriorityClash at 6', ['serial', 'clash', 'gone']),
    (7, 'megalog: script 2 BadScriptItem at 0', ['serial', 'rules', 's1', 'item']),
    (9, 'megalog: cannot write', ['serial', 'rules', 's1']),
)
MARKS = {'NAME': r'\S+', 'KIND': r'[A-Z]\w+', 'PLACE': r'\d+', 'K': r'\d+'}


def blocks_of(lines):
    """The blocks of commands: the line where each begins, whether it takes long, its text, and what it prints, if that is said."""
    found, fences = [], [n for n, line in enumerate(lines) if line.startswith('```')]
    for begin, end in zip(fences[::2], fences[1::2]):
        text = '\n'.join(lines[begin + 1:end]) + '\n'
        if lines[begin] in ('```sh', '```sh long'):
            found.append([begin + 1, lines[begin] == '```sh long', text, None])
        elif lines[begin] == '```' and found and found[-1][3] is None and not ''.join(lines[last + 1:begin]).strip():
            found[-1][3] = text
        last = end
    return found


def run_blocks(blocks, room):
    """Runs blocks in one shell, and says of each that differs what it printed."""
    script = []
    for number, (_, is_long, text, _) in enumerate(blocks):
        with open(f'{room}/{number}.sh', 'w', encoding='utf-8') as file:
            file.write(text)
        errors = f'"{room}/{number}.err"' if is_long else '&1'
        script.append(f'. "{room}/{number}.sh" >"{room}/{number}.out" 2>{errors} </dev/null; echo $? >"{room}/{number}.status"')
    os.mkdir(f'{room}/empty')
    subprocess.run(['sh', '-c', '\n'.join(script)], cwd=TOP, env={**os.environ, 'TMPDIR': f'{room}/empty'}, check=False)
    for number, (line, is_long, _, wanted) in enumerate(blocks):
        status, out = [open(f'{room}/{number}.{it}', encoding='utf-8', errors='replace').read() for it in ('status', 'out')]
        if status != '0\n':
            yield f'README.md:{line}: the commands end with status {status.strip()}'
        if out != (wanted or '') and not (is_long and wanted is None):
            yield f'README.md:{line}: the commands print\n{out}and README.md says\n{wanted or ""}'.rstrip('\n')


def run_refused(room):
    """Says of each run of REFUSED what it did otherwise."""
    os.mkdir(f'{room}/folder')
    for name, text in FILES.items():
        with open(f'{room}/{name}', 'wb') as file:
            file.write(text)
    for status, line, words in REFUSED:
        with open('/dev/full' if status == 9 else f'{room}/printed', 'wb') as out:
            ran = subprocess.run([PROGRAM, *words], cwd=room, stdin=subprocess.DEVNULL, stdout=out, stderr=subprocess.PIPE, timeout=60, check=False)
        with open(f'{room}/printed', 'rb') as out:
            did = (ran.returncode, ran.stderr, b'' if status == 9 else out.read())
        if did != (status, line.encode() + b'\n', b''):
            yield f'megalog {words}: status, standard error and standard output are {did}, not {status} and {line!r}'


def unlike_table(lines):
    """Says which rows of the table of statuses have no run above, and which runs have no row."""
    rows = [re.match(r'\| (\d+) \|.*\| `(megalog: .*)` \|$', line) for line in lines]
    rows = [(int(it.group(1)), re.sub(r'[A-Z]+', lambda mark: MARKS[mark.group()], it.group(2))) for it in rows if it]
    for status, line, _ in REFUSED:
        if not any(number == status and re.fullmatch(text, line) for number, text in rows):
            yield f'README.md has no row with status {status} and the line {line!r}'
    for number, text in rows:
        if number != 11 and not any(status == number for status, _, _ in REFUSED):
            yield f'no run is refused with status {number}'


def run_long(room, count=25000):
    """Says whether a run of many tuples prints something else than all of them in order."""
    with open(f'{room}/rules', 'w', encoding='utf-8') as file:
        file.write(':- relation(p/1).\n' + ''.join(f'p({n}).\n' for n in reversed(range(count))))
    with open(f'{room}/s1', 'w', encoding='utf-8') as file:
        file.write(':- budget(200000).\n?- p(N).\n')
    wanted = 'session 1 committed\ngoal 1\n' + ''.join(f'  N = {n}\n' for n in range(count)) + f'  {count} answers\n'
    ran = subprocess.run([PROGRAM, 'serial', 'rules', 's1'], cwd=room, stdin=subprocess.DEVNULL, capture_output=True, timeout=60, check=False)
    if (ran.returncode, ran.stderr, ran.stdout) != (0, b'', wanted.encode()):
        yield f'a run of {len(wanted)} bytes ends with status {ran.returncode} and {len(ran.stdout)} bytes'


def not_there():
    """Says which files and folders the documents name that aren't there."""
    for page in [f'{TOP}/README.md', *sorted(glob.glob(f'{TOP}/docs/*.md'))]:
        for number, line in enumerate(lines_of(page), 1):
            paths = re.findall(r'`((?:crates|docs|tools)/[^`\s]*)`', line)
            found = [f'{TOP}/{it}' for it in paths if 'NAME' not in it]
            found += [os.path.join(os.path.dirname(page), it) for it in re.findall(r'\]\(([^)#:]+)(?:#[^)]*)?\)', line)]
            for path in found:
                if not glob.glob(path) and '/out/' not in path:
                    yield f'{os.path.relpath(page, TOP)}:{number}: there is no {os.path.relpath(path, TOP)}'


def main():
    lines = lines_of(f'{TOP}/README.md')
    if '--long' not in sys.argv and not os.path.isfile(PROGRAM):
        print('there is no crates/megalog/out/megalog: `rt ci`, or `rt run` in crates/megalog, builds it')
        return 1
    blocks = [it for it in blocks_of(lines) if not it[1] or '--long' in sys.argv]
    wrong = [*unlike_table(lines), *not_there()]
    for run in (lambda room: run_blocks(blocks, room), run_refused, run_long):
        with tempfile.TemporaryDirectory(prefix='megalog-') as room:
            wrong += run(room)
    print('\n'.join(wrong), end='\n' if wrong else '')
    return 1 if wrong else 0


sys.exit(main())
