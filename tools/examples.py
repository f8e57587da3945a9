#!/usr/bin/env python3
"""Runs the examples over the built program, and says what they print otherwise.

Use, anywhere: tools/examples.py [NAME ..]                 over crates/megalog/out/megalog, which `rt ci` leaves
               tools/examples.py --program FILE [NAME ..]  over another
               tools/examples.py --model [NAME ..]         over tools/rows_model.py, with no program at all

An example is a folder examples/NAME with its rules, its scripts, a README.md and stdout. The README has one line that
begins with `megalog `: the command, which is to print stdout there. It prints what differs, and fails where something does.
"""
import difflib
import os
import re
import shlex
import subprocess
import sys

from repository import TOP

EXAMPLES = f'{TOP}/examples'
PROGRAM = f'{TOP}/crates/megalog/out/megalog'
MODEL = f'{TOP}/tools/rows_model.py'
SECONDS = 120


def command(name):
    """The words of the example's command behind `megalog`."""
    with open(f'{EXAMPLES}/{name}/README.md', encoding='utf-8') as file:
        lines = re.findall(r'(?m)^megalog (.*)$', file.read())
    if len(lines) != 1:
        sys.exit(f'examples/{name}/README.md has {len(lines)} commands of megalog, not one')
    return shlex.split(lines[0])


def unlike(name, program):
    """Lines of what the example prints otherwise: with - where they lack, with + where they are too many."""
    folder, words = f'{EXAMPLES}/{name}', command(name)
    ran = subprocess.run([*program, *(words if len(program) == 1 else words[1:])], cwd=folder, stdin=subprocess.DEVNULL, capture_output=True, timeout=SECONDS, check=False)
    with open(f'{folder}/stdout', 'rb') as file:
        wanted = file.read()
    if ran.returncode or ran.stderr:
        yield f'examples/{name}: status {ran.returncode} {ran.stderr.decode("utf-8", "replace").strip()}'
    if ran.stdout != wanted:
        lines = [it.decode('utf-8', 'replace').split('\n') for it in (wanted, ran.stdout)]
        yield f'examples/{name}: standard output differs\n' + '\n'.join([*difflib.unified_diff(*lines, lineterm='', n=2)][2:])


def main():
    words, program = sys.argv[1:], [PROGRAM]
    if words and words[0] == '--program':
        program, words = [os.path.abspath(words[1])], words[2:]
    elif words and words[0] == '--model':
        program, words = [sys.executable, MODEL], words[1:]
    if not os.path.isfile(program[-1]):
        print(f'there is no {program[-1]}: `rt ci`, or `rt run` in crates/megalog, builds it')
        return 1
    wrong = [it for name in words or sorted(os.listdir(EXAMPLES)) for it in unlike(name, program)]
    print('\n'.join(wrong), end='\n' if wrong else '')
    return 1 if wrong else 0


sys.exit(main())
