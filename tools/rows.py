#!/usr/bin/env python3
"""Runs the cases of rows/ over the built program, and says what it prints otherwise.

Use, anywhere: tools/rows.py [SUBJECT | SUBJECT/CASE ..]                 over crates/megalog/out/megalog, which `rt ci` leaves
               tools/rows.py --program FILE [SUBJECT | SUBJECT/CASE ..]  over another
               tools/rows.py --try [SUBJECT | SUBJECT/CASE ..]           over a program that `rt try` builds and doesn't prove
               tools/rows.py --model [SUBJECT | SUBJECT/CASE ..]         over tools/rows_model.py, with no program at all

A case is a folder rows/SUBJECT/CASE with the files rules.pl, the scripts s1, s2 and so on, and stdout, which is what
`megalog serial rules.pl s1 s2 ..` is to print there; a file stderr, where it is to write a line on standard error; and a
file status, where it is to end with another status than 0. Each case runs in an empty folder with copies of its rules
and scripts. Those of HOSTILE run with a stack of 1 MiB. It prints what differs, and fails where something does.
"""
import difflib
import os
import re
import resource
import shutil
import subprocess
import sys
import tempfile

from repository import TOP

ROWS = f'{TOP}/rows'
PROGRAM = f'{TOP}/crates/megalog/out/megalog'
HOSTILE = 'hostile'
STACK = 1 << 20
SECONDS = 120
SHOWN = 40


def cases(words):
    """The cases that the words name, or all: SUBJECT/CASE each."""
    found = []
    for subject in sorted(os.listdir(ROWS)):
        folder = f'{ROWS}/{subject}'
        found += [f'{subject}/{it}' for it in sorted(os.listdir(folder))] if os.path.isdir(folder) else []
    words = [it.strip('/').removeprefix('rows/') for it in words]
    for word in words:
        if not any(it == word or it.startswith(word + '/') for it in found):
            sys.exit(f'rows/ has no {word}')
    return [it for it in found if not words or any(it == word or it.startswith(word + '/') for word in words)]


def texts(case):
    """The names of a case's rules and scripts, in order."""
    scripts = [it for it in os.listdir(f'{ROWS}/{case}') if re.fullmatch(r's[0-9]+', it)]
    return ['rules.pl', *sorted(scripts, key=lambda it: int(it[1:]))]


def content(case, name, otherwise):
    path = f'{ROWS}/{case}/{name}'
    if not os.path.isfile(path):
        return otherwise
    with open(path, 'rb') as file:
        return file.read()


def wanted(case):
    """Status, standard output and standard error."""
    return int(content(case, 'status', b'0')), content(case, 'stdout', b''), content(case, 'stderr', b'')


def small_stack():
    resource.setrlimit(resource.RLIMIT_STACK, (STACK, STACK))


def run_case(command, case):
    """What the program does in a case, as `wanted` has it."""
    with tempfile.TemporaryDirectory(prefix='megalog-') as room:
        for name in texts(case):
            shutil.copy(f'{ROWS}/{case}/{name}', room)
        # the model is no program of small stacks
        limit = small_stack if case.startswith(HOSTILE + '/') and len(command) == 1 else None
        words, seconds = (['serial'], SECONDS) if len(command) == 1 else ([], 10 * SECONDS)
        try:
            ran = subprocess.run([*command, *words, *texts(case)], cwd=room, stdin=subprocess.DEVNULL, capture_output=True, timeout=seconds, preexec_fn=limit, check=False)
        except subprocess.TimeoutExpired as late:
            return None, late.stdout or b'', late.stderr or b''
    return ran.returncode, ran.stdout, ran.stderr


def run_tried(names):
    """What a program that `rt try` builds once does in each case, as `wanted` has it. `rt try` gives both outputs as one."""
    with tempfile.TemporaryDirectory(prefix='megalog-') as room:
        words = []
        for case in names:
            flat = case.replace('/', '.')
            open(f'{room}/{flat}', 'w', encoding='utf-8').close()
            with open(f'{room}/{flat}.args', 'w', encoding='utf-8') as file:
                file.write('\n'.join(['serial', *(f'{flat}.{it}' for it in texts(case))]) + '\n')
            words += [part for it in texts(case) for part in ('--data', f'{flat}.{it}={ROWS}/{case}/{it}')]
        ran = subprocess.run(['rt', 'try', '--seconds', str(SECONDS), *words, '--cases', room], cwd=f'{TOP}/crates/megalog', stdout=subprocess.PIPE, stderr=subprocess.STDOUT, check=False)
    said = ran.stdout.decode('utf-8', 'replace')
    found = {}
    for block in re.split(r'(?m)^== ', said)[1:]:
        name, rest = block.split('\n', 1)
        found[name] = rest.partition(f'case={name} ')[0]
    statuses = dict(re.findall(r'(?m)^case=(\S+) run=ended status=(\d+)', said))
    faults = re.findall(r'(?m)^case=\S+ run=(?!ended|no-answer).*', said)
    if not statuses or faults:
        print('\n'.join([*faults, said[-2000:]]))
    found = {name: (int(status), found.get(name, '').encode()) for name, status in statuses.items()}
    return {case: parted(case, *found.get(case.replace('/', '.'), (None, b''))) for case in names}


def parted(case, status, out):
    """Status and outputs, where the line that the case wants on standard error may end what both outputs gave."""
    line = wanted(case)[2]
    return (status, out.removesuffix(line), line) if out.endswith(line) else (status, out, b'')


def unlike(case, did):
    """Says what differs: lines of output with - where they lack, with + where they are too many."""
    status, out, err = wanted(case)
    if did[0] != status:
        yield f'rows/{case}: the status is {"none, it went on too long" if did[0] is None else did[0]}, not {status}'
    for what, is_, should in (('standard output', did[1], out), ('standard error', did[2], err)):
        if is_ != should:
            lines = [it.decode('utf-8', 'replace').split('\n') for it in (should, is_)]
            # lines of 1 MiB take difflib long
            differ = [it[:200] for it in difflib.unified_diff(*lines, lineterm='', n=2)][2:]
            yield f'rows/{case}: {what} differs\n' + '\n'.join(differ[:SHOWN]) + ('\n..' if len(differ) > SHOWN else '')


def main():
    words, mode = sys.argv[1:], None
    if words and words[0] in ('--program', '--try', '--model'):
        mode = words.pop(0)
    command = [os.path.abspath(words.pop(0))] if mode == '--program' else [PROGRAM]
    if mode == '--model':
        command = [sys.executable, f'{TOP}/tools/rows_model.py']
    names = cases(words)
    if mode is None and not os.path.isfile(PROGRAM):
        print('there is no crates/megalog/out/megalog: `rt ci`, or `rt run` in crates/megalog, builds it')
        return 1
    wrong = []
    if mode == '--try':
        for case, did in run_tried(names).items():
            wrong += unlike(case, did)
    else:
        for case in names:
            if mode != '--model' or wanted(case)[0] == 0:
                wrong += unlike(case, run_case(command, case))
    print('\n'.join(wrong), end='\n' if wrong else '')
    if mode is not None:
        print(f'{len(names)} cases, {len({it.split(":")[0] for it in wrong})} of them differ')
    return 1 if wrong else 0


sys.exit(main())
