#!/usr/bin/env python3
"""Runs the goals of cases in SWI-Prolog, with its occurs check, and says where its answers aren't those that rows/ has.

Use, anywhere: tools/beside_swi.py [SUBJECT | SUBJECT/CASE ..]     cases of rows/, or all of rows/programs

It takes `swipl` (Debian's swi-prolog-nox), and is no part of the gate. Each script's goals are searched in one SWI-Prolog, whose
stored predicates are dynamic and hold what tools/rows_model.py says was committed before that script, in its order; a relation
stays in that order, new tuples last. The session's end, inferences and commit_unless are this language's own, so answers and
errors of the goals alone are compared, with those that the model gives. Of a goal the first difference alone is
told, and a script on which SWI-Prolog works longer than SECONDS is left there.
"""
import itertools
import os
import re
import subprocess
import sys
import tempfile

import rows_model
from repository import TOP

ROWS = f'{TOP}/rows'
SECONDS = 20
PRELUDE = """:- set_prolog_flag(occurs_check, true).
:- set_prolog_flag(double_quotes, codes).
:- style_check(-singleton).
:- style_check(-discontiguous).
insert_tuple(T) :- ( ground(T) -> true ; throw(error(instantiation_error, _)) ), ( \\+ \\+ ( clause(T, true) ) -> true ; assertz(T) ).
delete_tuple(T) :- ( ground(T) -> true ; throw(error(instantiation_error, _)) ), ( clause(T, true) -> retract(T) ; fail ).
shown(T) :- write_term(T, [quoted(true), ignore_ops(true), numbervars(false)]), put_char('\\n').
searched(J, G, Vs) :- write(goal(J)), nl, nb_setval(found, 0), catch(each(G, Vs), E, ( raised(E) )).
each(G, Vs) :- call(G), nb_getval(found, N), M is N + 1, nb_setval(found, M), write('answer '), shown(Vs), fail.
each(_, _) :- nb_getval(found, N), write('count '), write(N), nl.
raised(error(F, _)) :- !, write('error '), shown(F), throw(over).
raised(B) :- write('error '), shown(B), throw(over).
"""


def quoted(t):
    """A term for SWI-Prolog, with names in quotes and no operators; variables by their numbers."""
    return rows_model.text_in(t, lambda name: name if name in ('[]', '{}') else "'" + name.replace('\\', '\\\\').replace("'", "\\'") + "'")


def clause_text(head, body):
    return f'{quoted(rows_model.compound(":-", head, body))}.\n'


def run_script(room, program, lists, source):
    """What SWI-Prolog says of a script's goals: lines as the program prints them."""
    goals = [(t.args[0], names) for t, names in rows_model.Reader(source).clauses() if t.name == '?-']
    preds = set(program.clauses) | set(program.decls)
    lines = [PRELUDE]
    lines += [f':- redefine_system_predicate({quoted(rows_model.Cmp(name, [rows_model.Var() for _ in range(arity)]) if arity else rows_model.atom(name))}).\n' for name, arity in sorted(preds)]
    lines += [f":- dynamic('{name}'/{arity}).\n" for name, arity in program.decls]
    for pred, clauses in program.clauses.items():
        lines += [clause_text(head, body) for head, body in clauses]
    for pred, keys in program.decls.items():
        lines += [clause_text(it, rows_model.TRUE) if keys else clause_text(*it) for it in lists[pred]]
    calls = ', '.join(f"searched({j}, {quoted(rows_model.Cmp('x', [g, rows_model.listed([v for n, v in names.items() if not n.startswith('_')])]))[4:-1]})" for j, (g, names) in enumerate(goals, 1)) or 'true'
    lines.append(f'run :- catch(( {calls} ), over, true).\n')
    with open(f'{room}/all.pl', 'w', encoding='utf-8') as file:
        file.write(''.join(lines))
    try:
        ran = subprocess.run(['swipl', '--traditional', '-q', '-g', 'run', '-t', 'halt', 'all.pl'], cwd=room, capture_output=True, text=True, timeout=SECONDS, check=False)
        said, complaints = ran.stdout, ran.stderr
    except subprocess.TimeoutExpired as late:
        said, complaints = (late.stdout or b'').decode(), f'nothing more within {SECONDS} seconds'
    printed, shown = [], []
    for line in said.split('\n'):
        word, _, rest = line.partition(' ')
        if line.startswith('goal('):
            j = int(line[5:-1])
            shown = [n for n in goals[j - 1][1] if not n.startswith('_')]
            printed.append(f'goal {j}')
        elif word == 'count':
            printed.append(f'  {rest} answers')
        elif word in ('answer', 'error'):
            try:
                term = next(rows_model.Reader(rest + ' .').clauses())[0]
            except (SyntaxError, AssertionError, KeyError):
                printed.append(f'  {word} that the model does not read: {rest}')
                continue
            numbers = {}
            if word == 'error':
                printed.append('  error ' + rows_model.text(term, numbers))
            else:
                printed.append('  ' + (', '.join(f'{n} = {rows_model.text(v, numbers)}' for n, v in zip(shown, rows_model.list_of(term))) or 'true'))
    return printed, complaints


def by_goal(lines):
    """The lines below each line of a goal."""
    found = {}
    for line in lines:
        if line.startswith('goal '):
            found[line] = []
        elif found:
            found[list(found)[-1]].append(line)
    return found


def beside(ours, theirs):
    """The first lines that differ, goal by goal, as far as both went: the goal, our line and theirs."""
    ours, theirs = by_goal(ours), by_goal(theirs)
    for goal in ours:
        if goal not in theirs:
            break
        for mine, other in itertools.zip_longest(ours[goal], theirs[goal], fillvalue=''):
            if mine != other:
                yield goal, mine[:150], other[:150]
                break


def compare_case(case):
    """Says what differs, script by script."""
    folder = f'{ROWS}/{case}'
    read = lambda name: open(f'{folder}/{name}', encoding='latin-1').read()
    program = rows_model.Program(read('rules.pl'))
    lists = program.lists
    scripts = sorted((it for it in os.listdir(folder) if re.fullmatch(r's[0-9]+', it)), key=lambda it: int(it[1:]))
    for number, name in enumerate(scripts, 1):
        with tempfile.TemporaryDirectory(prefix='megalog-') as room:
            theirs, complaints = run_script(room, program, lists, read(name))
        block, lists = rows_model.run_session(number, program, lists, read(name))
        for goal, mine, other in beside(block[1:], theirs):
            yield f'{case}/{name} {goal}: ours {mine!r}, theirs {other!r}'
        if complaints.strip():
            yield f'{case}/{name}: it says {complaints.strip()[:300]}'


def main():
    names = []
    for word in sys.argv[1:] or ['programs']:
        word = word.strip('/').removeprefix('rows/')
        names += [word] if '/' in word else [f'{word}/{it}' for it in sorted(os.listdir(f'{ROWS}/{word}'))]
    found = [it for name in names for it in compare_case(name)]
    print('\n'.join([*found, f'{len(names)} cases, {len({"/".join(it.split("/")[:2]) for it in found})} of them differ']))


if __name__ == '__main__':
    rows_model.in_deep_stack(main)
