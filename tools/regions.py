#!/usr/bin/env python3
"""Counts the regions of a file that may hold an answer, for tuples as users have them: a model of the rule, not the code.

Use: tools/regions.py [N]     N tuples, 20,000 where none is given; ten seconds or so

It builds the nested regions of `q(K,aK)`, K from 0, and of `edge(I,J)` with I and J below the root of N, inserted in a drawn
order that is the same in each run, by the rule of crates/ml_split/specs/Splitting.antt and the keys of crates/ml_term/specs
(Codes.antt, Keys.antt, Patterns.antt). It prints for each list of keys how many regions there are, and how many of them may
hold an answer where the first argument is given, and where the second is. docs/PERFORMANCE.md has the figures.
"""
import random
import sys

MAX_REGION_ITEMS = 24
SMALLEST_INTEGER = -2305843009213693952


def bits_of(data):
    return ''.join(format(byte, '08b') for byte in data)


def code(term):
    if isinstance(term, int):
        return '01' + format(term - SMALLEST_INTEGER, '062b')
    name = term.encode()
    return '10' + bits_of(name[:7].ljust(7, b'\0')) + format(min(len(name), 63), '06b')


def canonical_bytes(term):
    if isinstance(term, int):
        return b'\1' + (term - SMALLEST_INTEGER).to_bytes(8, 'big')
    return bytes([2, len(term)]) + term.encode()


def key_of(arguments, keys):
    codes = [code(arguments[k - 1]) for k in keys]
    head = ''.join(it[j] for j in range(64) for it in codes)
    return head + bits_of(bytes([3, len(arguments), 1]) + b'q' + b''.join(map(canonical_bytes, arguments)))


def split_prefix(prefix, keys):
    """The rule: bit by bit into the half with more keys, until at most two thirds are there."""
    under = keys
    while 3 * len(under) > 2 * len(keys):
        halves = [[it for it in under if it[len(prefix)] == bit] for bit in '01']
        bit = '1' if len(halves[1]) > len(halves[0]) else '0'
        prefix, under = prefix + bit, halves[int(bit)]
    return prefix


def regions_of(tuples, keys):
    """The regions of a file, by their prefixes, with the keys of their items."""
    regions, lengths = {'': []}, [0]

    def owner(key):
        return next(key[:n] for n in lengths if key[:n] in regions)

    for arguments in tuples:
        key = key_of(arguments, keys)
        old = owner(key)
        if len(regions[old]) == MAX_REGION_ITEMS:
            new, items = split_prefix(old, regions[old] + [key]), regions[old]
            regions[new] = [it for it in items if it.startswith(new)]
            regions[old] = [it for it in items if not it.startswith(new)]
            lengths = sorted({*lengths, len(new)}, reverse=True)
        regions[owner(key)].append(key)
    return regions


def may_hold(prefix, pattern):
    """Whether a key with this prefix may fit the pattern: a code for each keyed place, or none."""
    parts = [prefix[i:64 * len(pattern)][::len(pattern)] for i in range(len(pattern))]
    return all(given is None or given.startswith(part) or not part.strip('0') for given, part in zip(pattern, parts))


def main():
    count = int(sys.argv[1]) if len(sys.argv) > 1 else 20000
    side = int(count ** 0.5)
    q = [(k, f'a{k}') for k in range(count)]
    edge = [(i, j) for i in range(side) for j in range(side)]
    for name, tuples, given in (('q(K,aK)', q, (5, 'a5')), ('edge(I,J)', edge, (5, 5))):
        random.Random(1).shuffle(tuples)
        for keys in ([1, 2], [1], [2]):
            regions = regions_of(tuples, keys)
            counts = [sum(may_hold(it, [code(given[n - 1]) if k == n else None for k in keys]) for it in regions) for n in (1, 2)]
            print(f'{name}, keys {keys}: {len(regions)} regions; first given {counts[0]}, second given {counts[1]}')


main()
