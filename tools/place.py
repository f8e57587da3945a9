#!/usr/bin/env python3
"""Shows where a fault stands: file, line, column, and the line itself with a mark below the place.

Use: tools/place.py FILE PLACE

PLACE is the number of bytes before the fault, as in `megalog: rules BadClause at 18`. Lines and columns count from 1, a
column for each byte.
"""
import sys


def main():
    if len(sys.argv) != 3 or not sys.argv[2].isdecimal():
        print(__doc__.strip())
        return 2
    name, place = sys.argv[1], int(sys.argv[2])
    with open(name, 'rb') as file:
        text = file.read()
    if place > len(text):
        print(f'{name} has {len(text)} bytes, so no place {place}')
        return 1
    begin = text.rfind(b'\n', 0, place) + 1
    end = text.find(b'\n', place)
    line = text[begin : end if end >= 0 else len(text)].decode('latin-1')
    front = ''.join('\t' if it == '\t' else ' ' for it in line[: place - begin])
    print(f'{name}:{text.count(chr(10).encode(), 0, begin) + 1}:{place - begin + 1}')
    print(line)
    print(f'{front}^')
    return 0


sys.exit(main())
