"""What the tools know of this repository: its crates, their spec files in reading order, and the definitions in these.

Not run by itself: the other tools import it.
"""
import os
import re

TOP = os.path.dirname(os.path.dirname(os.path.abspath(__file__)))

IMPORT = re.compile(r'\s*(?:pub\s+|ghost\s+)*use\s')
# a definition, in a group of its own `data` or `record`, and its name; the fields and constructors of these are no definitions
DEFINED = re.compile(r'\s*(?:(?:abbrev|unfoldable|opaque|inductive|mutual)\s+)*pub\s+(?:(data|record)\s+)?(?:the\s+)?(?!mod\s|use\s)([^\s:({]+)')
MODULE = re.compile(r'pub mod (\w+)')
CITED = re.compile(r'(?m)^\s*(?:pub\s+|ghost\s+)*use\s+Rattle\.(\w+)\.specs\.([\w.]+)')
MUTUAL = re.compile(r'\s*(abbrev\s+|unfoldable\s+)?mutual\s*$')


def lines_of(path):
    with open(path, encoding='utf-8') as text:
        return text.read().split('\n')


def files_under(folder, ending):
    """The files of a folder and of those in it, in the order of their names."""
    for at, folders, names in os.walk(folder):
        folders.sort()
        for name in sorted(names):
            if name.endswith(ending):
                yield os.path.join(at, name)


def crates():
    """The crates with those that each stands on, in the order of crates.txt."""
    found = {}
    for line in lines_of(f'{TOP}/crates.txt'):
        words = line.split('#')[0].split(':')
        if len(words) == 2:
            found[words[0].split()[0]] = words[1].split()
    return found


def modules(crate):
    """The spec files of a crate by their names, as `Tree` or `inside/Parser`, in the order in which Lib.antt lists them."""
    specs = f'{TOP}/crates/{crate}/specs'

    def below(listing, folder):
        for line in lines_of(listing):
            found = MODULE.match(line)
            if found:
                name = folder + found.group(1)
                yield name, f'{specs}/{name}.antt'
                yield from below(f'{specs}/{name}.antt', f'{name}/')

    return dict(below(f'{specs}/Lib.antt', '')) if os.path.isfile(f'{specs}/Lib.antt') else {}


def cited_in(path, known):
    """The spec files that a file imports from, of those that are known by crate and name."""
    with open(path, encoding='utf-8') as text:
        for crate, words in CITED.findall(text.read()):
            parts = words.rstrip('.').split('.')
            names = ['/'.join(parts[:n]) for n in range(len(parts), 0, -1)]
            yield from [(crate, name) for name in names if (crate, name) in known][:1]


def sentence(words):
    """A comment's lines as a sentence: a capital letter and a stop, where they lack."""
    text = words[0]
    for word in words[1:]:
        # a line that explains one parameter, behind one that ends without a stop
        explains = re.match(r'[a-z]\w?: ', word) and not re.search(r'[.;:,]$', text)
        text += ('; ' if explains else ' ') + word
    if re.match(r'[a-z]', text) and not re.match(r'(xs|ys|x|y) ', text):
        text = text[0].upper() + text[1:]
    return text if text.endswith(('.', ':', '?')) else text + '.'


def definitions(path):
    """A spec file's head, and its definitions: each with its line, its name and its sentence, '' where none stands before it.

    Of definitions by one another the first has the sentence; the others, which do the same over arguments, say `None`.
    """
    lines = lines_of(path)
    head, comment, found, owner, in_mutual = [], [], [], None, None
    at = 0
    while at < len(lines) and lines[at].startswith('--'):
        head.append(lines[at].lstrip('-').strip())
        at += 1
    # a file whose first line is already a definition's sentence has no head
    if at < len(lines) and DEFINED.match(lines[at]):
        head, at = [], 0
    for number, line in enumerate(lines[at:], at + 1):
        text, indent = line.strip(), len(line) - len(line.lstrip())
        if text.startswith('--'):
            comment.append(text.lstrip('-').strip())
            continue
        if text and owner is not None and indent <= owner:
            owner = None
        if text and in_mutual is not None and indent <= in_mutual[0]:
            in_mutual = None
        match = DEFINED.match(line)
        if match and owner is None:
            follows = in_mutual is not None and in_mutual[1]
            found.append((number, match.group(2), sentence(comment) if comment else None if follows else ''))
            if in_mutual is not None:
                in_mutual = (in_mutual[0], True)
            if match.group(1):
                owner = indent
        if MUTUAL.match(line):
            # a comment before the word is the sentence of the first
            in_mutual = (indent, False)
        else:
            comment = []
    return sentence(head) if head else '', found
