#!/usr/bin/env python3
"""Brings the repository's own definitions and lemmas to one spelling: words in snake case.

usage: tools/spell.py          at the top of the repository: rewrites the .antt files, the clauses of the .rt files, and names in pages
       tools/spell.py --list   only prints what each name becomes, and which names would fall together

It ran once, right after the repository was brought to another Rattle. Functions, strings, inputs and outputs keep their names, types and
modules too; so does what the checker makes. Names that would fall together are told apart by the table APART.
"""
import collections
import glob
import re
import subprocess
import sys

CRATES = sorted(f.split('/')[1] for f in glob.glob('crates/*/src'))
OWN = re.compile(r'Rattle\.(' + '|'.join(CRATES) + r')\.(specs|proofs)\b')
TOKEN = re.compile(r"(?<![\w'.?◌-])[A-Za-zμ][\w'?]*(?:-[\w'?]+)*")
ANY = re.compile(r"[A-Za-zμ][\w'?]*(?:-[\w'?]+)*")
USE = re.compile(r'^\s*(?:pub )?(?:ghost )?use ([^\s{;]+?)(?:\.\{([^}]*)\})?(?: as ([\w-]+))?;?\s*$', re.M)
# names of the library that stand within names of ours
PARTS = [('getD', 'get_or')]
# a name that would be another's, and what it is called instead
APART = {
    'at-null': 'ends_at_null',
    'at-undef': 'ends_at_undef',
    'badKind': 'first_bad_kind',
    'badRecord': 'first_bad_record',
    'badLength': 'is_bad_length',
    'bad-record': 'bad_record',
    'bad-length': 'bad_length',
    'shapeIs': 'shape_is',
    'shape_is': 'shape_is_lem',
}
# a lemma that has a definition's name already, where it stands and is cited
APART_IN = {
    'no_node': ('no_node_lem', ['model/proofs/records/Checks', 'model/proofs/images/NodeAnswers', 'input/proofs/Shapes']),
}
PAGES = ['README.md', 'CONTRIBUTING.md', 'docs/*.md']


def snake(name):
    for old, new in PARTS:
        name = name.replace(old, new)
    parts = []
    for part in name.split('-'):
        # a type keeps its capital
        if re.match(r'[A-Z]', part):
            parts.append(part)
        else:
            parts.append(re.sub(r'(?<=[a-z0-9])([A-Z])', lambda m: '_' + m.group(1).lower(), part))
    return '_'.join(parts)


def code_and_comment(line, mark):
    """The line's code and its comment."""
    i = line.find(mark)
    while i > 0 and line[i - 1] not in ' \t':
        i = line.find(mark, i + 1)
    return (line, '') if i < 0 else (line[:i], line[i:])


def antt():
    return sorted(glob.glob('crates/*/specs/**/*.antt', recursive=True) + glob.glob('crates/*/proofs/**/*.antt', recursive=True))


def rt():
    return sorted(glob.glob('crates/*/src/**/*.rt', recursive=True))


def code(text, mark='--'):
    return '\n'.join(code_and_comment(l, mark)[0] for l in text.split('\n'))


def brought(text):
    """What a file brings in from elsewhere than the repository."""
    names = set()
    for module, items, _ in USE.findall(text):
        if not OWN.match(module):
            names |= set(ANY.findall(items or ''))
    return names


def walks(path):
    """Whether the file goes through a function's code: what it defines has the names of goals."""
    return path.endswith(('/Proof.antt', '/Answers.antt', '/Invariants.antt'))


DEFINED = re.compile(r"^(\s*)(?:pub |abbrev |unfoldable |opaque )*([a-zμ][\w'?]*(?:-[\w'?]+)*)(?: [({][^:]*:[^)}]*[)}])*\s+:(?=\s)", re.M)
LET = re.compile(r"\blet ([a-z][\w'?]*(?:-[\w'?]+)*)(?=\s*[:=])")


def names():
    camel, dashed, outside = set(), set(), set()
    for path in antt():
        with open(path) as f:
            text = code(f.read())
        outside |= brought(text)
        camel |= {t for t in ANY.findall(text) if re.match(r"[a-z]", t) and re.search(r'[a-z0-9][A-Z]', t)}
        found = {m.group(2) for m in DEFINED.finditer(text)} | set(LET.findall(text))
        if not walks(path):
            dashed |= {t for t in found if '-' in t}
        else:
            # a goal that is answered by its own name, `f = ..` with the type `tie.Need-f`, keeps it
            goals = {m.group(2) for m in DEFINED.finditer(text) if re.match(r'\s*(tie|goal)\.', text[m.end():m.end() + 40])}
            dashed |= {t for t in found if '-' in t and t not in goals and not t.endswith('-spec') and not t.startswith(('invariant-', 'decreases-'))}
    camel -= outside
    dashed -= outside
    dashed |= {n for n in APART if '-' not in n and n not in camel}
    return camel, dashed, outside


def standing():
    """Every name that stands in some file."""
    found = set()
    for path in antt():
        with open(path) as f:
            found |= set(ANY.findall(code(f.read())))
    return found


def table():
    camel, dashed, outside = names()
    there = standing()
    to = {n: APART.get(n, snake(n)) for n in camel}
    taken = set(to.values())
    for n in dashed:
        m = APART.get(n, snake(n))
        # a lemma that would have its function's name
        to[n] = m + '_lem' if n not in APART and (m in taken or m in there) else m
    return {n: m for n, m in to.items() if n != m}, outside


def respell(text, to, mark, skip):
    """The text with each name of ours in its new spelling; in comments, camel case anywhere and the rest within backticks."""
    def one(m):
        return to.get(m.group(0), m.group(0))

    def quoted(m):
        return ANY.sub(one, m.group(0))

    out = []
    for line in text.split('\n'):
        c, rest = code_and_comment(line, mark)
        c = skip(c, one)
        rest = re.sub(r'`[^`]*`', quoted, rest)
        rest = ANY.sub(lambda m: one(m) if re.search(r'[a-z0-9][A-Z]', m.group(0)) else m.group(0), rest)
        out.append(c + rest)
    return '\n'.join(out)


def in_antt(walk):
    def skip(c, one):
        def here(m):
            before = c[:m.start()]
            # a step or a field that the checker made: c.all-positive
            if walk and '-' in m.group(0) and before.endswith('.') and not before.endswith('..'):
                return m.group(0)
            return one(m)
        return ANY.sub(here, c)
    return skip


def in_rt(c, one):
    # Rust's own names have no dash and no inner capital
    parts = re.split(r'("(?:[^"\\]|\\.)*")', c)
    return ''.join(p if i % 2 else re.sub(r"[a-z][\w']*(?:-[\w'?]+)*", one, p) for i, p in enumerate(parts))


def together(to, outside):
    """Names that would fall together: in the whole repository, and with what a file brings in or has already."""
    back = collections.defaultdict(set)
    for n, m in to.items():
        back[m].add(n)
    bad = [f'{sorted(ns)} -> {m}' for m, ns in sorted(back.items()) if len(ns) > 1]
    for path in antt():
        with open(path) as f:
            text = code(f.read())
        here = set(ANY.findall(re.sub(r'^\s*(pub )?use Rattle[^{\n]*', '', text, flags=re.M)))
        for n in here & set(to):
            if to[n] in here and to[n] not in to:
                bad.append(f'{path}: {n} -> {to[n]}, which stands there')
    return bad


def tight(text):
    """A projection is written tight: (t .links) is t.links."""
    text = re.sub(r"(?<=[\w₀-₉')]) \.(?=[\w])", '.', text)
    return re.sub(r"(?<![\w'])\(([\w']+(?:\.[\w']+)+)\)", r'\1', text)


def main(argv):
    to, outside = table()
    bad = together(to, outside)
    if argv == ['--list']:
        for n in sorted(to):
            print(n, to[n])
        print('\n'.join(bad), file=sys.stderr)
        return 0
    if bad:
        print('\n'.join(bad))
        return 1
    for path in antt():
        with open(path) as f:
            text = f.read()
        here = dict(to)
        here.update({n: m for n, (m, places) in APART_IN.items() if path[len('crates/'):-len('.antt')] in places})
        new = respell(text, here, '--', in_antt(walks(path)))
        if new != text:
            with open(path, 'w') as f:
                f.write(new)
    for path in rt():
        with open(path) as f:
            text = f.read()
        new = respell(text, to, '//', in_rt)
        if new != text:
            with open(path, 'w') as f:
                f.write(new)
    there = standing()

    def paged(m):
        n = m.group(0)
        # a name that was turned before this script ran
        return to.get(n, snake(n) if re.match('[a-z]', n) and snake(n) in there else n)

    for pattern in PAGES:
        for path in glob.glob(pattern):
            with open(path) as f:
                text = f.read()
            new = re.sub(r'`[^`\n/]*`', lambda q: ANY.sub(paged, q.group(0)), text)
            if new != text:
                with open(path, 'w') as f:
                    f.write(new)
    for path in glob.glob('crates/*/must-fail/*.edit') + glob.glob('tests/wrong/*/*.edit'):
        with open(path) as f:
            text = f.read()
        file, out = '', []
        for line in text.split('\n'):
            if line.startswith('file: '):
                file = line[len('file: '):]
            if line.startswith(('old: ', 'new: ')) and file.endswith('.antt'):
                line = line[:5] + tight(ANY.sub(paged, line[5:]))
            out.append(line)
        if '\n'.join(out) != text:
            with open(path, 'w') as f:
                f.write('\n'.join(out))
    return 0


if __name__ == '__main__':
    raise SystemExit(main(sys.argv[1:]))
