#!/usr/bin/env python3
"""Turns a crate's Proof.antt files, which list the answers of a walk, into Invariants.antt and Answers.antt.

usage: tools/answers.py CRATE [FUNCTION..]     at the top of the repository, once the crates below are proved

A file that goes through the code by hand is left as it is. Answers that only search are dropped, since the check looks by itself. What the
check made of the old names is read from `rt check --generated .. --old-names`; the names that the older files had, from the commit before
the port. It goes by text: rt check decides.
"""
import glob
import json
import os
import re
import subprocess
import sys
import tempfile

BEFORE = '800176d745a78893a978ddc0cabccb90cbca330b'


def norm(name):
    return name.replace('-', '_')


def made(crate):
    with tempfile.TemporaryDirectory() as d:
        subprocess.run(['rt', 'check', '--generated', d + '/n', '--old-names'], cwd='crates/' + crate, stdout=subprocess.DEVNULL, stderr=subprocess.DEVNULL)
        found = glob.glob(d + '/n/**/names.json', recursive=True)
        out = {}
        for f in found:
            out.update(json.load(open(f)))
        return out


def items(text):
    """The file's declarations: (kind, name, text)."""
    out, comment = [], []
    for line in text.split('\n'):
        if not line.strip() or line.startswith('--'):
            if line.startswith('--'):
                comment.append(line)
            elif comment:
                comment.append(line)
            continue
        if line[0] in ' )' or line.startswith('unfolding '):
            out[-1][2].append(line)
            continue
        m = re.match(r"(?:pub |abbrev |unfoldable |opaque )*([^\s:]+)", line)
        name = m.group(1)
        if name in ('use', 'module', 'record', 'data'):
            out.append([name, line, comment + [line]])
        elif out and out[-1][1] == name and out[-1][0] == 'decl' and not comment:
            out[-1][2].append(line)
        else:
            out.append(['decl', name, comment + [line]])
        comment = []
    return out


def needs_of(old_text):
    """For each name that the older file answers by: the old name of the goal."""
    out = {}
    for m in re.finditer(r"^([^\s:]+) : tie\.Need-([^\s]+)", old_text, re.M):
        out[m.group(1)] = m.group(2)
    return out


def arguments(spec):
    """The arguments of tie.spec, as text."""
    i = spec.index('tie.spec') + len('tie.spec')
    depth, out, cur = 0, [], ''
    for ch in spec[i:]:
        if ch == '(':
            depth += 1
        if ch == ')':
            depth -= 1
            if depth < 0:
                break
        if depth == 0 and ch in ' \n':
            if cur.strip():
                out.append(cur.strip())
            cur = ''
            continue
        cur += ch
    if cur.strip():
        out.append(cur.strip())
    return out


class Names:
    def __init__(self, entry, crate, fn):
        self.crate, self.fn = crate, fn
        self.places = {norm(p[0]): n for p, n in zip(entry['places'], entry['places_by_name'])}
        self.needs = {norm(a): b for a, b in entry['needs']}
        self.order = [b for _, b in entry['needs']]
        self.settled = set(entry['settled'])
        self.loops = {norm(l[0][0]): (l[0][1], l[1], c) for l, c in zip(entry['loops'], entry['changed'])}
        self.vars = {l[0][1]: l[1] for l in entry['loops']}
        self.steps = {}
        self.doubt = set()
        self.typed = {}
        self.params, self.callees = {}, {}
        for (_, _, (a, b), callee, _), t in zip(entry['places'], entry['typed']):
            if not a:
                continue
            if callee:
                self.callees[b] = callee
            if callee in entry['params']:
                self.params[b] = entry['params'][callee]
            if norm(a) in self.steps and self.steps[norm(a)] != b:
                self.doubt.add(norm(a))
            self.steps.setdefault(norm(a), b)
            for var, step in t:
                if step:
                    self.typed.setdefault(norm(step), var)

    def chain(self, fields, prefix):
        """The new path of a chain of fields, after the path that its base stands for (None: no path of the walk's)."""
        out = list(prefix)
        for f in fields:
            if not out:
                if f == 'before':
                    continue
                if f == 'pre':
                    f = 'requires'
                n = norm(f)
                if re.match(r'(shared_)?slice_known', n) and n in self.typed:
                    out += ['type_inv', self.typed[n]]
                    continue
                out.append(self.steps.get(n, f) if not (n in ('args', 'requires', 'ranges')) else f)
                continue
            # a clause by its name
            if out[-1] in ('ensures', 'requires') and f.isdigit() and len(out) <= 2:
                ns = self.clauses(out)
                if len(ns) > 1:
                    out.append(f)
                    continue
            if len(out) >= 2 and out[-1].isdigit():
                pass
            # a variable of that name, which the port took for a word of the check's
            if f == 'auto' and len(out) == 1 and 'kept' in self.vars.get(out[0], []):
                f = 'kept'
            if f == 'kept' and len(out) == 1 and out[0] in self.params:
                f = 'auto'
            if f == 'inv' and out[0] in self.vars:
                f = 'invariant'
            if f == 'last' and len(out) == 1 and out[0] in self.params:
                f = 'new'
            if out[0] == 'args':
                f = norm(f)
            if out[:1] == ['type_inv'] and f == 'given' and len(out) == 2:
                continue
            # what a call left in a lent argument, by its name
            if len(out) >= 2 and out[0] in self.params and out[1] in ('new', 'auto') and f.isdigit():
                out.append(f)
                tail = out[2:]
                if tail[-1] == '0':
                    i = len(tail) - 1
                    ps = self.params[out[0]]
                    if i < len(ps):
                        out[2:] = [ps[i]]
                continue
            out.append(f)
        for i, f in enumerate(out[:-1]):
            if f in ('ensures', 'requires') and i <= 1 and out[i + 1].isdigit():
                ns = self.clauses(out[:i + 1])
                if len(ns) > 1:
                    tail, j = out[i + 1:], 0
                    while j < len(ns) - 2 and j < len(tail) and tail[j] == '1':
                        j += 1
                    if j < len(tail) and tail[j] in ('0', '1'):
                        n = j + int(tail[j])
                        if tail[j] == '0' or j == len(ns) - 2:
                            out[i + 1:] = [ns[n]] + tail[j + 1:]
                break
        return out

    def clauses(self, path):
        """The names of the clauses that a path ends at."""
        if path == ['requires']:
            return clause_names(self.crate, self.fn, 'requires')
        if len(path) == 2 and path[1] == 'ensures' and path[0] in self.callees:
            crate, fn = self.callees[path[0]].split('::')[0], self.callees[path[0]].split('::')[-1]
            return clause_names(crate, fn, 'ensures')
        return []

    def body(self, text, root='c'):
        alias = {root: []}
        spot = re.compile(r"(?<![\w.'])(let )?(?:([A-Za-z][\w'₀₁₂₃₄₅₆₇₈₉]*) = )?([A-Za-z][\w'₀₁₂₃₄₅₆₇₈₉]*)((?:\.(?:[a-z][\w]*(?:-[\w]+)*|\d+))*)(?= in\b)?(?![\w'])")

        def one(m):
            let, to, base, fields = m.group(1), m.group(2), m.group(3), m.group(4)
            fs = [f for f in fields.split('.') if f]
            head = (let or '') + (to + ' = ' if to else '')
            if base not in alias:
                return m.group(0)
            new = self.chain(fs, alias[base])
            if let and to and text[m.end():m.end() + 3] == ' in':
                alias[to] = new
            shown = new[len(alias[base]):] if new[:len(alias[base])] == alias[base] else None
            if shown is None:
                return head + '.'.join([root] + new)
            return head + '.'.join([base] + shown)
        # which case a value is, is a fact of the arm
        text = re.sub(r"(?:let (\w+) = [^\n]*\.given\.0 in\s+)?let (\w+) : \w+(?:\.\w+)*\.args\.\w+(?:\.now)? ≡ \w+\.(\w+)(?: \1[.\d]*)* =\s+search rules in", lambda m: f"let {m.group(2)} = c.in-{m.group(3)}.is in", text)
        text = spot.sub(one, text)
        # a test of !x says of x what it says
        return re.sub(r"\(?\bnot-(?:true|false) _ ((?:\w+)(?:\.[\w-]+)+)\)?", lambda m: m.group(1) if m.group(0).startswith('(') == m.group(0).endswith(')') else m.group(0).replace(re.match(r"\(?not-(?:true|false) _ ", m.group(0)).group(0).lstrip('('), ''), text)


def clause_names(crate, fn, kind):
    """The names of a function's clauses of a kind, where it has several."""
    for f in glob.glob(f'crates/{crate}/src/**/*.rt', recursive=True):
        m = re.search(r'\bfn ' + re.escape(fn.split('.')[-1]) + r'\b(.*?)\n\{', open(f).read(), re.S)
        if m:
            return re.findall(r'^\s+' + kind + r' ([a-z_]+) \{', m.group(1), re.M)
    return []


def by_name(text, names):
    """A pair at the end as a record with the clauses' names."""
    s = text.rstrip()
    if not s.endswith(')'):
        return text
    depth, i = 0, len(s) - 1
    cuts = []
    while i >= 0:
        if s[i] in ')}]':
            depth += 1
        if s[i] in '({[':
            depth -= 1
        if s[i] == ',' and depth == 1:
            cuts.append(i)
        if depth == 0:
            break
        i -= 1
    if not re.search(r'(=|\bin|\brw (?:\w+|\([^()]*(\([^()]*\)[^()]*)*\)))\s*$', s[:i]):
        return text
    cuts = [i] + cuts[::-1] + [len(s) - 1]
    parts = [s[a + 1:b].strip() for a, b in zip(cuts, cuts[1:])]
    parts = [x for x in parts if x]
    if len(parts) != len(names):
        return text
    return s[:i] + 'record { ' + '; '.join(f'{n} = {x}' for n, x in zip(names, parts)) + ' }'


def turn(crate, fn, path, entry):
    text = open(path).read()
    if 'tie.spec' not in text:
        return f'{path}: goes by hand'
    old = subprocess.run(['git', 'show', f'{BEFORE}:{path}'], capture_output=True, text=True).stdout
    old_needs = needs_of(old)
    new_needs = needs_of(text)
    names = Names(entry, crate, fn)
    its = items(text)
    said = []
    head = []
    invs, answers, uses, made_up = [], [], [], {}
    t = '\n'.join(its[0][2])
    for kind, name, lines in its:
        body = '\n'.join(lines)
        if kind == 'use':
            if not head:
                head = [l for l in lines if l.startswith('--')]
            l = [x for x in lines if not x.startswith('--')]
            if re.search(r'\.(Statement|Tie)\b', l[0]):
                continue
            uses.append('\n'.join(l))
            continue
        if kind == 'decl' and re.search(r':\s+tie\.(invariant|decreases)-', body):
            m = re.search(r':\s+tie\.(invariant|decreases)-([^\s]+)', body)
            loop = names.loops.get(norm(m.group(2)))
            if not loop:
                said.append(f'{path}: no loop {m.group(2)}')
                continue
            to, vs, changed = loop
            word = f'{m.group(1)}-{to}'
            rest = body[body.index('\n', m.end()) + 1:]
            mm = re.match(re.escape(name) + r'((?: [^\s=]+)*) =', rest)
            args = mm.group(1).split()
            fields = {}
            now = [v for v, c in zip(vs, changed) if c]
            for i, a in enumerate(args):
                if i < len(vs):
                    fields[a] = ('l.initial.' if changed[i] else 'l.') + vs[i]
                else:
                    fields[a] = 'l.' + now[i - len(vs)]
            rhs = rest[mm.end():]
            rhs = re.sub(r"(?<![\w.'-])[\w'₀₁₂₃₄₅₆₇₈₉]+(?![\w'₀₁₂₃₄₅₆₇₈₉-])(?! = )", lambda q: fields.get(q.group(0), q.group(0)), rhs)
            cs = [l for l in lines if l.startswith('--')]
            invs.append('\n'.join(cs + [f'abbrev pub {word} : goal.{word}', f'{word} l ={rhs}']))
            made_up[name] = word
            continue
        if kind == 'decl' and 'tie.close' in body:
            spec = body
            continue
        m = re.search(r':\s+tie\.Need-(\S+)', body) if kind == 'decl' else None
        if m:
            was = old_needs.get(name)
            if was is None:
                # the port turned the answer's own name too
                for n, w in old_needs.items():
                    if norm(n) == norm(name):
                        was = w
            was = norm(was or m.group(1))
            was = re.sub(r'^loop(\w*)_again$', r'loop\1_preserved', was)
            cands = [was, norm(m.group(1))]
            to = next((names.needs[x] for x in cands if x in names.needs), None)
            made_up[name] = to
            answers.append([name, to, body, m.group(1)])
            continue
        answers.append([None, None, body, None])
    # a lemma over what the paths of several goals share
    shares, imported = {}, []
    for item in answers:
        if item[0] is None:
            m = re.match(r"(?:--[^\n]*\n)*(?:pub |abbrev )*([^\s:]+) :", item[2])
            m2 = re.search(r"(?:\((\w+) : )?tie\.([^\s)]+)(?: (?:invariant|decreases)-[^\s)]+)*(?(1)\))", item[2])
            if m and m2:
                place = names.places.get(norm(m2.group(2)))
                if place is None:
                    said.append(f'{path}: no place {m2.group(2)}: {sorted(names.places.values())}')
                    continue
                shares[m.group(1)] = place
                imported.append(place)
                item[2] = item[2].replace(m2.group(0), f'({m2.group(1)} : {place})' if m2.group(1) else place)
                root = m2.group(1)
                if not root:
                    mm = re.search(r"^" + re.escape(m.group(1)) + r" (\w+)", item[2][m.end():], re.M)
                    root = mm.group(1) if mm else 'c'
                item.append(root)

    # what the invariants speak of stands with them
    moved, named = [], []
    todo = '\n'.join(invs)
    again = True
    while again:
        again = False
        for item in answers:
            if item[0] is not None or item in moved:
                continue
            m = re.match(r"(?:--[^\n]*\n)*(?:pub |abbrev )*(?:record |data )?([^\s:(]+)", item[2])
            if m and re.search(r"(?<![\w.'-])" + re.escape(m.group(1)) + r"(?![\w'-])", todo):
                moved.append(item)
                named.append(m.group(1))
                todo += '\n' + item[2]
                again = True
    answers = [a for a in answers if a not in moved]
    if moved:
        order = [i for i in its if any('\n'.join(i[2]) == m[2] for m in moved)]
        pub = []
        for _, _, lines in order:
            b = '\n'.join(lines)
            if re.search(r'^(pub )?record ', b, re.M):
                b = re.sub(r'^  (?=[a-z]\w* :)', '  pub ', b, flags=re.M)
            b = re.sub(r'^(?!--|pub |abbrev pub )(abbrev |unfoldable )?(?=(record |data )?[A-Za-z]\S* [:(])', lambda m: (m.group(1) or '') + 'pub ', b, count=1, flags=re.M)
            pub.append(b)
        invs = pub + invs
        uses_more = f'use Rattle.{crate}.proofs.{fn}.Invariants.{{{", ".join(named)}}}'
    else:
        uses_more = ''

    def shared(text, to):
        roots = ['c']
        for to_, of in re.findall(r"\blet (\w+) = (\w+) in\b", text):
            if of in roots:
                roots.append(to_)
        for h, place in shares.items():
            if not to:
                continue
            by = f'(goal.at.{to} c).{place}'
            text = re.sub(r"(?<![\w.'\n-])(?<!^)" + re.escape(h) + r"\s+(" + '|'.join(roots) + r")(?![\w.'])", lambda m: f'{h} {by}', text)
        return text
    args = arguments(spec)
    n_inv = 2 * len(names.loops)
    rest = args[n_inv:]
    # which goal stands where: by the named ones, and by the place where the numbers agree
    where = {}
    if len(rest) == len(names.order):
        where = dict(zip(range(len(rest)), names.order))
    out = []
    clauses_of = clause_names(crate, fn, 'ensures')
    for name, to, body, need, *root in answers:
        if name is None:
            out.append(shared(names.body(body, root[0] if root else 'c'), None))
            continue
        if to is None and name in rest and rest.index(name) in where:
            to = where[rest.index(name)]
        if to is None:
            said.append(f'{path}: {name} (Need-{need}) has no goal today: {[x for x in names.order]}')
            if norm(need) in {norm(x) for x in names.settled} or norm(re.sub('^overflow', '', need)) in {norm(x) for x in names.settled}:
                continue
            to = need
        cs = [l for l in body.split('\n') if l.startswith('--')]
        b = '\n'.join(l for l in body.split('\n') if not l.startswith('--'))
        first = re.match(r'.*?:\s+tie\.Need-\S+[^\n]*(?:\n(?!' + re.escape(name) + r'[ ]|unfolding )[^\n]*)*\n', b)
        if not first:
            said.append(f'{path}: {name} by hand')
            out.append(names.body(body))
            continue
        clauses = b[first.end():]
        clauses = re.sub(r'^' + re.escape(name) + r'(?=\s)', to, clauses, flags=re.M)
        clauses = shared(names.body(clauses), to)
        if to.startswith('returns') and len(clauses_of) > 1:
            clauses = by_name(clauses, clauses_of)
        m = re.match(r'(.*)-requires', to)
        if m:
            callee = next((v for k, v in names.callees.items() if k == m.group(1) or v.split('::')[-1] == m.group(1)), None)
            if callee:
                asked = clause_names(callee.split('::')[0], callee.split('::')[-1], 'requires')
                if len(asked) > 1:
                    clauses = by_name(clauses, asked)
        if clauses.count('κs') == 1:
            clauses = clauses.replace('λ κs. ', '', 1).replace(' κs', '', 1)
        out.append('\n'.join(cs + [f'pub {to} : goal.{to}', clauses]))
    for i, a in enumerate(rest):
        if a.startswith('(') and 'search rules' not in a or (a.startswith('(') and not re.fullmatch(r'\(λ [^.]*\. search rules\)', re.sub(r'\s+', ' ', a))):
            to = where.get(i)
            m = re.match(r'\(λ ([^.]*)\.\s*(.*)\)$', a, re.S)
            if not m:
                said.append(f'{path}: argument {i} by hand: {a[:100]}')
                continue
            if to is None:
                said.append(f'{path}: argument {i} of {len(rest)} (goals {len(names.order)}), by hand: {a[:160]}')
                to = f'goal_{i}'
            ps = m.group(1).strip()
            if ps.endswith(' κs') and 'κs' not in m.group(2):
                ps = ps[:-3]
            b = shared(names.body(' ' + m.group(2)), to).strip()
            out.append(f'pub {to} : goal.{to}\n{to} {ps} = {b}')
        elif a in made_up or a.startswith('('):
            pass
        else:
            said.append(f'{path}: argument {i} is {a}, goal {where.get(i)}')
    folder = os.path.dirname(path)
    use = '\n'.join(uses)
    use_here = use + ('\n' + uses_more if uses_more else '')
    if invs:
        title = head or []
        with open(folder + '/Invariants.antt', 'w') as f:
            f.write('\n'.join(title + [use, f'use Rattle.{crate}.proofs.{fn}.Given as goal', '', '\n\n'.join(invs), '']))
    if out:
        with open(folder + '/Answers.antt', 'w') as f:
            f.write('\n'.join(head + [use_here, f'use Rattle.{crate}.proofs.{fn}.Goals as goal'] + ([f'use Rattle.{crate}.proofs.{fn}.Goals.{{{", ".join(sorted(set(imported)))}}}'] if imported else []) + ['', '\n\n'.join(out), '']))
    os.remove(path)
    for d in sorted(names.doubt):
        if re.search(r'\.' + d.replace('_', '[-_]') + r'\b', text):
            said.append(f'{path}: {d} is more than one step')
    return '\n'.join(said)


def main(argv):
    crate, only = argv[0], argv[1:]
    js = made(crate)
    for path in sorted(glob.glob(f'crates/{crate}/proofs/**/Proof.antt', recursive=True)):
        fn = path[len(f'crates/{crate}/proofs/'):-len('/Proof.antt')]
        if only and fn not in only:
            continue
        key = f'Rattle-{crate}-proofs.' + fn.replace('/', '.') + '.Lts'
        if key not in js:
            print(f'{path}: no names ({key})')
            continue
        said = turn(crate, fn.replace('/', '.'), path, js[key])
        if said:
            print(said)


main(sys.argv[1:])
