"""Cases of change request 7 for tests/definitions: the layout of tables, each clause just kept and just broken, moves and walks; each with
what the second translator answers. A layout is compared by an empty walk, which is refused exactly where it is broken."""
import glob, os, sys

from theorems import ROOT, data, lists

MOST = 2 ** 32 - 1
NULL, UNDEF = 0xfe, 0xff


def location(statement, fault, pointers, successors):
    k = len(successors)
    return [0x4c, statement, fault] + ([0] * 29 if fault else [k] + pointers + successors + [0] * (22 - k))


def edge(source, target, first, second, updates, branch=0):
    """Guards are a test (0 none, 1 for = 1, 2 for >= 2) and a node."""
    bits = branch + 2 * second[0] + 8 * second[1]
    words = [b for u in (updates + [0] * 12)[:12] for b in (u % 256, u // 256)]
    return [0x45, bits, source, 0, target, 0, *first, *words]


NONE = (0, 0)
KEPT = [0x1000 | 1 << i for i in range(12)]  # each old counter to its own node
# two nodes; twelve; a fault; no node
LOCATIONS = [
    location(0, 0, [0, 1, NULL, UNDEF, 0, 1], [1, NULL]),
    location(63, 0, [0, 1, 2, 3, 4, 5], [*range(1, 12), UNDEF]),
    location(5, 3, [], []),
    location(7, 0, [NULL] * 5 + [UNDEF], [])]
EDGES = [
    edge(0, 0, (2, 0), (1, 1), [0x0001, 0x2002]),  # one from the first counter to the second
    edge(0, 1, NONE, NONE, [0x1001, 0x1002] + [0x2000] * 10, branch=1),
    edge(1, 0, NONE, (2, 11), [0x17ff, 0x0800]),  # the first eleven added up
    edge(0, 2, NONE, NONE, []),
    edge(2, 3, NONE, NONE, []),
    edge(1, 1, NONE, NONE, KEPT),
    edge(0, 0, (1, 0), (2, 0), [0x0001, 0x1002]),  # guards that exclude each other
    edge(0, 0, NONE, NONE, [0x0003, 0x2000]),  # both added up, less one
    edge(0, 0, (2, 0), NONE, [0x1001, 0x2002]),  # one more at the second
    edge(3, 3, NONE, NONE, [])]
L, E = 0, 1

# What is changed in the tables above, as table, record, byte and value, each with whether the layout is broken then.
CHANGES = [
    ('nothing', [], 0),
    ('kind of a location', [(L, 0, 0, 0x45)], 1), ('statement 64', [(L, 1, 1, 64)], 1),
    ('fault 4', [(L, 2, 2, 4)], 1), ('fault 1', [(L, 2, 2, 1)], 0),
    ('node count at a fault', [(L, 2, 3, 1)], 1), ('last byte at a fault', [(L, 2, 31, 1)], 1),
    ('thirteen nodes', [(L, 1, 3, 13)], 1),
    ('pointer at the last node', [(L, 0, 4, 1)], 0), ('pointer past it', [(L, 0, 4, 2)], 1),
    ('pointer not in use', [(L, 0, 9, 0xfd)], 1), ('pointer undefined', [(L, 0, 9, UNDEF)], 0),
    ('successor at itself', [(L, 0, 11, 1)], 0), ('successor past the last node', [(L, 0, 11, 2)], 1),
    ('successor of an absent node', [(L, 0, 12, 1)], 1), ('twelfth successor', [(L, 1, 21, 12)], 1),
    ('byte after twelve successors', [(L, 1, 22, 1)], 1), ('last byte of a location', [(L, 3, 31, NULL)], 1),
    ('kind of an edge', [(E, 0, 0, 0x4c)], 1), ('branch 1', [(E, 0, 1, 0x0b)], 0), ('bit 7', [(E, 0, 1, 0x8a)], 1),
    ('second guard 3', [(E, 3, 1, 6)], 1), ('second guard 2', [(E, 1, 1, 4)], 0), ('second guard on a fault', [(E, 4, 1, 2)], 1),
    ('node of no second guard', [(E, 3, 1, 8)], 1), ('first guard 3', [(E, 3, 6, 3)], 1), ('first guard 2', [(E, 3, 6, 2)], 0),
    ('node of no first guard', [(E, 3, 7, 1)], 1),
    ('first guard past the nodes', [(E, 8, 7, 2)], 1), ('first guard at the last', [(E, 8, 7, 1)], 0),
    ('second guard past two nodes', [(E, 0, 1, 0x12)], 1), ('second guard past twelve', [(E, 2, 1, 0x64)], 1),
    ('source past the count', [(E, 9, 2, 4)], 1), ('source the last', [(E, 3, 2, 3)], 0), ('source far past', [(E, 9, 3, 1)], 1),
    ('target past the count', [(E, 9, 4, 4)], 1), ('target the last', [(E, 3, 4, 3)], 0), ('target far past', [(E, 9, 5, 1)], 1),
    ('constant 3', [(E, 1, 31, 0x30)], 1), ('bit 14', [(E, 1, 31, 0x60)], 1), ('bit 15', [(E, 1, 31, 0xa0)], 1),
    ('update of an absent node', [(E, 0, 12, 1)], 1), ('last entry of absent nodes', [(E, 0, 31, 0x10)], 1),
    ('update at a fault', [(E, 3, 9, 0x10)], 1),
    ('third counter of two', [(E, 0, 10, 6)], 1), ('second counter of two', [(E, 7, 8, 2), (E, 7, 9, 0x10)], 0),
    ('counter of a fault', [(E, 4, 8, 1)], 1), ('one counter twice', [(E, 0, 10, 3)], 1),
    ('last counter twice', [(E, 5, 9, 0x18)], 1), ('one of twelve left out', [(E, 2, 9, 0x13)], 0),
    ('c - 1 without a guard', [(E, 0, 6, 0)], 1), ('c - 1 where it is 1', [(E, 0, 6, 1)], 1),
    ('c - 1 with the guard at another', [(E, 0, 1, 0), (E, 0, 7, 1)], 1),
    ('c - 1 where the second guard is = 1', [(E, 2, 1, 0x5a)], 1),
    ('c - 1 where guards do not exclude each other', [(E, 6, 1, 0)], 1), ('c - 1 with two guards the same', [(E, 6, 6, 2)], 0),
    ('c + d - 1', [(E, 7, 6, 0)], 0), ('constant 0 alone', [(E, 7, 11, 0x10)], 1), ('constant -1 alone', [(E, 7, 11, 0)], 1),
    ('constant 1 alone', [(E, 1, 9, 0x20), (E, 1, 8, 0)], 0)]


def tables(changes):
    made = [[bytearray(r) for r in LOCATIONS], [bytearray(r) for r in EDGES]]
    for table, record, byte, value in changes:
        made[table][record][byte] = value
    return [b''.join(map(bytes, t)) for t in made]


class Walks:
    """Cases, with the answers of the second translator."""

    def __init__(self, reference):
        self.reference = reference

    def walk(self, ts, counts, at, cs, path):
        """Refusal, made and location; counters."""
        text = 'locations %s\nedges %s\ncounts %d %d\n' % (*(t.hex() for t in ts), *counts)
        text += 'location %d\ncounters %s\npath %s\n' % (at, ' '.join(map(str, cs)), ' '.join(map(str, path)))
        rows = {r.split()[0]: [int(x) for x in r.split()[1:]] for r in self.reference('walk', text.encode()).strip().split('\n')}
        return [rows.get('refused', [0])[0], *rows['made'], *rows['location']], rows['counters']

    def tables_call(self, ts, counts):
        return '(%s) (%s) %d %d' % (*map(data, ts), *counts)

    def layout(self, ts, counts, at, cs):
        """Whether the layout is broken: what an empty walk from a configuration of a sound location says."""
        told = self.walk(ts, counts, at, cs, [])[0][0]
        return told, 'layout_of ' + self.tables_call(ts, counts), lists([[int(not told)]])

    def case(self, ts, counts, at, cs, path):
        """A walk, and where it is one edge the single move as well."""
        numbers, after = self.walk(ts, counts, at, cs, path)
        inner = '%s %d (%s) (%s)' % (self.tables_call(ts, counts), at, spelled(cs), spelled(path))
        yield 'walked_by ' + inner, lists([numbers, after])
        if len(path) == 1:
            inner = '%s %d (%s) %d' % (self.tables_call(ts, counts), at, spelled(cs), path[0])
            yield 'moved_by ' + inner, lists([[numbers[0], numbers[2]], after])


def spelled(xs):
    """Many equal numbers are not spelled out."""
    if len(xs) > 99:
        return 'replicate %d %d' % (len(xs), xs[0])
    return ''.join('%d ∷ ' % x for x in xs) + '[]'


def filled(cs):
    return cs + [0] * (12 - len(cs))


def layout_cases(walks):
    for name, changes, broken in CHANGES:
        told, call, expected = walks.layout(tables(changes), (4, 10), 3, [0] * 12)
        if (told, bool(told)) != (20 * broken, bool(broken)):
            sys.exit('tables with %s: %d is told' % (name, told))
        yield 'layout: ' + name, call, expected
    ts = tables([])
    longer = [t + bytes([7] * 31) for t in ts]
    # counts at the places and past them; an end past a smaller count; records past the counts are not looked at
    for name, ts, counts, broken in (
            ('fifth location', longer, (5, 10), 1), ('eleventh edge', longer, (4, 11), 1), ('odd bytes after', longer, (4, 10), 0),
            ('no location', ts, (0, 0), None), ('one location', ts, (1, 0), 0), ('edges past the count', ts, (4, 2), 0),
            ('last location left out', ts, (3, 4), 0), ('and an edge to it', ts, (3, 5), 1),
            ('damage past the counts', tables([(L, 3, 0, 9), (E, 4, 0, 9)]), (3, 4), 0), ('far past', ts, (4, 2 ** 63), 1)):
        if broken is None:
            yield 'layout: ' + name, 'layout_of ' + walks.tables_call(ts, counts), lists([[1]])
            continue
        told, call, expected = walks.layout(ts, counts, 0, filled([1, 1]))
        if told != 20 * broken:
            sys.exit('tables with %s: %d is told' % (name, told))
        yield 'layout: ' + name, call, expected


def move_cases(walks):
    ts = tables([])
    two, sums = filled([2, 1]), filled([MOST - 10] + [1] * 10 + [2])
    met = {0: 0, 20: 0, 21: 0}
    for at, cs, path in (
            # configurations, in an empty walk
            (0, two, []), (0, filled([0, 1]), []), (0, filled([1]), []), (0, filled([1, 1, 1]), []), (0, [1, 1] + [0] * 9 + [1], []),
            (1, [1] * 12, []), (1, [1] * 11 + [0], []), (2, [0] * 12, []), (2, filled([1]), []), (3, [0] * 12, []), (4, two, []),
            (MOST, two, []), (1, [MOST] * 12, []),
            # single moves: guards, edges that leave another location or are not there
            (0, two, [0]), (0, filled([1, 1]), [0]), (0, filled([2, 2]), [0]), (0, two, [1]), (0, two, [2]), (0, two, [3]), (0, two, [6]),
            (0, filled([1, 1]), [6]), (0, two, [10]), (0, two, [MOST]), (2, [0] * 12, [4]), (3, [0] * 12, [9]), (0, filled([0, 1]), [3]),
            (1, [1] * 12, [2]), (1, [1] * 11 + [2], [2]), (1, list(range(1, 13)), [5]), (1, [MOST] * 12, [5]), (4, two, [0]),
            # 32 bits, and 20 before 21
            (0, filled([2, MOST]), [8]), (0, filled([2, MOST - 1]), [8]), (0, filled([1, MOST]), [8]), (0, filled([MOST, 1]), [7]),
            (0, filled([MOST, 2]), [7]), (0, filled([MOST, MOST]), [7]), (1, sums, [2]), (1, [MOST - 9] + sums[1:], [2]),
            (1, [MOST] * 12, [2]), (1, [MOST] * 11 + [1], [2]), (0, filled([MOST, MOST]), [1]), (0, filled([MOST, 1]), [0]),
            # walks, whole and up to a refusal
            (0, two, [8, 1]), (0, two, [0, 8]), (0, filled([3, 1]), [0, 1, 5]), (0, filled([9, 8]), [7, 7, 8, 1]), (0, two, [1, 2]),
            (0, two, [3, 4, 9, 9, 9]), (0, two, [8, 8, 3, 4, 9]), (0, two, [8, 3, 8, 4]), (0, filled([2, MOST - 2]), [8, 8, 8, 3]),
            (0, filled([5, 1]), [8, 10]), (0, filled([2, MOST - 1]), [8, 1, 5, 5, 2]), (1, list(range(1, 13)), [5, 2, 7, 8, 3]),
            # the longest walk, which is refused at its first move, and one more
            (0, filled([2, MOST]), [8] * 4096), (0, filled([2, MOST]), [8] * 4097), (0, two, [8] * 4097)):
        for call, expected in walks.case(ts, (4, 10), at, cs, path):
            met[int(expected[1:].split()[0])] += 1
            yield 'walk from %d, %s, along %s' % (at, cs[:2], path[:5]), call, expected
    # tables that break the layout far from the walk
    broken = tables([(E, 9, 5, 1)])
    for path in ([], [8], [8, 1]):
        for call, expected in walks.case(broken, (4, 10), 0, two, path):
            yield 'broken tables along %s' % path, call, expected
    if min(met.values()) < 10:
        sys.exit('too few moves or walks of a kind: %s' % met)


def listings():
    """The tables of small accepted cases."""
    for f in sorted(glob.glob(os.path.join(ROOT, 'tests', 'cases', '*.out'))):
        rows = open(f).read().split()
        if len(rows) <= 64 and sum(r.startswith('45') for r in rows) >= 4:
            yield [b''.join(bytes.fromhex(r) for r in rows if r.startswith(kind)) for kind in ('4c', '45')]


def random_walk(rng, walks, ts, counts):
    """A start at any location that an edge leaves, and up to five edges, most of which can be taken one after the other."""
    sources = [ts[1][i + 2] + 256 * ts[1][i + 3] for i in range(0, len(ts[1]), 32)]
    at = rng.choice(sources)
    cs = filled([rng.choice([1, 2, 2, 3, MOST - 1, MOST]) for _ in range(ts[0][32 * at + 3])])
    path, now, want = [], (at, cs), rng.randrange(1, 6)
    while len(path) < want:
        leaving = [n for n, source in enumerate(sources) if source == now[0]]
        taken = [(n, w) for n in rng.sample(leaving, len(leaving)) for w in [walks.walk(ts, counts, *now, [n])] if not w[0][0]]
        if not taken or rng.random() < 0.05:
            return at, cs, path + [rng.randrange(counts[1] + 1)]
        path.append(taken[0][0])
        now = (taken[0][1][0][2], taken[0][1][1])
    return at, cs, path


def random_walks(rng, walks, count):
    """Walks in the tables of small cases, and in these with a byte changed."""
    known, met = list(listings()), {0: 0, 20: 0, 21: 0}
    for i in range(count):
        ts = rng.choice(known)
        counts = [len(t) // 32 for t in ts]
        at, cs, path = random_walk(rng, walks, ts, counts)
        for call, expected in walks.case(ts, counts, at, cs, path):
            met[int(expected[1:].split()[0])] += 1
            yield 'walk %d' % i, call, expected
        damaged = [bytearray(t) for t in ts]
        t = rng.choice(damaged)
        t[rng.randrange(len(t))] = rng.choice([0, 1, 2, 3, 0x10, 0x20, 0x40, 0x80, rng.randrange(256), NULL, UNDEF])
        for call, expected in walks.case([bytes(t) for t in damaged], counts, at, cs, path[:2]):
            yield 'damaged %d' % i, call, expected
    if count >= 20 and min(met[0], met[20]) < count // 4:
        sys.exit('too few random walks of a kind: %s' % met)


def walk_cases(rng, reference, count):
    walks = Walks(reference)
    yield from layout_cases(walks)
    yield from move_cases(walks)
    yield from random_walks(rng, walks, count)
