"""Cases of change request 9 for tests/definitions: paths from counters within ranges, with what the second translator answers."""
import sys

from theorems import data, lists
from walk_cases import E, MOST, NULL, UNDEF, listings, spelled, tables

HIGHEST = 65535
NODES = 12


def laid(bounds):
    """The lowest values of twelve counters, then the highest, of pairs of these."""
    return [([b[end] for b in bounds] + [0] * NODES)[i] for end in (0, 1) for i in range(NODES)]


def ranges_case(reference, ts, counts, start, given, path):
    """The ranges stand as the definition has them; the second translator has them in pairs. What is told, the call and what is due."""
    number = lambda i: given[i] if i < len(given) else 0
    pairs = [number(i + end) for i in range(NODES) for end in (0, NODES)]
    text = 'locations %s\nedges %s\ncounts %d %d\nstart %d\n' % (*(t.hex() for t in ts), *counts, start)
    text += 'ranges %s\npath %s\n' % (' '.join(map(str, pairs)), ' '.join(map(str, path)))
    rows = {r.split()[0]: [int(x) for x in r.split()[1:]] for r in reference('ranges', text.encode()).strip().split('\n')}
    if 'refused' in rows:
        told, numbers, ranges = rows['refused'][0], rows['refused'] + [0, 0], [0] * 24
    elif 'ends' in rows:
        told, numbers, ranges = 'ends', [0, *rows['ends'], 0, 0], [0] * 24
    else:
        ends = rows.get('ranges', [])
        told, numbers, ranges = 'follows', [0, 0, 1, *rows['follows']], laid([*zip(ends[::2], ends[1::2])])
    call = 'ranged_by (%s) (%s) %d %d %d (%s) (%s)' % (*map(data, ts), *counts, start, spelled(given), spelled(path))
    return told, call, lists([numbers, ranges])


def fixed_cases():
    """Tables, start, ranges and path, on the tables of walk_cases."""
    ts, few, most = tables([]), [(1, 12), (1, 3)], [(1, HIGHEST)] * NODES
    wide = laid([(2, HIGHEST), (3, HIGHEST)])
    broken = tables([(E, 9, 5, 1)])
    # followed: along none, from and to a fault, with counters that are cut, added up and grow past 65,535
    for start, given, path in (
            (0, laid(few), []), (1, laid(most), []), (2, [], []), (2, [9] * 24, [4]), (3, [], [9, 9, 9]), (0, laid(few), [3]),
            (0, laid(few), [3, 4, 9]), (0, laid(few), [8]), (0, laid(few), [8, 8, 8]), (0, wide, [7]), (0, wide, [7, 7]), (0, wide, [8, 7, 8, 1]),
            (0, laid(few), [0]), (0, laid([(1, 1), (1, 3)]), [0]), (0, laid([(2, 9), (2, 3)]), [0]), (0, laid(few), [6]), (0, wide, [8, 6]),
            (1, laid(most), [2]), (1, laid(most), [5, 5, 2, 7]), (1, laid([(1, 1)] * NODES), [2]), (1, laid([(HIGHEST, HIGHEST)] * NODES), [2, 8, 7]),
            (0, wide, [1, 5, 2]), (0, laid(few), [1, 2]), (0, laid([(4, 4), (1, 1)]), [0, 0])):
        yield ts, start, given, path
    # 22: each end, and the first of several; numbers that are not there; numbers past the counters
    for wrong in ((0, 3), (0, 0), (1, 0), (3, 2), (1, HIGHEST + 1), (HIGHEST + 1, HIGHEST + 1), (MOST, MOST), (MOST, 1), (HIGHEST, 1)):
        yield ts, 0, laid([wrong, (1, 3)]), [8]
        yield ts, 0, laid([(1, 3), wrong]), []
        yield ts, 0, laid([(1, 3), (2, 3), wrong]), [8]
        yield ts, 1, laid([(1, 3)] * 5 + [wrong, (0, 0)]), [5]
    for length in (0, 1, 2, 12, 13, 14, 23):
        yield ts, 0, laid(few)[:length], [8]
        yield ts, 1, laid(most)[:length], []
        yield ts, 3, laid(few)[:length], [9]
    # 23 at its place, also before 22 and past an edge that none can take
    for given in (laid(few), laid([(0, 3), (1, 3)])):
        for path in ([10], [MOST], [2], [8, 2], [8, 8, 10], [6, 6, 2], [3, 8], [3, 4, 9, 8], [10] * 4096, [8] * 4097, [10] * 4097):
            yield ts, 0, given, path
        for start in (4, 5, 1024, MOST, 2 ** 63):
            yield ts, start, given, []
        for path in ([], [8], [10]):
            yield broken, 0, given, path


def random_ranges(rng, ts, counts):
    """A start at any location that an edge leaves, small ranges or wide ones, and up to six edges, most of which lead on."""
    word = lambda n, at: ts[1][32 * n + at] + 256 * ts[1][32 * n + at + 1]
    sources = [word(n, 2) for n in range(counts[1])]
    start = at = rng.choice(sources)
    lows = [rng.choice([1, 1, 1, 2, 3, HIGHEST - 2]) for _ in range(ts[0][32 * at + 3])]
    bounds = [(low, min(HIGHEST, low + rng.choice([0, 0, 1, 2, HIGHEST]))) for low in lows]
    if bounds and rng.random() < 0.15:
        bounds[rng.randrange(len(bounds))] = rng.choice([(0, 2), (3, 2), (1, HIGHEST + 1), (0, 0)])
    path = []
    for _ in range(rng.randrange(7)):
        leaving = [n for n, source in enumerate(sources) if source == at]
        if not leaving or rng.random() < 0.04:
            path.append(rng.randrange(counts[1] + 1))
            break
        path.append(rng.choice(leaving))
        at = word(path[-1], 4)
    return start, laid(bounds), path


def ranges_cases(rng, reference, count):
    met = {'follows': 0, 'ends': 0, 22: 0, 23: 0}
    for ts, start, given, path in fixed_cases():
        told, call, expected = ranges_case(reference, ts, (4, 10), start, given, path)
        met[told] += 1
        yield 'ranges from %d, %s, along %s' % (start, given[:2], path[:5]), call, expected
    known = list(listings())
    for i in range(count):
        ts = rng.choice(known)
        counts = [len(t) // 32 for t in ts]
        drawn = random_ranges(rng, ts, counts)
        told, call, expected = ranges_case(reference, ts, counts, *drawn)
        met[told] += 1
        yield 'ranges %d' % i, call, expected
        damaged = [bytearray(t) for t in ts]
        t = rng.choice(damaged)
        t[rng.randrange(len(t))] = rng.choice([0, 1, 2, 3, 0x10, 0x20, 0x80, rng.randrange(256), NULL, UNDEF])
        yield 'damaged ranges %d' % i, *ranges_case(reference, [bytes(t) for t in damaged], counts, *drawn)[1:]
    if min(met.values()) < 6 or count >= 40 and min(met['follows'], met['ends']) < count // 10:
        sys.exit('too few paths from ranges of a kind: %s' % met)
