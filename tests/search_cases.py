"""Cases of change request 8 for tests/definitions: searches in tables of few different records, with what the second translator answers."""
import sys

from theorems import data, lists


def search_case(reference, table, count, record):
    """The table is bytes, or a number of equal bytes: a long table is not spelled out."""
    long = isinstance(table, int)
    text = 'locations %s\ncount %d\nrecord %s\n' % ((b'\x07' * table if long else table).hex(), count, record.hex())
    out = reference('search', text.encode()).split()
    spelled = '(replicate %d 7)' % table if long else '(%s)' % data(table)
    found = [1, int(out[1])] if out[0] == 'found' else [0, 0]
    return 'searched_in %s %d (%s)' % (spelled, count, data(record)), lists([found])


def search_cases(rng, reference, count):
    # the most places, which a longer table has too: its newest record, and the one that is cut off
    for used in (1023, 1024, 1025, 2 ** 64 - 1):
        yield 'search below %d' % used, *search_case(reference, 32 * 1024 + 33, used, b'\x07' * 32)
    met = {'found': 0, 'of several': 0, 'none': 0, 'count cut': 0, 'other length': 0, 'past the count': 0}
    for i in range(count):
        # records that differ in one byte, each several times; the last place may be incomplete
        plain = bytes(rng.randrange(256) for _ in range(32))
        at = rng.randrange(32)
        kinds = [plain[:at] + bytes([rng.randrange(256)]) + plain[at + 1:] for _ in range(rng.randrange(1, 4))]
        rows = [rng.choice(kinds) for _ in range(rng.randrange(7))]
        record = rng.choice(kinds)
        table = b''.join(rows) + record[:rng.choice([0, 0, rng.randrange(32)])]
        used = rng.choice([len(rows), len(rows), rng.randrange(8), rng.randrange(2), len(rows) + 1, 2 ** 63])
        other = rng.random() < 0.15
        if other:
            record = rng.choice([record[:31], record + b'\0', b'', record * 2])
        call, expected = search_case(reference, table, used, record)
        met['found' if expected.startswith('(1 ') else 'none'] += 1
        met['of several'] += rows[:used].count(record) > 1
        met['count cut'] += len(rows) < used
        met['other length'] += other
        met['past the count'] += record not in rows[:used] and record in rows
        yield 'search %d' % i, call, expected
    few = [kind for kind, times in met.items() if times < count // 25]
    if count >= 100 and few:
        sys.exit('of %d searches too few are of a kind: %s' % (count, met))
