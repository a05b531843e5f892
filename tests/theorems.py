"""Theorems that the definitions (crates/model/specs) give an answer, `answer = expected`, and their check by the prover, which computes
them. Read by tests/definitions and tests/small-shapes."""
import os, re, shutil, subprocess, tempfile

ROOT = os.path.dirname(os.path.dirname(os.path.abspath(__file__)))
ACCEPTED = [0, 0, 0]  # no number, place or node

HEAD = '''-- Comparisons of the definitions with the second translator.
use Rattle.std.specs.Prelude.{ℕ, zero, suc, ◌-◌, ◌/◌, ◌%◌, ◌^◌, true, ◌&&◌, cond, List, [], ◌∷◌, ◌++◌, map, ◌≡◌, eqb, replicate}
use mathlib.Core.Path.{refl}
use Rattle.model.specs.Base.{same_list, numbers}
use Rattle.model.specs.Records.{Refusal, is_accepted, is_refused, record_at, loc_record}
use Rattle.model.specs.Translate.{Tables, Outcome, Explored, full, listed, link_record, routine_of, check, listing, translate}
use Rattle.model.specs.Image.{Folding, Unfolding, Stepping, fold_image, unfold_image, step_image, step_verdict}
use Rattle.model.specs.Part.{part_bytes, record_part}
use Rattle.model.specs.Answers.{found_numbers, refusal_of, step_numbers}
use Rattle.model.specs.Bench.{ends_in, first_unplaced, translate_full}
use Rattle.model.specs.Layout.{keeps_layout}
use Rattle.model.specs.Search.{searched}
use Rattle.model.specs.Ranges.{ranged_to, ranging}
use Rattle.model.specs.Walking.{moved, walked}
use Rattle.model.specs.declared.Configuration.{Configuration}

abbrev bytes_of : ℕ → ℕ → List ℕ
bytes_of zero x = []
bytes_of (suc n) x = x / 256 ^ n % 256 ∷ bytes_of n x

-- a record: its digits, and how many zeros stand after them, an even number
abbrev line : ℕ → ℕ → List ℕ
line x z = bytes_of (32 - z / 2) x ++ replicate (z / 2) 0

abbrev printed : Tables → List (List ℕ)
printed t = map (record_at t.loc_bytes) (numbers 0 t.loc_count) ++ map (record_at t.edge_bytes) (numbers 0 t.edge_count)

abbrev ending : Refusal → List ℕ
ending x = x.number ∷ x.place ∷ x.node ∷ []

abbrev translated : List ℕ → ℕ → ℕ → List (List ℕ)
translated s a b =
    let o = translate s a b in
    elim (o.verdict) [ is_accepted ↦ printed o.tables | is_refused x ↦ ending x ∷ [] ]

abbrev records_of : Explored → List (List ℕ)
records_of (full x) = ending x ∷ []
records_of (listed t) = map loc_record t.locs ++ map link_record t.links

-- the listing of a statement and two stops on a shape, without the checks of the input
abbrev explored : List ℕ → List ℕ → List (List ℕ)
explored s h = records_of (listing (routine_of 3 (s ∷ line 0x53 62 ∷ line 0x53 62 ∷ h ∷ [])) 16 16)

-- 11, 12 or none, told from the full tables
abbrev unplaced : List ℕ → ℕ → ℕ → List (List ℕ)
unplaced s cl ce = ending (refusal_of (first_unplaced cl ce 0 (ends_in (translate_full s).tables))) ∷ []

abbrev folded : Folding → List (List ℕ)
folded f = ending (refusal_of f.verdict) ∷ f.record_bytes ∷ f.counts ∷ []

-- a record out of two tables: the refusal, where the part begins and its length; its bytes
abbrev shown : List ℕ → List ℕ → ℕ → ℕ → ℕ → ℕ → List (List ℕ)
shown ls es l e mark n =
    let t : Tables = record { loc_bytes = ls; edge_bytes = es; loc_count = l; edge_count = e } in
    let p = record_part t mark n in
    (ending (refusal_of p.verdict) ++ p.begins ∷ p.size ∷ []) ∷ part_bytes t mark n ∷ []

-- a search: 1 and the number, or 0 and 0
abbrev searched_in : List ℕ → ℕ → List ℕ → List (List ℕ)
searched_in t n r = let found = found_numbers (searched t n r) in (found.0 ∷ found.1 ∷ []) ∷ []

-- whether tables keep the layout
abbrev layout_of : List ℕ → List ℕ → ℕ → ℕ → List (List ℕ)
layout_of ls es l e =
    let t : Tables = record { loc_bytes = ls; edge_bytes = es; loc_count = l; edge_count = e } in
    (cond (keeps_layout t) 1 0 ∷ []) ∷ []

-- a walk, and a move: the refusal, how many moves a walk made, and the location; the counters
abbrev walked_by : List ℕ → List ℕ → ℕ → ℕ → ℕ → List ℕ → List ℕ → List (List ℕ)
walked_by ls es l e at cs ns =
    let t : Tables = record { loc_bytes = ls; edge_bytes = es; loc_count = l; edge_count = e } in
    let c : Configuration = record { location = at; counters = cs } in
    let w = walked t c ns in
    (w.refusal ∷ w.made ∷ w.configuration.location ∷ []) ∷ w.configuration.counters ∷ []

abbrev moved_by : List ℕ → List ℕ → ℕ → ℕ → ℕ → List ℕ → ℕ → List (List ℕ)
moved_by ls es l e at cs n =
    let t : Tables = record { loc_bytes = ls; edge_bytes = es; loc_count = l; edge_count = e } in
    let c : Configuration = record { location = at; counters = cs } in
    let m = moved t c n in
    (m.refusal ∷ m.configuration.location ∷ []) ∷ m.configuration.counters ∷ []

-- a path from ranges: the refusal, the place, 1 where some start follows, and the location; the ranges
abbrev ranged_by : List ℕ → List ℕ → ℕ → ℕ → ℕ → List ℕ → List ℕ → List (List ℕ)
ranged_by ls es l e at rs ns =
    let t : Tables = record { loc_bytes = ls; edge_bytes = es; loc_count = l; edge_count = e } in
    let r = ranged_to (ranging t at rs ns) in
    (r.refusal ∷ r.place ∷ r.follows ∷ r.location ∷ []) ∷ r.ranges ∷ []

abbrev unfolded : Unfolding → List (List ℕ)
unfolded u = ending (refusal_of u.verdict) ∷ u.ptr_bytes ∷ u.cell_bytes ∷ []

abbrev stepped : Stepping → List (List ℕ)
stepped s = (ending (refusal_of (step_verdict s.answer)) ++ step_numbers s.answer) ∷ s.ptr_bytes ∷ s.cell_bytes ∷ []

'''


def digits(record):
    h = record.hex()
    cut = h.rstrip('0')
    cut += '0' * (len(cut) % 2)
    return 'line 0x%s %d' % (cut or '0', 64 - len(cut))


def numbers(xs):
    return ''.join('%d ∷ ' % x for x in xs) + '[]'


def data(bs):
    parts = [bs[i:i + 32] for i in range(0, len(bs), 32)]
    return ' ++ '.join(digits(p) if len(p) == 32 else '(%s)' % numbers(p) for p in parts) or '[]'


def lists(xs):
    return ''.join('(%s) ∷ ' % numbers(x) for x in xs) + '[]'


def records(rows):
    return ''.join(digits(r) + ' ∷ ' for r in rows) + '[]'


def translate_call(bs, a, b):
    return 'translated (%s) %d %d' % (data(bs), a, b)


def fold_call(ps, cs):
    return 'folded (fold_image (%s) (%s))' % (numbers(ps), numbers(cs))


def unfold_call(record, counts, ps, cs):
    return 'unfolded (unfold_image (%s) (%s) (%s) (%s))' % (data(record), numbers(counts), numbers(ps), numbers(cs))


def step_call(record, pick, cell, ps, cs):
    return 'stepped (step_image (%s) %d %d (%s) (%s))' % (data(record), pick, cell, numbers(ps), numbers(cs))


def theorem(number, group):
    """That each case of a group, a name, a call and the answer that is expected, has this answer."""
    same = ' && '.join('same_list (same_list eqb) (%s) (%s)' % case[1:] for case in group)
    shut = 'check listing translate fold_image unfold_image step_image record_part searched keeps_layout moved walked ranging'
    return '-- %s\nc%d : %s ≡ true\nunfolding %s\nc%d = refl\n\n' % (group[0][0], number, same, shut, number)


def write_crates(scratch, modules):
    """The definitions with their crate, and a crate for each module. Its theorems are numbered through all of them. They stand in proofs/, since a
    statement of specs/ that no contract names may stay unproved."""
    number = 0
    for part in ('specs', 'src', 'proofs'):
        shutil.copytree(os.path.join(ROOT, 'crates', 'model', part), os.path.join(scratch, 'crates', 'model', part))
    write = lambda p, t: open(os.path.join(scratch, p), 'w', encoding='utf8').write(t)
    write('crates.txt', 'model:\n' + ''.join('compared%d: model\n' % i for i in range(len(modules))))
    for i, groups in enumerate(modules):
        crate = os.path.join('crates', 'compared%d' % i)
        os.makedirs(os.path.join(scratch, crate, 'proofs'))
        os.makedirs(os.path.join(scratch, crate, 'src'))
        write(crate + '/src/lib.rt', '#![tactic(auto)]\n\npub fn nothing(x: u8) -> u8 {\n    x\n}\n')
        write(crate + '/proofs/Lib.antt', 'pub mod Compared\n')
        write(crate + '/proofs/Compared.antt', HEAD + ''.join(theorem(number + n, group) for n, group in enumerate(groups)))
        number += len(groups)


def untrue(modules):
    """The numbers of the theorems that do not hold; none where the prover failed otherwise, so that nothing was compared."""
    with tempfile.TemporaryDirectory() as scratch:
        write_crates(scratch, modules)
        run = subprocess.run(['rt', 'all', 'check'], cwd=scratch, stdout=subprocess.PIPE, stderr=subprocess.STDOUT)
    # what is said of each crate, under a line '== NAME', and at the end how each did
    *said, summary = re.split(r'^== ', run.stdout.decode(), flags=re.M)
    errors = {name: re.findall(r'^\S+:\d+:\d+: error: (.*)', text, re.M) for name, _, text in (s.partition('\n') for s in said)}
    bad = {name: [m[1] for text in texts if (m := re.match(r'`c(\d+)`: ', text))] for name, texts in errors.items()}
    proved = {name for name in bad if '\n%s: ok\n' % name in summary}
    names = {'model', *map('compared%d'.__mod__, range(len(modules)))}
    # where there is another error, the theorems that need what it is about are not looked at
    other = any(len(bad[name]) < len(errors[name]) for name in bad)
    if other or names - proved != {name for name in bad if bad[name]} or bool(run.returncode) != any(bad.values()):
        print(run.stdout.decode()[-3000:])
        return None
    return sorted({int(number) for numbers in bad.values() for number in numbers})


def compare(modules):
    """Compares the cases of modules, which are checked side by side. A module is a list of groups of cases, and a group one theorem: what
    its cases share is computed once. Prints what differs and, last, 'N passed, M failed'; answers the exit status."""
    groups = [group for module in modules for group in module]
    count = sum(map(len, groups))
    bad = untrue(modules)
    if bad and count > len(groups):
        # case by case; that none differs by itself would be no answer
        groups = [[case] for number in bad for case in groups[number]]
        bad = untrue([groups]) or None
    for number in bad or []:
        print('differs: %s' % groups[number][0][0])
    passed, failed = (0, 1) if bad is None else (count - len(bad), len(bad))
    print('%d passed, %d failed' % (passed, failed))
    return 1 if failed else 0
