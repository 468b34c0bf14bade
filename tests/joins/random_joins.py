"""Random joins of nested types on the model alone, with small limits in place of 2^15 and 2^31: the finished rows are the book's; an order
cut in two gives the rows, the bytes and the runs that W12 says; stored wider, what was accepted is accepted and the rows are the same.
Joins of odd seeds have one run for gaps (W14): a run grows exactly where the orders before say so, the rows are those without the choice in
no more runs, and n nulls and then m leave the bytes of n + m.
python3 tests/joins/random_joins.py JOINS FIRST-SEED"""
import random
import sys
sys.dont_write_bytecode = True
import join
from arrow import OFFSETS, WIDTH, Column, Rows, Type, entry, number, numbers, read
from join import Join, Refused, duplicate

join.LIMIT.update({2: 12, 4: 24})
WIDER = {'z': 'zZ', 'u': 'uU', '+l': ('+l', '+L'), '+vl': ('+vl', '+vL')}
REACHING = 'cCsSiIlL'


# ---- types and columns

def type_of(r, depth):
    nullable = r.random() < 0.6
    kind = r.choice(('list', 'list', 'list_view', '+us:', '+ud:', 'runs', 'runs', 'leaf')) if depth < 6 else 'leaf'
    if kind == 'list': return Type(r.choice(('+l', '+L')), type_of(r, depth + 1), nullable=nullable)
    if kind == 'list_view': return Type(r.choice(('+vl', '+vL')), type_of(r, depth + 1), nullable=nullable)
    if kind == 'runs': return Type('+r', Type(r.choice('sil'), nullable=False), type_of(r, depth + 1), nullable=nullable)
    if kind in ('+us:', '+ud:'):
        ids = r.sample(range(128), r.choice((1, 2)))
        return Type(kind + ','.join(map(str, ids)), *[type_of(r, depth + 1) for _ in ids], nullable=nullable)
    leaf = r.choice(('C', 'l', 'u', 'Z', 'vu', 'key'))
    if leaf == 'key': return Type(r.choice('cCsI'), dictionary=Type(r.choice('uC')), nullable=nullable)
    return Type(leaf, nullable=nullable)


def some(r, n):
    return bytes(r.randrange(256) for _ in range(n))


def rising(r, w, offset, length, top):
    """Garbage before the offset, then offsets that do not fall, the last at most `top`."""
    ends = sorted(r.randrange(top + 1) for _ in range(length + 1))
    return some(r, w * offset) + numbers(ends, w)


def column_of(r, t, n):
    c, kind = Column(t, n, r.choice((0, 0, 1, 3))), t.kind()
    slots = c.offset + n
    rows = range(c.offset, slots)
    if kind not in ('sparse', 'dense', 'runs') and r.random() < 0.5: c.validity = some(r, slots // 8 + 1)
    if kind == 'number': c.one = some(r, slots * WIDTH[t.format])
    elif kind == 'string': c.one, c.two = rising(r, OFFSETS[t.format], c.offset, n, 9), some(r, 9)
    elif kind == 'view':
        c.data = [some(r, 20)]
        c.one = b''.join(number(13, 4) + c.data[0][:4] + number(0, 8) if r.random() < 0.3 else number(2, 4) + some(r, 12) for _ in range(slots))
    elif kind == 'list':
        c.children = [column_of(r, t.children[0], r.randrange(12))]
        empty = n == 0 and r.random() < 0.5
        c.one = b'' if empty else rising(r, OFFSETS[t.format], c.offset, n, c.children[0].length)
    elif kind == 'list_view':
        w, child = OFFSETS[t.format], column_of(r, t.children[0], r.randrange(8))
        c.children, c.one, c.two = [child], some(r, w * c.offset), some(r, w * c.offset)
        for _ in rows:
            size = r.randrange(min(4, child.length + 1))
            c.one, c.two = c.one + number(r.randrange(child.length - size + 1), w), c.two + number(size, w)
    elif kind == 'sparse':
        c.one = bytes(r.choice(t.ids()) for _ in range(slots))
        c.children = [column_of(r, x, slots + r.randrange(2)) for x in t.children]
    elif kind == 'dense':
        c.children = [column_of(r, x, 1 + r.randrange(6)) for x in t.children]
        c.one, c.two = some(r, c.offset), some(r, 4 * c.offset)
        for _ in rows:
            k = r.randrange(len(t.children))
            c.one, c.two = c.one + bytes([t.ids()[k]]), c.two + number(r.randrange(c.children[k].length), 4)
    elif kind == 'runs':
        end, ends = 0, []
        while end < slots or not ends: end += r.randrange(1, 5); ends.append(end)
        own = Column(t.children[0], len(ends), r.randrange(2))
        own.one = some(r, own.offset * WIDTH[own.type.format]) + numbers(ends, WIDTH[own.type.format])
        c.children = [own, column_of(r, t.children[1], len(ends))]
    else:
        c.children = [column_of(r, t.dictionary, 1 + r.randrange(5))]
        c.one = b''.join(number(r.randrange(c.children[0].length) if c.valid(k) else r.randrange(256), WIDTH[t.format]) for k in range(slots))
    return c


# ---- stored wider

def wide_type(r, t):
    below = [wide_type(r, x) for x in t.children]
    if t.kind() == 'runs': below[0] = Type(r.choice([f for f in 'sil' if 'sil'.index(f) >= 'sil'.index(t.children[0].format)]), nullable=False)
    format = r.choice(WIDER[t.format]) if t.format in WIDER else t.format
    if t.dictionary: format = r.choice([f for f in REACHING if REACHING.index(f) >= REACHING.index(t.format)])
    return Type(format, *below, dictionary=t.dictionary and wide_type(r, t.dictionary), nullable=t.nullable)


def stored(buffer, w, to):
    return b''.join(buffer[k:k + w] + bytes(to - w) for k in range(0, len(buffer) // w * w, w))


def widened(c, t):
    d, kind = Column(t, c.length, c.offset), c.type.kind()
    d.validity, d.data, d.one, d.two = c.validity, c.data, c.one, c.two
    below = t.below()
    d.children = [widened(x, y) for x, y in zip(c.children, below)]
    if kind in ('string', 'list', 'list_view'): d.one = stored(c.one, OFFSETS[c.type.format], OFFSETS[t.format])
    if kind == 'list_view': d.two = stored(c.two, OFFSETS[c.type.format], OFFSETS[t.format])
    if kind == 'dictionary': d.one = stored(c.one, WIDTH[c.type.format], WIDTH[t.format])
    if kind == 'runs': d.children[0].one = stored(c.children[0].one, WIDTH[c.type.children[0].format], WIDTH[t.children[0].format])
    return d


# ---- rows

def plain(row):
    if isinstance(row, Rows): return [plain(row.at(k)) for k in range(row.count)]
    return (row[0], plain(row[1])) if isinstance(row, tuple) else row


def rows_of(c, a, e):
    return [plain(read(c, k)) for k in range(a, e)]


def ordered_null(t):
    if t.kind() == 'runs': return ordered_null(t.children[1])
    if t.kind() not in ('sparse', 'dense'): return None
    k = next(k for k, c in enumerate(t.children) if c.nullable)
    return (t.ids()[k], ordered_null(t.children[k]))


# ---- what is checked

def has_runs(t):
    return t.kind() == 'runs' or any(has_runs(x) for x in t.children)


def runs_more(single, halves, below=False, exempt=False):
    """(runs more, whether the node is exempt) of each run-end node: below a list or list-view that itself stands below a run-end node."""
    kind, out = single.type.kind(), []
    if kind == 'runs': out.append((halves.children[0].length - single.children[0].length, exempt))
    exempt = exempt or (below and kind in ('list', 'list_view'))
    for a, b in zip(single.children, halves.children): out += runs_more(a, b, below or kind == 'runs', exempt)
    return out


def same_bytes(a, b):
    mine = lambda c: (c.length, c.offset, c.validity, c.one, c.two, c.data)
    return mine(a) == mine(b) and all(same_bytes(x, y) for x, y in zip(a.children, b.children))


def check_cut(r, made, columns, seen):
    s = r.randrange(len(columns))
    a, m, e = sorted(r.randrange(columns[s].length + 1) for _ in range(3))
    single, halves = duplicate(made.node), duplicate(made.node)
    try:
        halves.copy(s, a, m - a)
        halves.copy(s, m, e - m)
    except Refused: return
    single.copy(s, a, e - a)
    assert all(len(x[1]) <= len(y[1]) for n, o in zip(single.nodes(), halves.nodes()) for x, y in zip(n.parts(), o.parts())), 'more room'
    one, two = single.finished(), halves.finished()
    assert rows_of(one, 0, one.length) == rows_of(two, 0, two.length), 'the rows of a cut order'
    more = runs_more(one, two)
    assert all(0 <= n <= 1 or exempt for n, exempt in more), 'the runs of a cut order'
    if not has_runs(one.type): assert same_bytes(one, two) and single.null_count == halves.null_count, 'the bytes of a cut order'
    seen['cut'] += 1
    seen['more runs where exempt'] += any(n > 1 for n, _ in more)


# ---- one run for gaps

def run_nodes(node):
    return [(n.rows, n.children[0].rows) for n in node.nodes() if n.kind == 'runs']


class History:
    """Of each run-end node, seen from outside: what added its last rows. A null order that adds rows lengthens the last run exactly if it
    was a null order too, and adds one else."""
    def __init__(self, gaps):
        self.gaps, self.last = gaps, {}

    def check(self, order, before, after, seen):
        for k, ((rows, runs), (more, now)) in enumerate(zip(before, after)):
            if more == rows: assert now == runs, 'runs without rows'
            else:
                grows = self.gaps and order == 'nulls' and self.last.get(k) == 'nulls'
                if order == 'nulls': assert now - runs == (0 if grows else 1), 'the runs of a null order'
                else: assert now > runs, 'the runs of a copy'
                seen['grown runs'] += grows
                self.last[k] = order


def check_sum(r, made):
    """n nulls and then m: the bytes and the counts of n + m; accepted where n + m are."""
    n, m = r.choice((0, 1, 2, 9)), r.choice((0, 1, 5))
    once, twice = duplicate(made.node), duplicate(made.node)
    try: once.nulls(n + m)
    except Refused:
        try: twice.nulls(n), twice.nulls(m)
        except Refused: return
        raise AssertionError('n + m nulls are refused')
    twice.nulls(n)
    twice.nulls(m)
    state = lambda node: [(x.rows, x.null_count, x.grows, x.parts()) for x in node.nodes()]
    assert state(once) == state(twice), 'n nulls and then m'


def check_without(off, made, seen):
    one, two = off.node.finished(), made.node.finished()
    assert rows_of(one, 0, one.length) == rows_of(two, 0, two.length), 'the rows without the choice'
    assert all(n <= 0 for n, _ in runs_more(one, two)), 'more runs than without the choice'
    seen['fewer runs'] += any(n < 0 for n, _ in runs_more(one, two))


def trial(seed, seen):
    r, gaps = random.Random(seed), seed % 2 == 1
    t = Type('+r', Type(r.choice('sil'), nullable=False), type_of(r, 2)) if gaps and r.random() < 0.5 else type_of(r, 1)
    columns = [column_of(r, t, r.choice((0, 1, 5, 9))) for _ in range(r.choice((1, 2, 3)))]
    keep = gaps or r.random() < 0.5
    wide = wide_type(r, t)
    same = lambda a, b: a is b
    made, wider, off = Join(columns, keep, same, gaps), Join([widened(c, wide) for c in columns], keep, same, gaps), Join(columns, keep, same)
    if made.open(): return
    assert wider.open() == 0, 'the opening, stored wider'
    assert off.open() == 0, 'the opening without the choice'
    book, history = [], History(gaps)
    for _ in range(r.randrange(8)):
        before, order = run_nodes(made.node), 'copy'
        if r.random() < (0.5 if gaps else 0.3):
            order = 'nulls'
            n = r.choice((0, 1, 3, 20))
            answer, entered = made.nulls(n), lambda: [ordered_null(t) for _ in range(n)]
            later = wider.nulls(n) if answer == 0 else 0
            without = off.nulls(n) if off else answer
        else:
            s = r.randrange(len(columns))
            a, e = sorted(r.randrange(columns[s].length + 1) for _ in range(2))
            answer, entered = made.copy(s, a, e), lambda: rows_of(columns[s], a, e)
            later = wider.copy(s, a, e) if answer == 0 else 0
            without = off.copy(s, a, e) if off else answer
        assert later == 0, 'an order, stored wider'
        seen['answered %d' % answer] = seen.get('answered %d' % answer, 0) + 1
        # where a run grows, its values can't stop the order
        assert without == answer or (gaps and order == 'nulls' and without in (6, 7)), 'an answer without the choice'
        if answer == 0 and without != 0: off, seen['accepted by the choice alone'] = None, seen['accepted by the choice alone'] + 1
        if answer == 0: book += entered()
        history.check(order, before, run_nodes(made.node), seen)
    for what, j in (('the book', made), ('the rows, stored wider', wider)):
        f = j.node.finished()
        assert rows_of(f, 0, f.length) == book, what
    check_cut(r, made, columns, seen)
    if off: check_without(off, made, seen)
    if gaps and made.node.keeps: check_sum(r, made)


count, first = [int(x) for x in sys.argv[1:]] + [2000, 1][len(sys.argv) - 1:]
seen = {'cut': 0, 'more runs where exempt': 0, 'grown runs': 0, 'fewer runs': 0, 'accepted by the choice alone': 0}
for seed in range(first, first + count):
    try: trial(seed, seen)
    except AssertionError as e: sys.exit('seed %d: %s' % (seed, e))
assert seen['cut'] > count // 2 and seen['answered 6'] and seen['answered 7'] and seen['grown runs'] and seen['fewer runs']
print('%d random joins on the model: %s' % (count, ', '.join('%s %d' % x for x in sorted(seen.items()))))
