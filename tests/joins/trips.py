"""Random lists of orders through lafkuno_orders, all or none, against join.py: python3 tests/joins/trips.py LIBRARY [ROUNDS]
Every kind of column, every second join with one run for gaps, with enough room and with a part that is too small; what stops each list is asked
before it is given, and the answer, the room and the counters are compared after it."""
import ctypes
import random
import sys
sys.dont_write_bytecode = True
from arrow import Laid, make
from join import Join
from kinds import kinds
from script import needs, table_of

PLAN, COUNTERS, KEEP = 872, 96, 1


def lend(kind, numbers):
    """A slice passes as pointer and length."""
    return (kind * max(1, len(numbers)))(*numbers), ctypes.c_size_t(len(numbers))


def order(r, columns):
    if r.random() < .3: return ('nulls', r.choice((0, 1, 3)))
    s = r.randrange(len(columns)) if r.random() < .97 else len(columns)
    n = columns[min(s, len(columns) - 1)].length
    a = r.randrange(n + 1)
    return ('copy', s, a, r.randrange(a, n + 1) if r.random() < .95 else n + 1)


def words(orders):
    return [x for o in orders for x in ((0,) + o[1:] if o[0] == 'copy' else (1, o[1], 0, 0))]


class Lent:
    """A join of the library over lent memory."""
    def __init__(self, library, laid, table, room, gaps):
        self.gaps = gaps
        self.library, self.room, self.size = library, (ctypes.c_uint8 * max(1, room))(*b'\xee' * room), ctypes.c_size_t(room)
        self.plan, self.counters = lend(ctypes.c_uint64, [7] * PLAN), lend(ctypes.c_uint64, [7] * COUNTERS)
        tables = [(ctypes.c_uint32, laid.sources), (ctypes.c_uint8, laid.formats), (ctypes.c_uint32, laid.schema), (ctypes.c_uint64, laid.lengths)]
        tables += [(ctypes.c_uint64, laid.places), (ctypes.c_uint64, laid.buffers), (ctypes.c_uint8, laid.body)]
        self.tables = [lend(kind, [x % (1 << 64) for x in table]) for kind, table in tables]
        self.parts = lend(ctypes.c_uint64, [x for part in table for x in part])

    def flat(self, slices):
        return [x for s in slices for x in s]

    def open(self):
        self.library.lafkuno_open.restype = ctypes.c_uint8
        return self.library.lafkuno_open(*self.flat(self.tables), ctypes.c_uint8(KEEP), ctypes.c_uint8(self.gaps), *self.flat([self.parts, self.plan, self.counters]), self.room, self.size)

    def orders(self, orders):
        sources, _, _, lengths, places, _, body = self.tables
        self.library.lafkuno_orders.restype = ctypes.c_uint32
        lent = [self.plan, self.parts, sources, lengths, places, body, self.counters, (self.room, self.size), lend(ctypes.c_uint64, words(orders))]
        answer = self.library.lafkuno_orders(*self.flat(lent))
        return answer % 256, answer // 256

    def why(self, orders):
        """What stops the list: five numbers and the place; all that is lent is only read."""
        sources, _, _, lengths, places, _, body = self.tables
        self.library.lafkuno_why_orders.restype = ctypes.c_uint8
        answer = lend(ctypes.c_uint64, [7] * 6)
        lent = [self.plan, self.parts, sources, lengths, places, body, self.counters, (ctypes.c_uint64(self.size.value),), lend(ctypes.c_uint64, words(orders)), answer]
        ground = self.library.lafkuno_why_orders(*self.flat(lent))
        assert ground == answer[0][0], (ground, list(answer[0]))
        return tuple(answer[0])


def trial(library, r, t, rows, others, seen):
    columns = [make(t, rows, before=rows[:2]), make(t, others)]
    laid = Laid()
    for c in columns: laid.add(c)
    lists = [[order(r, columns) for _ in range(r.choice((0, 1, 2, 3, 6)))] for _ in range(5)]
    lists.append([('nulls', 0)] * r.choice((255, 256, 257)))
    gaps = r.random() < .5
    make_join = lambda: Join(columns, True, laid.same, gaps)
    sizes = needs(make_join, [o for orders in lists for o in orders])
    if r.random() < .4:
        p = r.randrange(len(sizes))
        sizes[p] = r.randrange(sizes[p] + 1)
    table, room = table_of(sizes)
    join, lent = make_join(), Lent(library, laid, table, room, gaps)
    join.table, join.room = table, bytearray(b'\xee' * room)
    due = join.open()
    assert lent.open() == due, (t.format, due)
    if due: return
    for orders in lists:
        before, kept = list(lent.counters[0]), bytes(lent.room)
        why = lent.why(orders)
        assert list(lent.counters[0]) == before and bytes(lent.room) == kept
        due = join.trip(orders)
        assert why == join.why + due[1:], (t.format, orders, why, join.why, due)
        answer = lent.orders(orders)
        assert answer == due, (t.format, orders, answer, due)
        assert bytes(lent.room)[:room] == bytes(join.room), (t.format, orders)
        if due[0]: assert list(lent.counters[0]) == before
        assert lent.counters[0][:2] == [join.node.rows, join.node.null_count], (t.format, orders)
        seen[due[0]] = seen.get(due[0], 0) + 1


def main():
    library, rounds, seen = ctypes.CDLL(sys.argv[1]), int((sys.argv + ['40'])[2]), {}
    for seed in range(rounds):
        for k, (t, rows, others) in enumerate(kinds()): trial(library, random.Random(1000 * seed + k), t, rows, others, seen)
    assert {0, 1, 2, 9, 13} <= set(seen), seen
    print('lists of orders against the model: ' + ', '.join('%d answered %d' % (n, g) for g, n in sorted(seen.items())))


main()
