"""Each ground of document 01 through the entry points, at its edge and one past it. A `told` step has its answer by hand, from 01's words
or, for a foreign state, from refinement/specs/orders/Order.antt and refinement/specs/finishing/Finish.antt."""
from arrow import OFFSETS, Column, Laid, Type, keyed, make, number, numbers, run_column
from script import Script, refused, run

DONE = [('finish',), ('rows',)]
END = Type('i', nullable=False)
STOPS = Type('+l', Type('C'))
TOP = (1 << 64) - 1


def laid_of(*columns):
    laid = Laid()
    for c in columns: laid.add(c)
    return laid


def changed(laid, table, at, value):
    getattr(laid, table)[at] = value
    return laid


# ---- the opening: 9, 10, 11, 12, 14, then 8 per dictionary, 13 last

def openings(script):
    one = lambda rows=[1, 2]: make(Type('s'), rows)
    two = lambda: laid_of(one(), one())
    none = two()
    none.sources = []
    refused(script, '9 no source', none, 9)
    many = laid_of(*[one() for _ in range(17)])
    refused(script, '9 17 sources', many, 9)
    refused(script, '9 a length of -1', changed(two(), 'lengths', 2, (1 << 64) - 1), 9)
    refused(script, '9 an offset of -1', changed(two(), 'lengths', 3, (1 << 64) - 1), 9)
    refused(script, '9 length and offset of 2^63', changed(changed(two(), 'lengths', 2, 1 << 62), 'lengths', 3, 1 << 62), 9)
    deep = Type('C')
    for _ in range(8): deep = Type('+vl', deep)
    refused(script, '9 depth 9', laid_of(make(deep, [])), 9)
    wide = Type('+us:' + ','.join(map(str, range(16))), *[Type('+vl', Type('C'))] * 16)
    refused(script, '9 33 nodes', laid_of(make(wide, [])), 9)
    refused(script, '10 an unknown format', changed(two(), 'schema', 6, 0), 10)
    odd = Type('+us:5,128', Type('C'), Type('C'))
    refused(script, '10 a union id of 128', laid_of(make(odd, [])), 10)
    twice = Type('+us:5,5', Type('C'), Type('C'))
    refused(script, '10 a union id twice', laid_of(make(twice, [])), 10)
    refused(script, '10 a list without a child', changed(laid_of(make(STOPS, [[1]])), 'schema', 3, 0), 10)
    two_children = laid_of(make(Type('+us:1,2', Type('C'), Type('C')), []))
    two_children.formats, two_children.schema[0], two_children.schema[1] = two_children.formats + b'+l', len(two_children.formats), 2
    refused(script, '10 a list with two children', two_children, 10)
    refused(script, '10 run ends of bytes', laid_of(make(Type('+r', Type('C'), Type('C')), [])), 10)
    refused(script, '11 another format', laid_of(one(), make(Type('S'), [1])), 11)
    flat = lambda nullable: make(Type('+vl', Type('C', nullable=nullable)), [[1]])
    refused(script, '11 a child that is not nullable', laid_of(flat(True), flat(False)), 11)
    run(script, 'a root that is not nullable', [make(Type('C'), [1]), make(Type('C', nullable=False), [2])], [('copy', 1, 0, 1)] + DONE)
    refused(script, '11 a list and a large list', laid_of(make(STOPS, [[1]]), make(Type('+L', Type('C')), [[1]])), 11)
    refused(script, '11 a list and a list-view', laid_of(make(STOPS, [[1]]), make(Type('+vl', Type('C')), [[1]])), 11)
    refused(script, '12 a buffer of one byte less', changed(two(), 'places', 4, 3), 12)
    refused(script, '12 a buffer past the body', changed(two(), 'places', 3, 1000), 12)
    refused(script, '9 before 10', changed(changed(two(), 'schema', 1, 0), 'lengths', 2, 1 << 63), 9)
    refused(script, '10 before 11', changed(two(), 'schema', 6, 0), 10)
    refused(script, '11 before 12', changed(laid_of(one(), make(Type('S'), [1])), 'places', 4, 0), 11)
    refused(script, '12 before 14', changed(two(), 'places', 4, 3), 12, parts=[(0, 100), (0, 100)])
    keys = Type('C', dictionary=Type('C'))
    entries = lambda n: make(keys.dictionary, list(range(n % 256)) + [0] * (n - n % 256))
    over = [keyed(keys, [0], entries(200)), keyed(keys, [0], entries(57))]
    run(script, '14 before 8', over, [], table=lambda own: own[:-1])
    run(script, '8 before 13', over, [], short=(1, 1))
    fits = [keyed(keys, [0], entries(200)), keyed(keys, [0], entries(56))]
    run(script, '13 of a joined dictionary', fits, [], short=(1, 1))
    run(script, 'a joined dictionary that is exactly full', fits, [('copy', 1, 0, 1)])
    text = Type('c', dictionary=Type('u'))
    words = lambda *rows: make(text.dictionary, list(rows))
    run(script, '13 of the data of a joined dictionary', [keyed(text, [0], words(b'a', b'bc')), keyed(text, [1], words(b'd', b'ef'))], [], short=(2, 1))
    run(script, '13 of a first offset', [make(Type('u'), [])], [], short=(0, 1))
    run(script, '13 of a first offset of a list', [make(STOPS, [])], [], short=(0, 1))
    for f, n in (('c', 128), ('C', 256)):
        t = Type(f, dictionary=Type('C'))
        for m in (n, n + 1):
            same = entries(m)
            run(script, 'one shared dictionary of %d, keys %s' % (m, f), [keyed(t, [0], same), keyed(t, [1], same)], [('copy', 1, 0, 1)])
            run(script, 'dictionaries of %d and %d, keys %s' % (m - 1, 1, f), [keyed(t, [0], entries(m - 1)), keyed(t, [0], entries(1))], [('copy', 1, 0, 1)])
    both = Type('+us:0,1', Type('C', dictionary=Type('C'), entries=[1] * 200), Type('c', dictionary=Type('C'), entries=[1] * 60))
    run(script, '8 of the second dictionary in the tree', [make(both, [(0, 0)]), make(both, [(1, 0)])], [])


# ---- 12 of lists: the rule of byte strings, with the child's rows in place of the bytes

def lists_of(type, offsets, child, offset=0, length=None, nulls=None):
    c = Column(type, len(offsets) - 1 - offset if length is None else length, offset)
    c.one, c.children, c.validity = numbers(offsets, OFFSETS[type.format]), [child], nulls
    return c


def list_rules(script):
    for f in ('+l', '+L'):
        t = Type(f, Type('C'))
        five = make(Type('C'), [1, 2, 3, 4, 5], before=[6])
        laid = lambda *a, **k: laid_of(lists_of(t, *a, **k))
        tell = lambda name, laid: refused(script, '12 %s: %s' % (f, name), laid, 12)
        run(script, f + ': a slice whose offsets end with the child', [lists_of(t, [9, 0, 3, 3, 5], five, offset=1)], [('copy', 0, 1, 3), ('copy', 0, 0, 1)] + DONE)
        tell('the last offset one past the child', laid([9, 0, 3, 3, 6], five, offset=1))
        tell('the same under a null', laid([9, 0, 3, 3, 6], five, offset=1, nulls=b'\x07'))
        tell('the first offset negative', laid([0, -1, 3], five, offset=1))
        tell('offsets that fall', laid([0, 0, 3, 2, 5], five, offset=1))
        tell('a null row that falls', laid([0, 0, 3, 2, 5], five, offset=1, nulls=b'\x0b'))
        tell('one offset too few', laid([0, 1, 3], five, offset=1, length=2))
        tell('no offsets and a row', laid([], five, length=1))
        tell('a child without its bytes, which no row reaches', changed(laid([0, 0], five), 'places', 13, 5))
        tell('no rows, and their one offset past the child', laid([0, 6], five, offset=1))
        run(script, f + ': no rows, and their one offset at the end of the child', [lists_of(t, [0, 5], five, offset=1)], [('copy', 0, 0, 0)] + DONE)


# ---- orders

def nulls(script):
    for kind in ('+us', '+ud'):
        empty = Type(kind + ':')
        run(script, '4 %s without fields' % kind, [make(empty, [])], [('nulls', 0), ('nulls', 1), ('nulls', 0)] + DONE, keep=True)
        hard = Type(kind + ':1,2', Type('C', nullable=False), Type('u', nullable=False))
        run(script, '5 %s without a nullable field' % kind, [make(hard, [(1, 5)])], [('nulls', 0), ('nulls', 1), ('copy', 0, 0, 1)] + DONE, keep=True)
        second = Type(kind + ':1,2', Type('C', nullable=False), Type('u'))
        run(script, '%s whose second field is nullable' % kind, [make(second, [(1, 5)])], [('nulls', 2), ('copy', 0, 0, 1), ('nulls', 1)] + DONE, keep=True)
        inner = Type(kind + ':1', Type(kind + ':', nullable=True))
        run(script, '4 below a field of %s' % kind, [make(inner, [])], [('nulls', 1)], keep=True)
    hard = Type('+ud:1', Type('C', nullable=False))
    run(script, '5 below run ends', [make(Type('+r', END, hard), [(1, 5)])], [('nulls', 1), ('copy', 0, 0, 1)] + DONE, keep=True)
    run(script, 'a list-view asks no child for nulls', [make(Type('+vl', hard), [[(1, 5)]])], [('nulls', 2), ('copy', 0, 0, 1)] + DONE, keep=True)
    run(script, 'a list asks no child for nulls', [make(Type('+l', hard), [[(1, 5)]])], [('nulls', 2), ('copy', 0, 0, 1), ('nulls', 1)] + DONE, keep=True)
    short = Type('+r', Type('s', nullable=False), hard)
    run(script, '5 before 7', [make(short, [(1, 5)])], [('nulls', 40000), ('copy', 0, 0, 1)], keep=True)
    run(script, '3 on a destination without nulls', [make(Type('u'), [b'a'])], [('nulls', 0), ('nulls', 1), ('copy', 0, 0, 1)] + DONE)
    run(script, '13 of nulls beyond every room', [make(Type('u'), [b'a'])], [('told', 'N 18446744073709551615', ' nulls 13 kept why 0 0 2305843009213693952 1'), ('told', 'N 9223372036854775807', ' nulls 13 kept why 0 0 1152921504606846976 1'), ('copy', 0, 0, 1)] + DONE, keep=True)


def run_ends(script):
    for f, w in (('s', 2), ('i', 4), ('l', 8)):
        top = (1 << 8 * w - 1) - 1
        t = Type('+r', Type(f, nullable=False), Type('C'))
        whole = run_column(t, [top], make(Type('C'), [9]), 0, top)
        run(script, '7 %s: a copy up to the last run end' % f, [whole], [('copy', 0, 0, top), ('copy', 0, 0, 0), ('copy', 0, 0, 1), ('nulls', 1)] + DONE, keep=True)
        run(script, '7 %s: nulls up to the last run end' % f, [whole], [('copy', 0, 0, 5), ('nulls', top - 4), ('nulls', top - 5), ('nulls', 1), ('copy', 0, 1, 2)] + DONE, keep=True)
        run(script, '7 %s before 13' % f, [whole], [('copy', 0, 0, 1), ('copy', 0, 0, top)], short=(1, 1), keep=True)
    t = Type('+r', Type('s', nullable=False), Type('+vl', Type('+r', Type('s', nullable=False), Type('C'))))
    lists, inner = t.children[1], t.children[1].children[0]
    values = Column(lists, 3)
    values.one, values.two = numbers([0, 1, 19999], 4), numbers([20000, 20000, 2], 4)
    values.children = [run_column(inner, [20000, 20001], make(Type('C'), [1, 3]), 0, 20001)]
    c = run_column(t, [1, 2, 3], values, 0, 3)
    run(script, '7 of run ends below a list below run ends', [c], [('copy', 0, 0, 1), ('copy', 0, 2, 3), ('copy', 0, 1, 2), ('copy', 0, 0, 2)] + DONE)


def offsets(script):
    """A child of one run may have 2^31 rows, so that list-views meet 6 in little room."""
    top = (1 << 31) - 1
    inner = Type('+r', Type('l', nullable=False), Type('C'))
    t = Type('+vl', inner)
    c = Column(t, 4)
    c.one, c.two = numbers([0, 5, 0, 7], 4), numbers([top - 1, 1, 0, 2], 4)
    c.children = [run_column(inner, [1 << 33], make(Type('C'), [9]), 0, 1 << 33)]
    run(script, '6 list-view: a child up to 2^31 - 1', [c], [('copy', 0, 0, 1), ('copy', 0, 3, 4), ('copy', 0, 1, 3), ('copy', 0, 1, 2), ('copy', 0, 2, 3)] + DONE)
    run(script, '6 list-view: in one order', [c], [('copy', 0, 0, 4), ('copy', 0, 0, 3)] + DONE)
    small = Type('+vl', Type('+r', Type('s', nullable=False), Type('C')))
    d = Column(small, 2)
    d.one, d.two = numbers([0, 0], 4), numbers([32767, 1], 4)
    d.children = [run_column(small.children[0], [32767], make(Type('C'), [9]), 0, 32767)]
    run(script, '7 below a list-view, after its first row', [d], [('copy', 0, 0, 2), ('copy', 0, 0, 1), ('copy', 0, 1, 2)] + DONE)
    for f, w in (('+l', 4), ('+L', 8)):
        top = (1 << 8 * w - 1) - 1
        e = lists_of(Type(f, inner), [0, 0, top - 1, top, top], run_column(inner, [(1 << 63) - 1], make(Type('C'), [9]), 0, (1 << 63) - 1), offset=1)
        run(script, '6 %s: offsets up to the last' % f, [e], [('copy', 0, 0, 1), ('copy', 0, 1, 3), ('copy', 0, 1, 2), ('copy', 0, 2, 3), ('nulls', 1)] + DONE, keep=True)
        run(script, '6 %s: in one order' % f, [e], [('copy', 0, 1, 2), ('copy', 0, 0, 3), ('copy', 0, 0, 1)] + DONE)
    ends = lambda f, n: lists_of(Type('+l', Type('+r', Type(f, nullable=False), Type('C'))), [0, n - 1, n], run_column(Type('+r', Type(f, nullable=False), Type('C')), [n], make(Type('C'), [9]), 0, n))
    run(script, '7 below a list, in one stretch', [ends('s', 32767)], [('copy', 0, 0, 2), ('copy', 0, 1, 2), ('copy', 0, 0, 0)] + DONE)
    run(script, '7 below a list, after its first row', [ends('s', 32767)], [('copy', 0, 1, 2), ('copy', 0, 0, 2), ('copy', 0, 0, 1)] + DONE)
    run(script, '6 of a list before 7 below it', [ends('i', (1 << 31) - 1)], [('copy', 0, 0, 2), ('copy', 0, 1, 2)] + DONE)
    dense = Type('+ud:0', Type('C'))
    u = make(dense, [(0, 1)])
    run(script, '6 dense: nulls of 2^31 and one more', [u], [('told', 'N 2147483648', ' nulls 13 kept why 0 0 2147483648 1'), ('told', 'N 2147483649', ' nulls 6 kept why 0 2147483648 2147483648 2147483647'), ('copy', 0, 0, 1), ('told', 'N 2147483648', ' nulls 6 kept why 0 2147483647 2147483648 2147483647'), ('told', 'N 2147483647', ' nulls 13 kept why 0 0 2147483648 1')], keep=True)


def many_bytes(script):
    """List-views whose rows name the same child rows again and again reach 2^31 bytes with 4,096 bytes of strings: 64 * 64 * 128 * 4,096.
    The last row of each level has one byte less than the others."""
    t = Type('u')
    c = make(t, [b'k' * 64] * 64 + [b'k' * 63])
    for n in (64, 64, 128):
        t = Type('+vL', t)
        outer = Column(t, n + 1)
        outer.one, outer.two, outer.children = numbers([0] * n + [1], 8), numbers([64] * (n + 1), 8), [c]
        c = outer
    laid = laid_of(c)
    script.start('6 strings: 2^31 bytes')
    script.tables(laid)
    script.state()
    table = [(100 * k, 100) for k in range(8)]
    script.lend(table, 800)
    script.text.append('O 0')
    script.answer('open', 0)
    last = (3, 63, 1 << 31, (1 << 31) - 1)
    for a, e, ground, why in ((0, 128, 6, last), (1, 129, 13, (0, 0, 1024, 100)), (0, 127, 13, (0, 0, 1016, 100)), (0, 129, 6, last)):
        script.text.append('E 0 %d %d' % (a, e))
        script.answer('copy', ground, why)
    script.end()


# ---- what stopped an order: counters that are set by hand stand for orders that would take long

def stops(script):
    text = make(Type('u'), [b'ab', b'cd', b'ef'], before=[b'x'])
    run(script, 'why: the first row of a byte string that clashes', [text], [('copy', 0, 0, 1), ('told', 'K 96 2147483644 E 0 0 3', ' copy 6 kept why 0 1 2147483648 2147483647')])
    stops_of = make(STOPS, [[1], [2, 3], [4, 5], [6]], before=[[7]])
    run(script, 'why: the first row of a list that clashes', [stops_of], [('copy', 0, 0, 1), ('told', 'K 96 2147483645 E 0 0 4', ' copy 6 kept why 0 1 2147483648 2147483647')])
    ends = Type('+r', Type('l', nullable=False), Type('C'))
    run(script, 'why: 2^64 - 1 nulls on run ends', [make(ends, [1])], [('copy', 0, 0, 1), ('told', 'N 18446744073709551615', ' nulls 7 kept why 0 0 18446744073709551615 9223372036854775807')], keep=True)
    dense = Type('+L', Type('+r', Type('l', nullable=False), Type('+vL', Type('+ud:0,1', Type('C'), Type('s')))))
    column = make(dense, [[[(1, 9)], [(0, 1), (0, 2), (1, 3), (0, 4), (0, 5)]]])
    run(script, 'why: a dense union at depth 4', [column], [('copy', 0, 0, 1), ('told', 'K 96 2147483646 E 0 0 1', ' copy 6 kept why 4 3 2147483648 2147483647')])
    short = Type('+r', Type('s', nullable=False), Type('C'))
    union = Type('+ud:0', short)
    rows = Column(union, 300)
    rows.one, rows.two, rows.children = bytes(300), numbers([0] * 300, 4), [run_column(short, [1], make(Type('C'), [9]), 0, 1)]
    view = Column(Type('+vl', union), 110)
    view.one, view.two, view.children = numbers([0] * 110, 4), numbers([300] * 110, 4), [rows]
    runs = run_column(Type('+r', END, view.type), list(range(1, 111)), view, 0, 110)
    deep = lists_of(Type('+l', runs.type), [0, 100, 110], runs)
    run(script, 'why: run ends at depth 5', [deep], [('copy', 0, 0, 2), ('copy', 0, 0, 1), ('copy', 0, 1, 2)] + DONE)
    assert ' copy 7 kept why 5 0 32768 32767 copy 0 copy 7 kept why 5 0 32768 32767 finish' in script.lines[-1]


# ---- numbers near 2^64: no sum of a start and a size, nor entries times their width, wraps into the body or the room

def far_places(script, c):
    """Each buffer that a node has, at the body's end by a sum that wraps."""
    places = laid_of(c).places
    for at in [9 * node + j for node in range(len(places) // 9) for j in (1, 3, 5)]:
        start, size = places[at:at + 2]
        if not size: continue
        tell = lambda what, k, value: refused(script, '12 %s: place %d %s' % (c.type.format, at, what), changed(laid_of(c), 'places', at + k, value), 12)
        tell('ends at 2^64', 0, TOP + 1 - size)
        tell('begins at 2^64 - 1', 0, TOP)
        tell('wraps into the body', 1, TOP)
        tell('ends at 2^63', 1, (1 << 63) - start)


def far_rows(script):
    """As many slots as wrap to a few bytes when they are multiplied."""
    for f, w in (('s', 2), ('i', 4), ('l', 8), ('vu', 16)):
        c = make(Type(f), [b'a' if f == 'vu' else 1])
        refused(script, '12 %s: 2^64 bytes of rows' % f, changed(laid_of(c), 'lengths', 0, (1 << 64) // w if w > 2 else (1 << 63) - 1), 12)
        refused(script, '12 %s: 2^64 bytes and a row' % f, changed(changed(laid_of(c), 'lengths', 0, 1), 'lengths', 1, (1 << 64) // w if w > 2 else (1 << 63) - 2), 12)
    c = make(Type('C'), [1, None])
    refused(script, '12 C: 2^63 - 1 bits of validity', changed(laid_of(c), 'lengths', 0, (1 << 63) - 1), 12)


def far_parts(script):
    t = Type('+vl', Type('u'))
    columns, steps = [make(t, [[b'ab', None], None])], [('copy', 0, 0, 2)]
    far = lambda q, start, size: lambda own: [(start(x), size(x)) if p == q else x for p, x in enumerate(own)]
    for q in range(6):
        run(script, '14 part %d begins at 2^64 - 1' % q, columns, steps, table=far(q, lambda x: TOP, lambda x: x[1]))
        run(script, '14 part %d ends at 2^64' % q, columns, steps, table=far(q, lambda x: TOP + 1 - x[1], lambda x: x[1]))
        run(script, '14 part %d wraps into the room' % q, columns, steps, table=far(q, lambda x: x[0], lambda x: TOP))
        run(script, '14 part %d ends at 2^63' % q, columns, steps, table=far(q, lambda x: x[0], lambda x: (1 << 63) - x[0]))
    own = run(Script(), '', columns, steps).table
    for word in range(12):
        parts = [x for part in own for x in part]
        parts[word] = TOP
        run(script, 'foreign: number %d of the parts is 2^64 - 1' % word, columns, steps + [('told', 'A 12 %s E 0 0 1' % ' '.join(map(str, parts)), ' copy 14 kept'), ('told', 'W 0 0', ' finish 14 kept')])


def far_numbers(script):
    views = make(Type('vu'), [b'thirteen byte', b'a', b'another long one'])
    for c in (make(Type('i'), [1, None]), make(Type('u'), [b'ab', None]), views, make(STOPS, [[1], None]), make(Type('+vL', Type('s')), [[1], None]), make(Type('+ud:5', Type('C')), [(5, 1)]), make(Type('+r', END, Type('u')), [b'a', None])):
        far_places(script, c)
    for at, value in ((0, TOP), (0, TOP - 13), (1, TOP), (1, TOP + 1 - laid_of(views).buffers[0])):
        refused(script, '12 vu: data buffer, number %d is %d' % (at, value), changed(laid_of(views), 'buffers', at, value), 12)
    for first in (TOP, 1 << 63, (1 << 63) - 1, 1 << 62):
        refused(script, '12 vu: data buffers from %d on' % first, changed(laid_of(views), 'places', 7, first), 12)
    refused(script, '9 vu: 2^64 - 1 data buffers', changed(laid_of(views), 'places', 8, TOP), 9)
    far_rows(script)
    far_parts(script)
    c = make(Type('C'), [1, 2, None])
    for j in (1, 2, 3, 4):
        places = list(laid_of(c).places)
        places[j] = TOP
        told = 'P 9 %s E 0 0 3' % ' '.join(map(str, places))
        run(script, 'foreign: place %d is 2^64 - 1' % j, [c], [('copy', 0, 0, 3), ('told', told, ' copy 12 kept' if j in (1, 3) else ' copy 13 kept why 0 0 6 3')])


# ---- a state, sources or room other than the last call left them

def foreign(script):
    c = make(Type('C'), [1, 2, None])
    first = ('copy', 0, 0, 3)
    tell = lambda name, *steps: run(script, 'foreign: ' + name, [c], [first] + [('told',) + s for s in steps])
    tell('a plan of zeros', ('Q 872 0 E 0 0 1', ' copy 14 kept'), ('N 1', ' nulls 14 kept'))
    tell('no plan', ('Q 0 0 E 0 0 1', ' copy 14 kept'), ('N 0', ' nulls 14 kept'))
    full = ' kept why 0 0 2305843009213693952 1'
    tell('counters of ones', ('K 96 18446744073709551615 E 0 0 1', ' copy 13' + full), ('N 1', ' nulls 13' + full), ('E 0 1 1', ' copy 13' + full))
    tell('95 counters', ('K 95 0 E 0 0 1', ' copy 14 kept'), ('N 1', ' nulls 14 kept'), ('W 0 0', ' finish 14 kept'))
    tell('97 counters', ('K 97 0 E 0 0 1', ' copy 14 kept'), ('N 0', ' nulls 14 kept'))
    tell('a room that is cut', ('H 5 E 0 0 0', ' copy 14 kept'), ('N 0', ' nulls 14 kept'), ('W 0 0', ' finish 14 kept'))
    tell('fewer parts', ('A 2 3 1 E 0 0 0', ' copy 14 kept'), ('W 0 0', ' finish 14 kept'))
    tell('no body', ('T E 0 0 1', ' copy 12 kept'), ('E 0 0 0', ' copy 12 kept'))
    tell('another source', ('S 2 9 1 E 0 0 1', ' copy 2 kept'), ('E 0 0 0', ' copy 0'))
    tell('no tables', ('L 0 P 0 E 0 0 1', ' copy 2 kept'))
    tell('a finished table too long', ('W 1 0', ' finish 14 kept'))
    base = lambda n: 'W 0 %d' % (n - len(laid_of(c).body))
    tell('a base above 32 bits', (base(1 << 32), ' finish 0'), (base(1 << 40), ' finish 0'))
    tell('a base above the ceiling', (base((1 << 63) - 1), ' finish 0'), (base(1 << 63), ' finish 9 kept'), (base(TOP), ' finish 9 kept'))
    t = Type('u')
    d = make(t, [b'ab'])
    run(script, 'foreign: counters of ones at a byte string', [d], [('copy', 0, 0, 1), ('told', 'K 96 18446744073709551615 E 0 0 1', ' copy 12 kept')])
    keys = Type('C', dictionary=Type('u'))
    k = keyed(keys, [0], make(keys.dictionary, [b'a', None]))
    run(script, 'foreign: no body for a kept dictionary', [k], [('copy', 0, 0, 1), ('told', 'T W 0 0', ' finish 12 kept')])


def ground_cases(script):
    openings(script)
    list_rules(script)
    nulls(script)
    run_ends(script)
    offsets(script)
    many_bytes(script)
    stops(script)
    far_numbers(script)
    foreign(script)
