"""Document 01's table of checked rows, through the entry points. What the table says is asserted of the expected columns here."""
from arrow import Column, Type, entry, keyed, make, numbers, read, run_column
from grounds import lists_of
from script import run

DONE = [('finish',), ('rows',)]


def ends_of(column, w):
    c = column.children[0]
    return [entry(c.one, w, k) for k in range(c.length)]


def strings(format, offsets, data):
    c = Column(Type(format), len(offsets) - 1)
    c.one, c.two = numbers(offsets, 4), data
    return c


def checked_rows(script):
    runs = Type('+r', Type('i', nullable=False), Type('u'))
    van = run_column(runs, [2, 5, 9], make(runs.children[1], [b'A', b'B', b'C']), 1, 8)
    k1 = ('copy', 0, 1, 5)
    f = run(script, 'K1', [van], [k1] + DONE).node.finished()
    assert ends_of(f, 4) == [3, 4] and f.children[1].two == b'BC'
    f = run(script, 'K2', [van], [k1, k1] + DONE).node.finished()
    assert ends_of(f, 4) == [3, 4, 7, 8]
    f = run(script, 'K3', [van], [k1, k1, ('nulls', 5)] + DONE, keep=True).node.finished()
    assert ends_of(f, 4) == [3, 4, 7, 8, 13] and f.children[1].nulls() == 1 and f.children[1].length == 5
    more = [k1, k1, ('nulls', 5), ('nulls', 2)]
    f = run(script, 'K3 then 2 nulls', [van], more + DONE, keep=True).node.finished()
    assert ends_of(f, 4) == [3, 4, 7, 8, 13, 15]
    f = run(script, 'K3 then 2 nulls, one run for gaps', [van], more + DONE, keep=True, gaps=True).node.finished()
    assert ends_of(f, 4) == [3, 4, 7, 8, 15] and f.children[1].nulls() == 1 and f.children[1].length == 5

    short = Type('+r', Type('s', nullable=False), Type('C'))
    long_run = run_column(short, [32766, 32767], make(short.children[1], [1, 2]), 0, 32767)
    f = run(script, 'K4 one row', [long_run], [('copy', 0, 0, 32766), ('copy', 0, 32766, 32767)] + DONE).node.finished()
    assert ends_of(f, 2) == [32766, 32767]
    j = run(script, 'K4 two rows', [long_run], [('copy', 0, 0, 32766), ('copy', 0, 32765, 32767), ('copy', 0, 0, 1)] + DONE)
    assert script.lines[-1].split(' finish')[0].endswith('copy 0 copy 7 kept why 0 0 32768 32767 copy 0')

    ten, stop = strings('u', [0, 10], b'kilometres'), strings('u', [0, 3, 3, 7], b'vanstop')
    steps = [('copy', 0, 0, 1), ('copy', 1, 1, 3)]
    f = run(script, 'K5', [ten, stop], steps + DONE).node.finished()
    assert [entry(f.one, 4, k) for k in range(4)] == [0, 10, 10, 14] and f.two == b'kilometresstop'
    f = run(script, 'K6', [ten, stop], steps + [('nulls', 2)] + DONE, keep=True).node.finished()
    assert [entry(f.one, 4, k) for k in range(6)] == [0, 10, 10, 14, 14, 14]

    keys = Type('C', dictionary=Type('C'))
    entries = lambda n: make(keys.dictionary, [k % 251 for k in range(n)])
    f = run(script, 'K7', [keyed(keys, [0], entries(200)), keyed(keys, [55], entries(56))], [('copy', 1, 0, 1)] + DONE).node.finished()
    assert f.one == b'\xff' and f.children[0].length == 256
    for name, sizes, says in (('K8', (200, 57), 8), ('K9 256 then 0', (256, 0), 8), ('K9 0 then 256', (0, 256), 0)):
        columns = [keyed(keys, [0] if n else [], entries(n)) for n in sizes]
        run(script, name, columns, [('copy', 1, 0, columns[1].length)] + DONE)
        assert script.lines[-1].startswith('%s: open %d' % (name, says))
    f = run(script, 'K10 u8', [keyed(keys, [0], entries(200)), keyed(keys, [None], entries(2), under_null=250)], [('copy', 1, 0, 1)] + DONE).node.finished()
    assert f.one == bytes([194])
    signed = Type('c', dictionary=Type('C'))
    f = run(script, 'K10 i8', [keyed(signed, [0], entries(100)), keyed(signed, [None], entries(2), under_null=100)], [('copy', 1, 0, 1)] + DONE).node.finished()
    assert entry(f.one, 1, 0, signed=True) == -56

    lists = Type('+vl', Type('C'))
    ahead = make(lists, [list(range(10))])
    c = Column(lists, 2)
    c.one, c.two, c.children = numbers([4, 0], 4), numbers([2, 3], 4), [make(Type('C'), [10, 11, 12, 13, 14, 15])]
    f = run(script, 'K11', [ahead, c], [('copy', 0, 0, 1), ('copy', 1, 0, 2)] + DONE).node.finished()
    assert [entry(f.one, 4, k) for k in range(3)] == [0, 10, 12] and f.children[0].length == 15

    dense = Type('+ud:5,7', Type('C'), Type('u'))
    f = run(script, 'K12', [make(dense, [(5, 1), (5, 2)]), make(dense, [(7, b'a'), (5, 3), (7, b'b')])], [('copy', 0, 0, 2), ('copy', 1, 0, 3)] + DONE).node.finished()
    assert [entry(f.two, 4, k) for k in range(2, 5)] == [0, 2, 1]

    run(script, 'K14', [make(Type('C'), [1])], [('nulls', 0)])
    assert script.lines[-1].endswith('nulls 3 kept')
    views = Type('vu')
    f = run(script, 'K15', [make(views, [b'thirteen byte']), make(views, [b'twelve bytes', b'thirteen more'])], [('copy', 1, 0, 2), ('copy', 0, 0, 1)] + DONE).node.finished()
    assert f.one[:16] == b'\x0c\0\0\0twelve bytes' and [entry(f.one, 4, 4 * k + 2) for k in (1, 2)] == [1, 0]
    for n, says in ((256, 0), (257, 8)):
        same = entries(n)
        run(script, 'K16 of %d' % n, [keyed(keys, [3], same), keyed(keys, [255], same)], [('copy', 0, 0, 1), ('copy', 1, 0, 1)] + DONE)
        assert script.lines[-1].startswith('K16 of %d: open %d' % (n, says))

    names = Type('C', dictionary=Type('u'))
    ana = make(names.dictionary, [b'Ana', None, b'Bo'], before=[b'x'])
    depot = keyed(names, [1], make(names.dictionary, [b'Cy', b'Di']))
    drivers = keyed(names, [0, 1, 2], ana, before=[2])
    f = run(script, 'K17', [depot, drivers], [('copy', 1, 0, 3)] + DONE, again=(False, [('copy', 0, 1, 3)] + DONE)).node.finished()
    assert list(f.one) == [2, 3, 4] and [read(f, k) for k in range(3)] == [b'Ana', None, b'Bo'] and (f.nulls(), f.children[0].nulls()) == (0, 1)
    f = run(script, 'K17 shared', [drivers, drivers], [('copy', 1, 0, 3), ('copy', 0, 1, 2)] + DONE, again=(False, [('copy', 0, 1, 4)] + DONE)).node.finished()
    assert list(f.one) == [0, 1, 2, 1] and [read(f, k) for k in range(4)] == [b'Ana', None, b'Bo', None] and (f.nulls(), f.children[0].nulls()) == (0, 1)

    stops = Type('+l', Type('C'))
    ahead = lists_of(stops, [0, 10], make(Type('C'), list(range(10))))
    trips = lists_of(stops, [0, 2, 2, 5], make(Type('C'), [20, 21, 22, 23, 24], before=[7]))
    steps = [('copy', 0, 0, 1), ('copy', 1, 1, 3)]
    f = run(script, 'K18', [ahead, trips], steps + DONE).node.finished()
    assert [entry(f.one, 4, k) for k in range(4)] == [0, 10, 10, 13] and f.children[0].one[10:] == bytes([22, 23, 24])
    f = run(script, 'K18 then 2 nulls', [ahead, trips], steps + [('nulls', 2)] + DONE, keep=True).node.finished()
    assert [entry(f.one, 4, k) for k in range(6)] == [0, 10, 10, 13, 13, 13] and (f.nulls(), f.children[0].length) == (2, 13)
