"""Writes vectors.txt and vectors.out beside it: python3 tests/joins/cases.py"""
import os
import sys
sys.dont_write_bytecode = True
from arrow import Column, Type, keyed, make, number, numbers, run_column, sliced
from grounds import ground_cases
from kinds import kinds
from script import Script, run
from table import checked_rows, ends_of

DONE = [('finish',), ('rows',)]


# ---- each kind alone: two sources, the first one sliced in its middle, and a third without nulls

def alone(script):
    for t, rows, others in kinds():
        name = t.format + (' with a dictionary of ' + t.dictionary.format if t.dictionary else '')
        first, second = make(t, rows, before=rows[:2]), make(t, others)
        n, m = first.length, second.length
        steps = [('copy', 0, 1, n), ('copy', 1, 0, m), ('nulls', 0), ('copy', 0, n, n), ('copy', 2, 0, 0), ('copy', 0, 0, n + 1), ('copy', 1, 2, 1)]
        full = steps + [('nulls', 3), ('copy', 0, 0, 2)] + DONE
        later = (False, [('copy', 0, 1, n), ('copy', 0, 0, n - 1), ('nulls', 1)] + DONE)
        run(script, name, [first, second], full, ask=True, again=later)
        run(script, name + ', nulls kept by word', [second, second], [('nulls', 2), ('copy', 1, 1, m), ('nulls', 1), ('copy', 0, 0, 1)] + DONE, keep=True, again=(True, [('nulls', 1), ('copy', 0, 0, 4)] + DONE))
        run(script, name + ', no rows', [sliced(first, 1, 0), second], [('copy', 0, 0, 0)] + DONE)
        if t.kind() in ('string', 'list'):
            bare = make(t, [])
            bare.one, bare.offset = b'', 3
            run(script, name + ', no rows and no offsets', [bare, second], [('copy', 0, 0, 0), ('copy', 1, 0, 1), ('copy', 0, 0, 0)] + DONE)
        if not any(x.nulls() for x in second.nodes()):
            run(script, name + ', no nulls', [second, second], [('nulls', 0), ('nulls', 1), ('copy', 0, 0, m)] + DONE)


# ---- parts one byte short, outside the room, overlapping, too few and too many

def rooms(script):
    for t, rows, others in kinds():
        if t.format in 'cCSIlL' and not t.dictionary: continue
        columns = [make(t, rows, before=rows[1:]), make(t, others)]
        steps = [('copy', 0, 0, 2), ('nulls', 1), ('copy', 1, 0, 2)]
        join = run(Script(), '', columns, steps, keep=True)
        for p, (a, size) in enumerate(join.table):
            if size: run(script, '%s: part %d one byte short' % (t.format, p), columns, steps, keep=True, short=(p, 1))
    t = Type('+vl', Type('u'))
    columns, steps = [make(t, [[b'ab', None], None])], [('copy', 0, 0, 2)]
    run(script, 'parts: as they are', columns, steps)
    run(script, 'parts: one too few', columns, steps, table=lambda own: own[:-1])
    run(script, 'parts: one too many', columns, steps, table=lambda own: own + [(0, 0)])
    run(script, 'parts: none', columns, steps, table=lambda own: [])
    whole = len(run(Script(), '', columns, steps).room)
    run(script, 'parts: the last ends with the room', columns, steps, room=whole - 1)
    run(script, 'parts: the last ends one past the room', columns, steps, room=whole - 2)
    run(script, 'parts: two begin at one place', columns, steps, table=lambda own: [own[1] if p == 2 else x for p, x in enumerate(own)])
    run(script, 'parts: one byte is shared', columns, steps, table=lambda own: [(x[0], x[1] + 2) if p == 1 else x for p, x in enumerate(own)])
    run(script, 'parts: one ends where the next begins', columns, steps, table=lambda own: [(x[0], x[1] + 1) if p == 1 else x for p, x in enumerate(own)])
    run(script, 'parts: an empty one within another', columns, [('copy', 0, 0, 0)], table=lambda own: [(own[0][0], 0) if p == 4 else x for p, x in enumerate(own)])
    for plan, counters in ((871, 96), (873, 96), (872, 95), (872, 97), (0, 0)):
        run(script, 'a plan of %d and counters of %d' % (plan, counters), columns, steps, plan=plan, counters=counters)


# ---- nested to depth 8, and 16 sources

def nested(script):
    number_type, text = Type('s'), Type('u')
    chains = {
        'list-views': (lambda t: Type('+vl', t), lambda r: [r, r]),
        'large list-views': (lambda t: Type('+vL', t), lambda r: [r]),
        'lists': (lambda t: Type('+l', t), lambda r: [r, r]),
        'large lists': (lambda t: Type('+L', t), lambda r: [r]),
        'sparse unions': (lambda t: Type('+us:3', t), lambda r: (3, r)),
        'dense unions': (lambda t: Type('+ud:3', t), lambda r: (3, r)),
        'run ends': (lambda t: Type('+r', Type('i', nullable=False), t), lambda r: r),
    }
    for name, (wrap, row) in chains.items():
        t, a, b = number_type, 5, None
        for _ in range(7): t, a, b = wrap(t), row(a), row(b)
        columns = [make(t, [a, b, a], before=[b]), make(t, [b, a])]
        run(script, 'depth 8: ' + name, columns, [('copy', 0, 1, 3), ('nulls', 2), ('copy', 1, 0, 2)] + DONE, keep=True, ask=True, again=(False, [('copy', 0, 1, 5)] + DONE))
    t = Type('+vl', Type('+vL', Type('+us:1,2', Type('+ud:0,127', Type('+r', Type('s', nullable=False), Type('+vl', Type('+r', Type('l', nullable=False), text))), Type('vu')), Type('C', dictionary=text, entries=[b'no', b'yes'], nullable=False))))
    deep = (1, (0, [b'a', b'a', None]))
    rows = [[[deep, (2, 1)], []], None, [[(1, (127, b'thirteen byte')), (1, (0, None)), (2, 0)]]]
    columns = [make(t, rows, before=rows[2:]), make(t, rows[1:]), make(t, rows[:1])]
    run(script, 'depth 8: all kinds', columns, [('copy', 0, 0, 3), ('nulls', 2), ('copy', 2, 0, 1), ('copy', 1, 1, 2), ('copy', 0, 2, 3)] + DONE, ask=True, again=(True, [('copy', 0, 1, 7), ('nulls', 1)] + DONE))
    t = Type('+l', Type('+r', Type('s', nullable=False), Type('+L', Type('+us:1,2', Type('+vl', Type('+ud:0,9', Type('+l', Type('C')), text)), Type('+l', Type('vu'), nullable=False)))))
    deep = [(1, [(0, [4, None, 5]), (0, None), (9, b'a'), (0, [])]), (2, [b'thirteen byte', None])]
    rows = [[deep, deep, None, []], None, [], [[(1, None), (1, [])], deep[:1]]]
    columns = [make(t, rows, before=rows[2:]), make(t, rows[1:]), make(t, rows[:1])]
    run(script, 'depth 8: lists in and around all kinds', columns, [('copy', 0, 0, 4), ('nulls', 2), ('copy', 2, 0, 1), ('copy', 1, 1, 3), ('copy', 0, 2, 4)] + DONE, ask=True, again=(True, [('copy', 0, 1, 9), ('nulls', 1)] + DONE))


def sixteen(script):
    t = Type('l')
    orders = [('copy', s, 0, 2) for s in range(15, -1, -1)]
    run(script, '16 sources of numbers', [make(t, [s, None if s == 3 else -s], before=[7] * s) for s in range(16)], orders + [('copy', 16, 0, 0)] + DONE)
    t = Type('vu')
    run(script, '16 sources of views', [make(t, [b'%02d long enough' % s, b'%02d again as long' % s]) for s in range(16)], orders + DONE, again=(False, [('copy', 0, 30, 32)] + DONE))
    t = Type('C', dictionary=Type('u'))
    columns = [keyed(t, [0, 1], make(t.dictionary, [b'a%d' % s, b'b%d' % s])) for s in range(16)]
    run(script, '16 sources with dictionaries', columns, orders + DONE)
    same = make(t.dictionary, [b'one', b'two'])
    run(script, '16 sources with one dictionary', [keyed(t, [0, 1], same) for s in range(16)], orders + DONE, again=(False, [('copy', 0, 3, 9)] + DONE))
    other = [keyed(t, [0, 1], same) for s in range(15)] + [keyed(t, [0, 1], sliced(same, 0, 2))]
    run(script, '16 sources, the last with the same places', other, orders + DONE)
    other = [keyed(t, [0, 1], same) for s in range(15)] + [keyed(t, [0, 1], make(t.dictionary, [b'one', b'two']))]
    run(script, '16 sources, the last with equal contents', other, orders + DONE)
    other = [keyed(t, [0, 1], same) for s in range(15)] + [keyed(t, [0, 0], sliced(same, 1, 1))]
    run(script, '16 sources, the last with a slice of the dictionary', other, orders + DONE)


# ---- one run for gaps: what leaves the last run open and what ends it, 7 at its limit, and run-end nodes below others

def gaps(script):
    ends = Type('i', nullable=False)
    runs = Type('+r', ends, Type('u'))
    column = make(runs, [b'A', b'A', None])
    orders = [('nulls', 1), ('copy', 0, 2, 2), ('nulls', 0), ('copy', 1, 0, 1), ('copy', 0, 0, 4), ('nulls', 1), ('copy', 0, 1, 3), ('nulls', 1), ('nulls', 1)]
    f = run(script, 'one run for gaps: open and ended', [column], orders + DONE, keep=True, ask=True, gaps=True).node.finished()
    assert ends_of(f, 4) == [2, 3, 4, 6]
    short = Type('+r', Type('s', nullable=False), Type('C'))
    limit = [('nulls', 32764), ('nulls', 4), ('nulls', 2), ('nulls', 1), ('nulls', 1)]
    f = run(script, 'one run for gaps: up to the last row', [make(short, [1])], limit + DONE, keep=True, gaps=True).node.finished()
    assert ends_of(f, 2) == [32767] and script.lines[-1].split(' finish')[0].endswith('nulls 0 nulls 7 kept why 0 0 32768 32767 nulls 0 nulls 0 nulls 7 kept why 0 0 32768 32767')
    run(script, 'one run for gaps: no room for a run more', [column], [('nulls', 1), ('copy', 0, 0, 1), ('nulls', 1), ('nulls', 1)] + DONE, keep=True, gaps=True, short=(0, 4))
    nulls = [('nulls', 1), ('nulls', 2), ('copy', 0, 0, 1), ('nulls', 3), ('copy', 0, 1, 2), ('nulls', 4), ('nulls', 5)]
    dense = Type('+ud:1,2', Type('+r', ends, Type('C')), Type('C'))
    sparse = Type('+us:1,2', Type('+r', ends, Type('C')), Type('+r', ends, Type('+r', ends, Type('u')), nullable=False))
    for name, t, rows in (('a dense union', dense, [(2, 9), (1, 4)]), ('a sparse union', sparse, [(1, 4), (2, b'a')]), ('runs of a dense union', Type('+r', ends, dense), [(2, 9), (1, 4)])):
        run(script, 'one run for gaps: ' + name, [make(t, rows)], nulls + DONE, keep=True, gaps=True, again=(True, nulls + DONE))


# ---- a validity whose only zeros stand before the offset or behind the rows: none is counted, also where the node keeps nulls

def zeros_outside(script):
    for t, rows, others in kinds():
        if t.format not in ('C', 'u', 'vu', '+l', '+vl'): continue
        m, holes = len(others), sum(x is None for x in rows)
        columns = [make(t, rows, before=rows[:2]), sliced(make(t, [None] * 3 + others + [None]), 3, m)]
        name = t.format + (' with a dictionary of ' + t.dictionary.format if t.dictionary else '') + ', zeros outside the rows'
        run(script, name, columns, [('copy', 1, 0, m)] + DONE)
        assert ' finish 0 0 | %d+0 0 no ' % m in script.lines[-1]
        run(script, name + ', behind nulls', columns, [('copy', 0, 0, len(rows)), ('copy', 1, 0, m), ('copy', 1, 1, m)] + DONE)
        assert ' finish 0 %d | ' % holes in script.lines[-1] and holes > 0


script = Script()
checked_rows(script)
alone(script)
rooms(script)
nested(script)
sixteen(script)
gaps(script)
ground_cases(script)
zeros_outside(script)
here = os.path.dirname(os.path.abspath(__file__))
with open(os.path.join(here, 'vectors.txt'), 'w') as f: f.write('\n'.join(script.text) + '\n')
with open(os.path.join(here, 'vectors.out'), 'w') as f: f.write('\n'.join(script.lines) + '\n')
print('%d cases, %d bytes' % (len(script.lines), len('\n'.join(script.text))))
