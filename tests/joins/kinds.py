"""Each kind with the rows of two sources."""
from arrow import Type


def kinds():
    for f in 'cCsSiIlL': yield Type(f), [1, 2, None, 100, 5, None, 7], [9, 8, 7]
    yield Type('f'), [0x3f800000, None, 0x7fc00001, 0x80000000], [0xff800000, 0]
    yield Type('g'), [0x3ff0000000000000, None, 0x7ff8000000000001, 1 << 63], [0xfff0000000000000, 0]
    for f in 'zuZU': yield Type(f), [b'yard', b'', None, b'stop', b'van'], [b'x', b'depot']
    for f in ('vz', 'vu'): yield Type(f), [b'twelve bytes', b'thirteen byte', None, b'', b'a long way from here'], [b'another long string', b'short']
    for f in ('+l', '+L', '+vl', '+vL'): yield Type(f, Type('S')), [[1, 2], None, [], [3, None, 4], [5]], [[6], [7, 8]]
    fields = Type('u'), Type('i', nullable=False)
    yield Type('+us:5,7', *fields), [(5, b'a'), (7, 1), (5, None), (7, 2)], [(7, 3), (5, b'b')]
    yield Type('+ud:5,7', *fields), [(5, b'a'), (7, 1), (5, None), (7, 2)], [(7, 3), (5, b'b')]
    yield Type('+ud:9,0', fields[1], fields[0]), [(9, 4), (0, b'b')], [(0, b'c'), (0, None)]
    for f in 'sil': yield Type('+r', Type(f, nullable=False), Type('C')), [1, 1, 2, None, None, 3], [3, 3, 4]
    for f in 'cCsSiIlL': yield Type(f, dictionary=Type('u'), entries=[b'anna', b'', b'bo']), [0, 2, None, 1], [2, 2]
    yield Type('C', dictionary=Type('l'), entries=[-1, None, 5]), [0, 1, None, 2], [2, 1]
    yield Type('s', dictionary=Type('Z'), entries=[b'a', None, b'ccc']), [1, 2, None], [2, 1]
    yield Type('+r', Type('s', nullable=False), Type('I', dictionary=Type('u'), entries=[b'a', None])), [0, 0, 1, 1, None], [1, 0]
