"""One run for gaps (W14) on the model: which run a null order lengthens, by hand. python3 tests/joins/gaps.py"""
import sys
sys.dont_write_bytecode = True
import join
from arrow import Rows, Type, make, run_column
from join import Join
from table import ends_of

ENDS = Type('i', nullable=False)


def opened(columns, gaps=True):
    made = Join(columns, True, lambda a, b: a is b, gaps)
    assert made.open() == 0
    return made


def given(made, *orders):
    """The answers: a number is an order of nulls, else source, start and end."""
    return [made.nulls(o) if isinstance(o, int) else made.copy(*o) for o in orders]


def ends(made, w=4):
    return ends_of(made.node.finished(), w)


runs = Type('+r', ENDS, Type('u'))
van = run_column(runs, [2, 5, 9], make(runs.children[1], [b'A', b'B', b'C']), 1, 8)
k1 = (0, 1, 5)

# K3 followed by 2 nulls, with and without the choice; the running null count is the same, the values' own is not
for gaps, wanted, values in ((True, [3, 4, 7, 8, 15], 1), (False, [3, 4, 7, 8, 13, 15], 2)):
    made = opened([van], gaps)
    assert given(made, k1, k1, 5, 2) == [0] * 4
    assert ends(made) == wanted and made.node.null_count == 7
    assert made.node.children[1].rows == len(wanted) and made.node.children[1].null_count == values

# what leaves the last run as it is: no rows, no nulls, a refused order; a copy that adds a row ends it
made = opened([van])
assert given(made, 1, (0, 3, 3), 0, (1, 0, 1), (0, 0, 9), 1) == [0, 0, 0, 1, 2, 0] and ends(made) == [2]
assert given(made, (0, 0, 1), 1, 1) == [0] * 3 and ends(made) == [2, 3, 5]

# a null run that a copy brought does not grow
holes = make(runs, [b'A', None, None])
made = opened([holes])
assert given(made, (0, 0, 3), 2, 2) == [0] * 3 and ends(made) == [1, 3, 7]

# 7 exactly at the limit; the refused order leaves the run, which grows again
short = Type('+r', Type('s', nullable=False), Type('C'))
made = opened([make(short, [1])])
assert given(made, 32765, 2, 3, 1, 1, 1) == [0, 0, 7, 7, 7, 7] and ends(made, 2) == [32767]
made = opened([make(short, [1])])
assert given(made, 32764, 4, 2, 1, 1) == [0, 7, 0, 0, 7] and ends(made, 2) == [32767]

# values without a nullable field: 5 the first time, and each time
fields = Type('+ud:1', Type('C', nullable=False))
made = opened([make(Type('+r', ENDS, fields), [(1, 5)])])
assert given(made, 1, 1) == [5, 5] and ends(made) == []

# where a run grows the values can't stop it: a dense union whose child is full, runs in runs that are
join.LIMIT.update({2: 12, 4: 24})
for values, row, wanted in ((Type('+ud:1', Type('C')), (1, 5), 6), (Type('+r', Type('s', nullable=False), Type('C')), 7, 7)):
    wide = Type('+r', Type('l', nullable=False), values)
    full = 24 if wanted == 6 else 11
    source = run_column(wide, list(range(1, full)), make(values, [row] * (full - 1)), 0, full - 1)
    assert given(opened([source]), (0, 0, full - 1), 1, 1) == [0] * 3
    assert given(opened([source], False), (0, 0, full - 1), 1, 1) == [0, 0, wanted]

# a dense copy that goes to another child leaves the run of the first; the inner run may grow where the outer one does not
dense = Type('+ud:1,2', Type('+r', ENDS, Type('C')), Type('C'))
rows = make(dense, [(2, 9), (1, 4)])
made = opened([rows])
assert given(made, 1, (0, 0, 1), 2) == [0] * 3 and ends_of(made.node.finished().children[0], 4) == [3]
assert given(made, (0, 1, 2), 2) == [0] * 2 and ends_of(made.node.finished().children[0], 4) == [3, 4, 6]
nested = Type('+r', ENDS, dense)
made = opened([make(nested, [(2, 9), (1, 4)])])
assert given(made, 3, 4, (0, 0, 1), 5) == [0] * 4
assert ends(made) == [7, 8, 13] and ends_of(made.node.finished().children[1].children[0], 4) == [2]

# every child of a sparse union, and runs in runs
sparse = Type('+us:1,2', Type('+r', ENDS, Type('C')), Type('+r', ENDS, Type('+r', ENDS, Type('C')), nullable=False))
made = opened([make(sparse, [(1, 4)])])
assert given(made, 1, 2) == [0] * 2
f = made.node.finished()
assert [ends_of(c, 4) for c in f.children] == [[3], [3]] and ends_of(f.children[1].children[1], 4) == [1]

# earlier rows read as before
made = opened([van])
given(made, k1, 2)
before = Rows(made.node.finished(), 0, 6)
given(made, 3)
assert Rows(made.node.finished(), 0, 6) == before
print('one run for gaps on the model: as W14 says')
