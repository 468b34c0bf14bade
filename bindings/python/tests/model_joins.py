"""Random joins with many gaps through the library, with and without one run for gaps, against the bytes of the model in tests/joins.
`model_joins.py JOINS SEED`"""

import ctypes
import os
import random
import sys

import lafkuno
from columns import Type, storage
from lafkuno._capsule import ARRAY, unwrap
from random_columns import fill, random_type

sys.path.append(os.path.join(os.path.dirname(os.path.abspath(__file__)), "..", "..", "..", "tests", "joins"))
import arrow
import join


def model_type(type):
    dictionary = type.dictionary and model_type(type.dictionary)
    return arrow.Type(storage(type.format), *map(model_type, type.children), dictionary=dictionary, nullable=type.nullable)


def model_column(column, type, known):
    """The column as the model has it; what is shared stays shared."""
    if (id(column), id(type)) in known:
        return known[id(column), id(type)]
    made = arrow.Column(type, column.length, column.offset)
    blocks, kind = column.bytes(), type.kind()
    if kind not in ("sparse", "dense", "runs"):
        made.validity, blocks = blocks[0], blocks[1:]
    made.one, made.two = (list(blocks) + [b"", b""])[:2]
    if kind == "view":
        made.two, made.data = b"", blocks[1:-1]
    below = [column.dictionary] if column.dictionary else column.children
    made.children = [model_column(c, t, known) for c, t in zip(below, type.below())]
    known[id(column), id(type)] = made
    return made


def compare(array, due, way="root"):
    """Lengths, null counts and bytes; views and kept dictionaries name places of their own."""
    kind = due.type.kind()
    assert (array.length, array.offset) == (due.length, 0), (way, array.length, due.length)
    buffers = [array.buffers[k] for k in range(array.n_buffers)]
    if kind not in ("sparse", "dense", "runs"):
        assert array.null_count in (-1, due.nulls()), (way, array.null_count, due.nulls())
        bits, buffers = buffers[0], buffers[1:]
        assert bool(bits) == (due.validity is not None), (way, "validity")
        if bits:
            assert ctypes.string_at(bits, len(due.validity)) == due.validity, (way, "validity")
    if kind != "view":
        for found, wanted in zip(buffers, (due.one, due.two)):
            assert not wanted or ctypes.string_at(found, len(wanted)) == wanted, (way, wanted)
    if kind != "dictionary":
        for k, child in enumerate(due.children):
            compare(array.children[k][0], child, f"{way}.{k}")


def random_orders(r, columns):
    orders = []
    for _ in range(r.randrange(8)):
        source = r.randrange(len(columns))
        start = r.randrange(columns[source].length + 1)
        if r.random() < 0.5:
            orders.append(lafkuno.rows(source, start, r.randrange(start, columns[source].length + 1)))
        else:
            orders.append(lafkuno.gap(r.choice([0, 1, 2, 3, 30])))
    return orders


def one(r):
    type = random_type(r, depth=3)
    if r.random() < 0.5:
        type = Type("+r", children=[Type(r.choice("sil"), name="run_ends"), type])
    columns = [fill(r, type, r.randrange(12)) for _ in range(r.randrange(1, 4))]
    orders = random_orders(r, columns)
    known, types = {}, model_type(type)
    sources = [model_column(c, types, known) for c in columns]
    rows = []
    for gaps in (False, True):
        made = join.Join(sources, True, lambda a, b: a is b, gaps)
        answers = [made.open()] + [made.nulls(o.n) if isinstance(o, lafkuno.gap) else made.copy(*o) for o in orders]
        due = next((a for a in answers if a), 0)
        try:
            joined = lafkuno.join(columns, orders, keep_nulls=True, one_run_for_gaps=gaps)
        except lafkuno.Error as error:
            assert error.code == due, (error, due)
            return "refused"
        assert due == 0, (due, orders)
        capsules = joined.__arrow_c_array__()
        compare(unwrap(capsules[1], ARRAY), made.node.finished())
        rows.append(sum(n.rows for n in made.node.nodes()))
    return "joined in fewer runs" if rows[1] < rows[0] else "joined"


def main():
    count, seed = [int(a) for a in sys.argv[1:]] + [1000, 20261][len(sys.argv) - 1 :]
    told = {"joined": 0, "joined in fewer runs": 0, "refused": 0}
    for k in range(count):
        try:
            told[one(random.Random(seed * 1000003 + k))] += 1
        except BaseException:
            print(f"model joins: seed {seed}, number {k}", file=sys.stderr)
            raise
    assert told["joined in fewer runs"], told
    print(f"{count} random joins with and without one run for gaps, seed {seed}, the model's bytes: {told}")


main()
