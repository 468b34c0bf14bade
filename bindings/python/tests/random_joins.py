"""Random joins through the library, compared row by row with an independent reading; then the same with damaged buffers, which must be
refused or read as the damaged source reads. `random_joins.py JOINS SEED`"""

import ctypes
import random
import sys

import lafkuno
from columns import WIDTHS as WIDTH
from columns import Column, Schema, Type, describe, metadata_bytes, ordered_null, read, read_all, storage, valid
from lafkuno._capsule import ARRAY, SCHEMA, unwrap
from random_columns import FIXED, fill, random_type


def random_sources(r, type):
    """1 to 4 columns, some of them slices of one."""
    columns = []
    for _ in range(r.randrange(1, 5)):
        if columns and r.random() < 0.5:
            whole = r.choice(columns)
        else:
            whole = fill(r, type, r.randrange(40))
        start = r.randrange(whole.length + 1) if r.random() < 0.7 else 0
        length = r.randrange(whole.length - start + 1) if r.random() < 0.7 else whole.length - start
        columns.append(whole.slice(start, length))
    return columns


def random_orders(r, columns, gaps):
    orders = []
    for _ in range(r.randrange(8)):
        source = r.randrange(len(columns))
        start = r.randrange(columns[source].length + 1)
        order = lafkuno.rows(source, start, r.randrange(start, columns[source].length + 1))
        orders.append(lafkuno.gap(r.randrange(4)) if gaps and r.random() < 0.3 else order)
    return orders


def expected(columns, orders, type):
    rows = [read_all(c) for c in columns]
    out = []
    for order in orders:
        if isinstance(order, lafkuno.gap):
            out += [ordered_null(type) for _ in range(order.n)]
        else:
            out += rows[order.source][order.start : order.end]
    return out


def may_be_refused(type, code):
    """Grounds that random sources of this type may meet: keys of a byte that are too few, nulls of a union without nullable field."""
    nodes = type.nodes()
    return (code == 8 and any(n.dictionary and n.format in "cC" for n in nodes)) or (code == 5 and any(n.format.startswith("+u") for n in nodes))


def most_rows(array):
    below = [array.children[k][0] for k in range(array.n_children)] + ([array.dictionary[0]] if array.dictionary else [])
    return max([array.length] + [most_rows(a) for a in below])


def bounded(columns, orders, keep, joined):
    """The bound is one: less than the rows that a node has come to is refused."""
    capsules = joined.__arrow_c_array__()
    rows = most_rows(unwrap(capsules[1], ARRAY))
    if rows < 2:
        return
    try:
        lafkuno.join(columns, orders, keep_nulls=keep, most_rows=rows - 1)
    except lafkuno.Error as error:
        assert error.code == 102 and error.found >= rows, (error, rows)
        return
    raise AssertionError(f"{rows} rows were not bounded")


def one(r):
    type = random_type(r)
    columns = random_sources(r, type)
    keep = r.random() < 0.5
    orders = random_orders(r, columns, keep)
    try:
        joined = lafkuno.join(columns, orders, keep_nulls=keep)
    except lafkuno.Error as error:
        assert may_be_refused(type, error.code), (error, type.format)
        return "refused"
    wanted = expected(columns, orders, type)
    bounded(columns, orders, keep, joined)
    del columns
    got = read_all(joined)
    assert got == wanted, (type.format, wanted, got)
    if not keep:
        capsule = joined.__arrow_c_schema__()
        assert describe(unwrap(capsule, SCHEMA)) == describe(Column(type, 0, 0, []).schema())
    again = lafkuno.join([joined], [lafkuno.rows(0, 0, len(joined))])
    assert read_all(again) == wanted
    return "joined"


# the buffers whose numbers are checked before they are followed; a byte string's data has no length of its own
CHECKED = {"+l": (1,), "+L": (1,), "+vl": (1, 2), "+vL": (1, 2), "vz": (1,), "vu": (1,), "+us": (0,), "+ud": (0, 1)}


def damage(r, column):
    targets = [column.blocks[b] for b in CHECKED.get(column.type.format[:3], ())]
    if column.dictionary is not None:
        targets.append(column.blocks[1])
    if column.type.format == "+r":
        targets.append(column.children[0].blocks[1])
    for block in targets:
        if block and block.size and r.random() < 0.5:
            content = bytearray(block.get())
            content[r.randrange(block.size)] = r.choice([0, 1, 127, 128, 255, r.randrange(256)])
            block.put(bytes(content))
    for child in column.children + ([column.dictionary] if column.dictionary else []):
        damage(r, child)


def one_damaged(r):
    type = random_type(r)
    columns = random_sources(r, type)
    damage(r, r.choice(columns))
    orders = random_orders(r, columns, False)
    try:
        joined = lafkuno.join(columns, orders)
    except lafkuno.Error as error:
        assert error.code == 12 or may_be_refused(type, error.code), error
        assert "breaks the rules" not in str(error), "a refused source without its row"
        return "refused"
    assert read_all(joined) == expected(columns, orders, type)
    return "joined"


def one_batch(r):
    types = [random_type(r, depth=3) for _ in range(r.randrange(4))]
    for k, type in enumerate(types):
        type.name = f"column {k}"
    struct = Type("+s", r.random() < 0.5, types, name="batch")
    columns = []
    for _ in range(r.randrange(1, 4)):
        length, offset = r.randrange(20), r.randrange(20)
        bits = [r.random() < 0.8 for _ in range(offset + length)] if struct.nullable and r.random() < 0.7 else None
        packed = None if bits is None else sum(b << k for k, b in enumerate(bits)).to_bytes((len(bits) + 7) // 8, "little")
        children = [fill(r, t, offset + length + r.randrange(3)) for t in types]
        columns.append(Column(struct, length, offset, [packed], children, null_count=-1 if bits else 0))
    keep = r.random() < 0.5
    orders = random_orders(r, columns, keep)
    try:
        joined = lafkuno.join(columns, orders, keep_nulls=keep, one_run_for_gaps=r.random() < 0.5)
    except lafkuno.Error as error:
        assert any(may_be_refused(t, error.code) for t in types), error
        return "refused"
    assert read_batch(joined) == expected_batch(columns, orders, types, struct.nullable and keep)
    return "joined"


def read_batch(source):
    capsules = source.__arrow_c_array__()
    schema, array = unwrap(capsules[0], SCHEMA), unwrap(capsules[1], ARRAY)
    rows = []
    for k in range(array.length):
        slot = array.offset + k
        rows.append((valid(array, slot), [read(schema.children[c][0], array.children[c][0], slot) for c in range(schema.n_children)]))
    return rows


def expected_batch(columns, orders, types, nullable):
    rows = [read_batch(c) for c in columns]
    own = nullable or any(not valid for column in rows for valid, _ in column)
    out = []
    for order in orders:
        if isinstance(order, lafkuno.gap):
            out += [(not own, [ordered_null(t) for t in types]) for _ in range(order.n)]
        else:
            out += rows[order.source][order.start : order.end]
    return out


WIDTHS = {"z": "zZ", "Z": "zZ", "u": "uU", "U": "uU", "+l": ["+l", "+L"], "+L": ["+l", "+L"], "+vl": ["+vl", "+vL"], "+vL": ["+vl", "+vL"]}
KINDS = {"+l": "+vl", "+L": "+vL", "+vl": "+l", "+vL": "+L"}


def other_widths(r, type):
    format = r.choice("cCsSiIlL" if type.dictionary else WIDTHS.get(type.format, [type.format]))
    children = [other_widths(r, child) for child in type.children]
    if type.format == "+r":
        children[0].format = r.choice("sil")
    dictionary = type.dictionary and other_widths(r, type.dictionary)
    return Type(format, type.nullable, children, dictionary, type.name, type.metadata, type.ordered)


def one_conversion(r):
    """A slice in other widths, or the other kind of list, and back; the rows are those of the slice. Damaged ones are refused, or read the same."""
    type = random_type(r)
    whole = fill(r, type, r.randrange(40))
    start = r.randrange(whole.length + 1)
    column = whole.slice(start, r.randrange(whole.length - start + 1))
    other = other_widths(r, type)
    if type.format in KINDS and r.random() < 0.5:
        other = Type(KINDS[type.format], type.nullable, type.children, name=type.name, metadata=type.metadata)
    damaged = r.random() < 0.3
    if damaged:
        damage(r, column)
    try:
        new = lafkuno.convert(column, Schema(other))
    except lafkuno.Error as error:
        few = error.code == 8 and any(n.dictionary and n.format in "cC" for n in other.nodes())
        assert few or (damaged and error.code == 12), (error, type.format)
        assert "breaks the rules" not in str(error), "a refused column without its row"
        return "refused"
    wanted = read_all(column)
    assert read_all(new) == wanted, (type.format, other.format, wanted, read_all(new))
    capsule = new.__arrow_c_schema__()
    assert describe(unwrap(capsule, SCHEMA)) == describe(Schema(other).struct)
    try:
        assert read_all(lafkuno.convert(new, Schema(type))) == wanted
    except lafkuno.Error as error:
        assert may_be_refused(type, error.code), (error, type.format)
    del column, whole
    assert read_all(new) == wanted
    return "joined"


def runs_of(rows):
    """How many stretches of equal neighbours."""
    return sum(1 for k, row in enumerate(rows) if not k or row != rows[k - 1])


def one_coding(r):
    """Rows of a fixed-width column as runs and back, or a dictionary column without the entries that no row names."""
    if r.random() < 0.5:
        return one_reclaiming(r)
    type = Type(r.choice(FIXED), r.random() < 0.6, name="fuel", metadata=metadata_bytes([("k", "v")]) if r.random() < 0.3 else None)
    column = fill(r, type, r.randrange(60))
    width = WIDTH[storage(type.format)]
    few = [r.randbytes(width) for _ in range(2)]
    slots = column.offset + column.length
    column.blocks[1].put(b"".join(few[r.random() < 0.2] for _ in range(slots)))
    start = r.randrange(column.length + 1)
    end = r.randrange(start, column.length + 1)
    wanted = read_all(column)[start:end]
    runs = lafkuno.encode(column, start, end, ends=r.choice("sil"))
    capsules = runs.__arrow_c_array__()
    assert read_all(runs) == wanted and unwrap(capsules[1], ARRAY).children[0][0].length == runs_of(wanted)
    plain = lafkuno.expand(runs)
    del column
    assert read_all(plain) == wanted
    capsule = plain.__arrow_c_schema__()
    assert describe(unwrap(capsule, SCHEMA)) == describe(Schema(type).struct)
    some = fill(r, Type("+r", True, [Type(r.choice("sil"), name="run_ends"), type]), r.randrange(60))
    start = r.randrange(some.length + 1)
    assert read_all(lafkuno.expand(some, start)) == read_all(some)[start:]
    return "joined"


def one_reclaiming(r):
    type = Type(r.choice("cCsSiIlL"), r.random() < 0.6, dictionary=random_type(r, 8, dictionary=True), ordered=r.random() < 0.5)
    column = fill(r, type, r.randrange(40))
    damaged = r.random() < 0.2
    if damaged:
        damage(r, column)
    try:
        small = lafkuno.reclaim(column)
    except lafkuno.Error as error:
        assert damaged and error.code == 12, error
        return "refused"
    wanted = read_all(column)
    assert read_all(small) == wanted
    del column
    assert read_all(small) == wanted
    capsules = small.__arrow_c_array__()
    array = unwrap(capsules[1], ARRAY)
    keys = {ctypes.string_at(array.buffers[1] + k * WIDTH[type.format], WIDTH[type.format]) for k in range(array.length) if valid(array, k)}
    assert array.dictionary[0].length == len(keys)
    assert describe(unwrap(capsules[0], SCHEMA)) == describe(Schema(type).struct)
    return "joined"


def main():
    count = int(sys.argv[1]) if len(sys.argv) > 1 else 2000
    seed = int(sys.argv[2]) if len(sys.argv) > 2 else 20261
    for name, test in [("joins", one), ("damaged joins", one_damaged), ("batches", one_batch), ("conversions", one_conversion), ("codings", one_coding)]:
        told = {"joined": 0, "refused": 0}
        for k in range(count):
            r = random.Random(seed * 1000003 + k)
            try:
                told[test(r)] += 1
            except BaseException:
                print(f"{name}: seed {seed}, number {k}", file=sys.stderr)
                raise
        print(f"{count} random {name} through the C layer, seed {seed}: {told['joined']} carried out, {told['refused']} refused")


main()
