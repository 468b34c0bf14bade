"""Random arrays, batches and files of pyarrow, where it can be had, against pyarrow's own slices, casts and files.
`with_pyarrow.py COUNT SEED`; LAFKUNO_COMMAND names the command, else it is where cargo builds it."""

import gc
import os
import random
import subprocess
import sys
import tempfile
from pathlib import Path

try:
    import pyarrow as pa
    import pyarrow.compute as pc
except ImportError:
    print("pyarrow is missing: nothing was compared with it")
    sys.exit(0)

import lafkuno

COMMAND = os.environ.get("LAFKUNO_COMMAND", str(Path(__file__).resolve().parents[3] / "bindings/rust/target/release/lafkuno"))

INTEGERS = [pa.int8(), pa.uint8(), pa.int16(), pa.uint16(), pa.int32(), pa.uint32(), pa.int64(), pa.uint64()]
STORED = {
    8: [pa.int64(), pa.uint64(), pa.date64(), pa.time64("us"), pa.timestamp("us", "UTC"), pa.timestamp("s"), pa.duration("ms")],
    4: [pa.int32(), pa.uint32(), pa.date32(), pa.time32("s")],
    2: [pa.int16(), pa.uint16(), pa.float16()],
    1: [pa.int8(), pa.uint8()],
}
STRINGS = [pa.string(), pa.binary(), pa.large_string(), pa.large_binary(), pa.string_view(), pa.binary_view()]


# ---- random arrays: a maker gives arrays of one type, of as many rows as it is asked for


def mask(r, n, nulls):
    return pa.array([nulls and r.random() < 0.2 for _ in range(n)], pa.bool_())


def numbers(r):
    width = r.choice([1, 2, 4, 8])
    type, signed, nulls = r.choice(STORED[width]), {1: pa.int8(), 2: pa.int16(), 4: pa.int32(), 8: pa.int64()}[width], r.random() < 0.6
    if r.random() < 0.2:
        type = r.choice([pa.float32(), pa.float64()])
        return lambda n: pa.array([None if nulls and r.random() < 0.2 else r.randrange(9) / 4 for _ in range(n)], type)
    unit = 86_400_000 if type == pa.date64() else 1
    return lambda n: pa.array([None if nulls and r.random() < 0.2 else unit * r.randrange(90) for _ in range(n)], signed).view(type)


def strings(r):
    type, nulls = r.choice(STRINGS), r.random() < 0.6
    return lambda n: pa.array([None if nulls and r.random() < 0.2 else b"a text of many bytes"[: r.randrange(21)].decode() for _ in range(n)]).cast(type)


def cut(r, make, n):
    """n rows out of the middle of more."""
    before = r.choice([0, 0, r.randrange(9)])
    return make(before + n + r.choice([0, r.randrange(3)])).slice(before, n)


def lists(r, depth):
    child, large, nulls = maker(r, depth + 1), r.random() < 0.5, r.random() < 0.6

    def make(n):
        offsets = [0]
        for _ in range(n):
            offsets.append(offsets[-1] + r.randrange(4))
        kind, width = (pa.LargeListArray, pa.int64()) if large else (pa.ListArray, pa.int32())
        return kind.from_arrays(pa.array(offsets, width), cut(r, child, offsets[-1]), mask=mask(r, n, nulls))

    return make


def list_views(r, depth):
    child, large, nulls = maker(r, depth + 1), r.random() < 0.5, r.random() < 0.6

    def make(n):
        rows = r.randrange(2 * n + 3)
        sizes = [r.randrange(min(4, rows + 1)) for _ in range(n)]
        offsets = [r.randrange(rows - size + 1) for size in sizes]
        kind, width = (pa.LargeListViewArray, pa.int64()) if large else (pa.ListViewArray, pa.int32())
        return kind.from_arrays(pa.array(offsets, width), pa.array(sizes, width), cut(r, child, rows), mask=mask(r, n, nulls))

    return make


def unions(r, depth):
    fields, dense = [maker(r, depth + 1) for _ in range(r.randrange(1, 4))], r.random() < 0.5
    ids, names = r.sample(range(128), len(fields)), [f"field {k}" for k in range(len(fields))]

    def make(n):
        chosen = [r.randrange(len(fields)) for _ in range(n)]
        types = pa.array([ids[k] for k in chosen], pa.int8())
        if not dense:
            return pa.UnionArray.from_sparse(types, [cut(r, field, n) for field in fields], names, ids)
        seen, positions = [0] * len(fields), []
        for k in chosen:
            positions.append(seen[k])
            seen[k] += 1
        children = [cut(r, field, count + r.randrange(2)) for field, count in zip(fields, seen)]
        return pa.UnionArray.from_dense(types, pa.array(positions, pa.int32()), children, names, ids)

    return make


def runs(r, depth):
    # pyarrow 25 takes no runs of runs, and its to_pylist crashes on some runs of dictionaries
    values, width = maker(r, depth + 1, (runs, dictionaries)), r.choice([pa.int16(), pa.int32(), pa.int64()])

    def make(n):
        ends, at = [], 0
        while at < n:
            at += r.randrange(1, 6)
            ends.append(min(at, n))
        return pa.RunEndEncodedArray.from_arrays(pa.array(ends, width), cut(r, values, len(ends)))

    return make


def dictionaries(r):
    values, keys, ordered, nulls = r.choice([numbers, strings])(r), r.choice(INTEGERS), r.random() < 0.5, r.random() < 0.6
    while pa.types.is_string_view(values(0).type) or pa.types.is_binary_view(values(0).type):
        values = strings(r)  # dictionaries of views are not taken

    def make(n):
        entries = r.randrange(1, 9)
        indices = pa.array([None if nulls and r.random() < 0.2 else r.randrange(entries) for _ in range(n)], keys)
        return pa.DictionaryArray.from_arrays(indices, cut(r, values, entries), ordered=ordered)

    return make


def maker(r, depth=1, but=()):
    leaf = [numbers, strings, dictionaries]
    kind = r.choice([kind for kind in leaf + [lists, list_views, unions, runs] * (depth <= 3) if kind not in but])
    return kind(r) if kind in leaf else kind(r, depth)


# ---- joins of arrays and batches


def random_orders(r, sources, gaps):
    orders = []
    for _ in range(r.randrange(1, 7)):
        s = r.randrange(len(sources))
        start = r.randrange(len(sources[s]) + 1)
        orders.append(lafkuno.gap(r.randrange(3)) if gaps and r.random() < 0.3 else (s, start, r.randrange(start, len(sources[s]) + 1)))
    return orders


def expected(sources, orders):
    rows = []
    for order in orders:
        rows += [None] * order.n if isinstance(order, lafkuno.gap) else sources[order[0]].slice(order[1], order[2] - order[1]).to_pylist()
    return rows


def refusable(error, type):
    """Keys that are too few for joined dictionaries, and nulls of a union without nullable field, may come up at random."""
    return error.code == 8 and "indices=" in str(type) or error.code == 5 and "union" in str(type)


def one_join(r):
    make = maker(r)
    sources = [cut(r, make, r.randrange(30)) for _ in range(r.randrange(1, 4))]
    keep = r.random() < 0.5
    orders = random_orders(r, sources, keep)
    try:
        joined = pa.array(lafkuno.join(sources, orders, keep_nulls=keep))
    except lafkuno.Error as error:
        assert refusable(error, sources[0].type), (error, sources[0].type)
        return
    joined.validate(full=True)
    assert joined.type == sources[0].type, (joined.type, sources[0].type)
    assert joined.to_pylist() == expected(sources, orders), sources[0].type


def random_batch(r, makers, n):
    metadata = {b"odd": b"x" * r.randrange(4)}
    arrays = [cut(r, make, n) for make in makers]
    fields = [pa.field(f"column {k}", a.type, metadata=metadata if k % 2 else None) for k, a in enumerate(arrays)]
    return pa.record_batch(arrays, schema=pa.schema(fields, metadata={"van": "7"}))


def one_batch(r):
    makers = [maker(r, 2) for _ in range(r.randrange(1, 4))]
    sources = [random_batch(r, makers, r.randrange(1, 20)) for _ in range(r.randrange(1, 3))]
    sources.append(sources[0].slice(1))
    orders = random_orders(r, sources, False)
    try:
        joined = pa.record_batch(lafkuno.join(sources, orders))
    except lafkuno.Error as error:
        assert any(refusable(error, a.type) for a in sources[0].columns), error
        return
    joined.validate(full=True)
    assert joined.schema.equals(sources[0].schema, check_metadata=True)
    assert joined.to_pylist() == expected(sources, orders)


# ---- one column anew

LISTS = [(pa.list_, pa.list_view), (pa.large_list, pa.large_list_view)]


def one_conversion(r):
    child = numbers(r) if r.random() < 0.5 else strings(r)
    item = child(0).type
    rows = [None if r.random() < 0.2 else child(r.randrange(4)).to_pylist() for _ in range(r.randrange(20))]
    kinds = r.choice(LISTS)
    first, second = r.sample([kinds[0](item), kinds[1](item)], 2) if r.random() < 0.5 else r.sample([LISTS[0][0](item), LISTS[1][0](item)], 2)
    array = pa.array(rows, first).slice(r.randrange(len(rows) + 1))
    new = pa.array(lafkuno.convert(array, second))
    new.validate(full=True)
    assert new.type == second and new.to_pylist() == array.to_pylist()
    if {first, second} == {kind(item) for kind in kinds}:
        return  # pyarrow 25 casts no list to a list-view, and the lists that it makes of list-views have other rows
    assert new.equals(array.cast(second))


def one_coding(r):
    array = cut(r, numbers(r), r.randrange(40))
    if r.random() < 0.7:
        array = pc.fill_null(array, array[0]) if len(array) and array[0].is_valid else array
    width, ends = r.choice([("s", pa.int16()), ("i", pa.int32()), ("l", pa.int64())])
    encoded, theirs = pa.array(lafkuno.encode(array, ends=width)), pc.run_end_encode(array, run_end_type=ends)
    encoded.validate(full=True)
    assert encoded.type == theirs.type and encoded.run_ends.equals(theirs.run_ends), array
    assert encoded.to_pylist() == theirs.to_pylist()
    at = r.randrange(len(array) + 1)
    assert pa.array(lafkuno.expand(theirs.slice(at))).equals(pc.run_end_decode(theirs.slice(at)))


def one_reclaiming(r):
    array = cut(r, dictionaries(r), r.randrange(30))
    small = pa.array(lafkuno.reclaim(array))
    small.validate(full=True)
    assert small.type == array.type and small.to_pylist() == array.to_pylist()
    assert len(small.dictionary) == len(set(array.indices.drop_null().to_pylist()))


# ---- files


def write(path, batches, stream, **options):
    kind = pa.ipc.new_stream if stream else pa.ipc.new_file
    with kind(str(path), batches[0].schema, options=pa.ipc.IpcWriteOptions(**options)) as writer:
        for batch in batches:
            writer.write_batch(batch)


def command(*arguments):
    done = subprocess.run([COMMAND, *map(str, arguments)], capture_output=True, text=True)
    assert done.returncode in (0, 1, 2) and done.stderr.count("panicked") == 0, (done.returncode, done.stderr)
    return done


def one_file(r, folder):
    makers = [maker(r, 3) for _ in range(r.randrange(1, 4))]
    dictionary = any("indices=" in str(make(0).type) for make in makers)
    first = random_batch(r, makers, r.randrange(1, 20))
    # the batches of a file share their dictionaries
    a = [first] + [first.slice(r.randrange(len(first))) if dictionary else random_batch(r, makers, r.randrange(9)) for _ in range(r.randrange(3))]
    b = [random_batch(r, makers, r.randrange(1, 9))]
    write(folder / "a.arrow", a, r.random() < 0.5)
    write(folder / "b.arrow", b, r.random() < 0.5)
    sources = [pa.Table.from_batches(a), pa.Table.from_batches(b)]
    orders = random_orders(r, sources, False)
    (folder / "orders").write_text("".join(f"copy {'ab'[s]} {start}..{end}\n" for s, start, end in orders))
    done = command("join", folder / "a.arrow", folder / "b.arrow", "--orders", folder / "orders", "--out", folder / "c.arrow")
    if done.returncode:
        assert "ground 8" in done.stderr and dictionary, done.stderr
        return
    joined = pa.ipc.open_file(str(folder / "c.arrow")).read_all()
    joined.validate(full=True)
    assert joined.schema.equals(first.schema, check_metadata=True), (joined.schema, first.schema)
    assert joined.to_pylist() == expected(sources, orders)
    bytes_ = (folder / "a.arrow").read_bytes()
    (folder / "short.arrow").write_bytes(bytes_[: r.randrange(len(bytes_))])
    command("show", folder / "short.arrow")


def refused_files(folder):
    """What is not read is refused by its name."""
    batch = pa.record_batch([pa.array(["a", "b"] * 9)], names=["x"])
    keys = [pa.record_batch([pa.array(text).dictionary_encode()], names=["x"]) for text in (["a", "b"], ["a", "b", "c"], ["d"])]
    path = folder / "r.arrow"
    for stream in (False, True):
        for codec in ("lz4", "zstd"):
            write(path, [batch], stream, compression=codec)
            assert "compressed" in command("show", path).stderr
        write(path, [batch], stream, metadata_version=pa.ipc.MetadataVersion.V4)
        assert "version 4" in command("show", path).stderr
        write(path, keys[:2], stream, emit_dictionary_deltas=True)
        told = command("show", path)
        assert told.returncode and "delta" in told.stderr, told
    write(path, [keys[0], keys[2]], True)  # a stream may replace a dictionary
    assert command("show", path).stdout.split("\n")[-4:-1] == ['"a"', '"b"', '"d"']


def main():
    count = int(sys.argv[1]) if len(sys.argv) > 1 else 300
    seed = int(sys.argv[2]) if len(sys.argv) > 2 else 20262
    tests = [("joins", one_join), ("batches", one_batch), ("conversions", one_conversion), ("runs", one_coding), ("reclaimings", one_reclaiming)]
    folder = tempfile.TemporaryDirectory()
    if Path(COMMAND).exists():
        tests.append(("files", lambda r: one_file(r, Path(folder.name))))
        refused_files(Path(folder.name))
    before = pa.total_allocated_bytes()
    for name, test in tests:
        for k in range(count):
            try:
                test(random.Random(seed * 1000003 + k))
            except BaseException:
                print(f"{name}: seed {seed}, number {k}", file=sys.stderr)
                raise
    gc.collect()
    assert pa.total_allocated_bytes() == before, "memory of pyarrow's is not released"
    print(f"{count} random {', '.join(name for name, _ in tests)} each agree with pyarrow {pa.__version__}")
    folder.cleanup()


main()
