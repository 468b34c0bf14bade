"""The Python binding: joins, ownership, errors; and, where it can be had, pyarrow's arrays against pyarrow's own slices."""

import ctypes
import gc
import struct
from concurrent.futures import ThreadPoolExecutor

import lafkuno
from columns import Column, Schema, Type, read_all
from lafkuno._capsule import ARRAY, unwrap
from lafkuno._library import ArrowArray, Release


def i32(values, offset=0, name="fuel", nullable=True, format="i"):
    width = {"i": "i", "l": "q", "tss:": "q"}[format]
    return Column(Type(format, nullable, name=name), len(values) - offset, offset, [None, struct.pack(f"<{len(values)}{width}", *values)], null_count=0)


def numbers(source):
    return [None if row is None else int.from_bytes(row, "little", signed=True) for row in read_all(source)]


def test_a_sliced_batch():
    batch = i32([310, 305, 300, 298, 95, 102, 12, 61], offset=4)
    joined = lafkuno.join([batch], [lafkuno.rows(0, 0, 3), lafkuno.gap(1), lafkuno.rows(0, 3, 4)], keep_nulls=True)
    del batch
    gc.collect()
    assert numbers(joined) == [95, 102, 12, None, 61]
    assert repr(joined) == "<lafkuno.Array of 5 rows, 1 of them null, format 'i'>"


def test_one_run_for_gaps():
    van = Column(Type("+r", children=[Type("i", name="run_ends"), Type("i", True, name="values")], name="ignition"), 3, 0, [], [i32([3], name="run_ends"), i32([7])])
    orders = [lafkuno.rows(0, 0, 3), lafkuno.gap(2), lafkuno.gap(1)]
    for chosen, runs in [(False, 3), (True, 2)]:
        joined = lafkuno.join([van], orders, keep_nulls=True, one_run_for_gaps=chosen)
        capsules = joined.__arrow_c_array__()
        assert unwrap(capsules[1], ARRAY).children[0][0].length == runs
        assert numbers(joined) == [7, 7, 7, None, None, None]


def test_what_stopped_an_order():
    ends = Column(Type("s", name="run_ends"), 1, 0, [None, struct.pack("<h", 32767)])
    van = Column(Type("+r", children=[Type("s", name="run_ends"), Type("i", True, name="values")], name="ignition"), 32767, 0, [], [ends, i32([7])])
    error = refused(
        lambda: lafkuno.join([van], [(0, 0, 32766), lafkuno.gap(0), (0, 5, 7)], keep_nulls=True),
        "node 0 'ignition' (+r), row 0, order 2 (copy 0 5..7): a run end does not fit its type: 32768 is needed, and 32767 is the largest allowed (ground 7)",
    )
    assert (error.code, error.node, error.row, error.order, error.found, error.allowed) == (7, 0, 0, 2, 32768, 32767)


def test_another_type():
    item = Column(Type("u", True, name="item"), 3, 0, [b"\x05", struct.pack("<4i", 0, 2, 2, 5), b"abcde"])
    trips = Column(Type("+l", True, [item.type], name="stops"), 2, 1, [b"\x06", struct.pack("<4i", 0, 1, 1, 3)], [item])
    rows = [[], [None, b"cde"]]
    for format, code in [("+vl", "i"), ("+L", "q")]:
        new = lafkuno.convert(trips, Schema(Type(format, True, [item.type], name="stops")))
        assert (new.format, read_all(new), read_all(trips)) == (format, rows, rows)
    wide = lafkuno.convert(trips, Schema(Type("+L", True, [Type("U", True, name="item")])))
    assert read_all(lafkuno.convert(wide, Schema(trips.type))) == rows
    assert read_all(lafkuno.join([lafkuno.convert(wide, Schema(trips.type))], [(0, 1, 2)])) == rows[1:]
    error = refused(lambda: lafkuno.convert(trips, Schema(Type("+l", True, [Type("z", True)]))), "node 1 'item' (u): it does not become 'z' (ground 10)")
    assert (error.code, error.node) == (10, 1)
    ends = Column(Type("i", name="run_ends"), 1, 0, [None, struct.pack("<i", 32768)])
    runs = Column(Type("+r", children=[ends.type, Type("i", True, name="values")], name="ignition"), 32768, 0, [], [ends, i32([7], name="values")])
    short = Type("+r", children=[Type("s", name="run_ends"), Type("i", True, name="values")])
    assert refused(lambda: lafkuno.convert(runs, Schema(short)), "a run end does not fit its type (ground 7)").code == 7
    try:
        lafkuno.convert(trips, "+vl")
    except TypeError as error:
        assert "__arrow_c_schema__" in str(error)
    else:
        raise AssertionError("a text was taken as a type")


def test_runs_and_back():
    van = i32([9, 310, 310, 300, 300, 300, 12], offset=1)
    runs = lafkuno.encode(van, 1, ends="s")
    assert runs.format == "+r" and numbers(runs) == [310, 300, 300, 300, 12]
    capsules = runs.__arrow_c_array__()
    assert unwrap(capsules[1], ARRAY).children[0][0].length == 3
    assert numbers(lafkuno.expand(runs)) == numbers(runs) and numbers(lafkuno.expand(runs, 3)) == [300, 12]
    assert numbers(lafkuno.expand(lafkuno.join([runs], [(0, 4, 5), (0, 0, 2)]), 1, 3)) == [310, 300]
    assert numbers(lafkuno.encode(van, 2, 2)) == []
    error = refused(lambda: lafkuno.encode(van, 2, 7), "rows 2..7, and the column has 6 (ground 2)")
    assert (error.code, error.node) == (2, None)
    refused(lambda: lafkuno.encode(van, ends="g"), "run ends are 's', 'i' or 'l', and not 'g' (ground 10)")
    error = refused(lambda: lafkuno.expand(runs, most_rows=4), "5 rows are asked for, and 4 are allowed")
    assert (error.code, error.found, error.allowed) == (102, 5, 4)
    error = refused(lambda: lafkuno.encode(runs), "node 0 'fuel' (+r): it is no column of numbers (ground 10)")
    assert (error.code, error.node) == (10, 0)
    refused(lambda: lafkuno.expand(van), "node 0 'fuel' (i): it is no run-end column of numbers (ground 10)")
    refused(lambda: lafkuno.reclaim(van), "node 0 'fuel' (i): it has no dictionary (ground 10)")
    refused(
        lambda: lafkuno.encode(i32([7] * 32768), ends="s"),
        "a run end does not fit its type: 32768 is needed, and 32767 is the largest allowed (ground 7)",
    )


def test_reclaiming():
    names = Column(Type("u", name="names"), 4, 0, [None, struct.pack("<5i", 0, 1, 3, 6, 10), b"abbcccdddd"])
    drivers = Column(Type("c", True, dictionary=names.type, name="driver"), 3, 1, [b"\x0b", bytes([0, 3, 99, 1])], dictionary=names)
    small = lafkuno.reclaim(drivers)
    del names
    rows = [b"dddd", None, b"bb"]
    assert read_all(drivers) == read_all(small) == rows
    capsules = small.__arrow_c_array__()
    assert unwrap(capsules[1], ARRAY).dictionary[0].length == 2
    assert small.format == "c" and read_all(lafkuno.join([small, drivers], [(0, 2, 3), (1, 0, 1)])) == [b"bb", b"dddd"]


def test_sliced_lists():
    for format, code in [("+l", "i"), ("+L", "q")]:
        item = i32([9, 20, 21, 22, 23, 24], offset=1, name="item")
        offsets = struct.pack("<4" + code, 0, 2, 2, 5)
        trips = Column(Type(format, True, [item.type], name="stops"), 2, 1, [None, offsets], [item], null_count=0)
        joined = lafkuno.join([trips], [(0, 1, 2), lafkuno.gap(1), (0, 0, 2)], keep_nulls=True)
        del trips, item
        gc.collect()
        rows = [row and [int.from_bytes(stop, "little") for stop in row] for row in read_all(joined)]
        assert rows == [[22, 23, 24], None, [], [22, 23, 24]], rows
        assert joined.format == format


def test_a_result_is_a_source():
    one = lafkuno.join([i32([1, 2, 3])], [(0, 1, 3)])
    two = lafkuno.join([one, one], [(0, 0, 2), (1, 0, 1)])
    del one
    gc.collect()
    assert numbers(two) == [2, 3, 2]


def test_capsules_outlive_the_array():
    joined = lafkuno.join([i32([1, 2, 3])], [(0, 0, 3)])
    capsules = joined.__arrow_c_array__()
    del joined
    gc.collect()

    class Holder:
        def __arrow_c_array__(self, requested_schema=None):
            return capsules

    assert numbers(Holder()) == [1, 2, 3]
    assert numbers(lafkuno.join([Holder()], [(0, 2, 3)])) == [3]


def test_a_consumer_moves_the_struct():
    joined = lafkuno.join([i32([1, 2, 3])], [(0, 0, 3)])
    capsules = joined.__arrow_c_array__()
    theirs = unwrap(capsules[1], ARRAY)
    moved = ArrowArray()
    ctypes.memmove(ctypes.addressof(moved), ctypes.addressof(theirs), ctypes.sizeof(ArrowArray))
    theirs.release = Release()
    del joined, capsules, theirs
    gc.collect()
    assert ctypes.string_at(moved.buffers[1], 12) == struct.pack("<3i", 1, 2, 3)
    moved.release(ctypes.addressof(moved))
    assert not moved.release


def test_threads():
    source = i32(list(range(1000)))

    def work(k):
        joined = lafkuno.join([source, source], [(0, k, k + 100), (1, 0, k)])
        return numbers(joined) == list(range(k, k + 100)) + list(range(k))

    with ThreadPoolExecutor(4) as pool:
        assert all(pool.map(work, range(200)))


def refused(call, *text):
    try:
        call()
    except lafkuno.Error as error:
        assert str(error) == "".join(text), str(error)
        return error
    raise AssertionError("not refused: " + "".join(text))


def test_errors():
    a = i32([1, 2, 3])
    error = refused(
        lambda: lafkuno.join([a], [lafkuno.rows(0, 0, 1), lafkuno.rows(0, 2, 4)]),
        "order 1 (copy 0 2..4): the end is before the start, or beyond the source's length (ground 2)",
    )
    assert (error.code, error.order, error.source, error.column, error.node, error.row) == (2, 1, None, None, None, None)
    error = refused(
        lambda: lafkuno.join([i32([1], format="l"), i32([1], format="tss:")], []),
        "source 1, node 0 'fuel' (tss:): the format is 'tss:', and 'l' in source 0 (ground 11)",
    )
    assert (error.code, error.source, error.node) == (11, 1, 0)
    error = refused(
        lambda: lafkuno.join([a], [(0, 0, 3)], most_rows=2),
        "node 0 'fuel' (i): 3 rows are the bound of the orders here, and 2 are allowed",
    )
    assert (error.code, error.found, error.allowed) == (102, 3, 2)
    try:  # the capsules of source 0 die while the exception is on its way
        lafkuno.join([lafkuno.join([a], [(0, 0, 3)]), [1, 2]], [])
    except TypeError as error:
        assert str(error) == "source 1 is a list without __arrow_c_array__"
    else:
        raise AssertionError("a list was taken")

    class Table:
        def __arrow_c_stream__(self, requested_schema=None):
            raise AssertionError("a table is no array")

    try:
        lafkuno.reclaim(Table())
    except TypeError as error:
        assert str(error) == "source 0 is a Table without __arrow_c_array__: a stream of arrays, each of which can be a source"
    for order in [(0, -1, 2), lafkuno.gap(-1), (2**32, 0, 1)]:
        try:
            lafkuno.join([a], [order])
        except ValueError:
            continue
        raise AssertionError(f"{order} was taken")


def test_batches():
    columns = [i32([1, 2, 3, 4], name="a"), i32([5, 6, 7, 8], name="b")]
    batch = Column(Type("+s", children=[c.type for c in columns]), 2, 2, [None], columns, null_count=0)
    joined = lafkuno.join([batch, batch], [(1, 0, 2), (0, 1, 2)])
    assert joined.format == "+s" and len(joined) == 3
    refused(lambda: lafkuno.join([batch], [lafkuno.gap(1)]), "column 0 'a', order 0 (nulls 1): ", no_nulls)


no_nulls = "an order of nulls where no nulls are kept: no source has one, and keep_nulls is not set (ground 3)"


def with_pyarrow():
    """Joins of pyarrow's arrays have the rows of pyarrow's slices."""
    try:
        import pyarrow as pa
    except ImportError:
        print("pyarrow is missing: nothing was compared with it")
        return
    arrays = [
        pa.array([1, None, 3, 4], pa.int64()),
        pa.array(["a", None, "a longer text than twelve bytes", ""]),
        pa.array(["a", None, "a longer text than twelve bytes", ""], pa.string_view()),
        pa.array([1, 2, None, 4], pa.timestamp("us", "UTC")),
        pa.array(["x", "y", None, "x"]).dictionary_encode(),
        pa.array([[1], None, [2, 3], []], pa.list_(pa.int32())),
        pa.array([[["a"], None], None, [[]], []], pa.large_list(pa.list_(pa.string()))),
        pa.array([[1], None, [2, 3], []], pa.list_view(pa.int32())),
    ]
    for array in arrays:
        sources = [array.slice(1, 3), array]
        orders = [(0, 0, 2), (1, 0, 3), (0, 2, 3)]
        joined = pa.array(lafkuno.join(sources, orders))
        wanted = [row for s, start, end in orders for row in sources[s].slice(start, end - start).to_pylist()]
        assert joined.type == array.type and joined.to_pylist() == wanted, array.type
        joined.validate(full=True)
    batch = pa.record_batch([a for a in arrays], names=list("abcdefgh"))
    joined = pa.record_batch(lafkuno.join([batch, batch.slice(2)], [(1, 0, 2), (0, 0, 1)]))
    assert joined.schema == batch.schema and joined.to_pylist() == batch.slice(2).to_pylist() + batch.slice(0, 1).to_pylist()
    print(f"{len(arrays)} types and a batch compared with pyarrow {pa.__version__}")


for name, test in list(globals().items()):
    if name.startswith("test_"):
        test()
with_pyarrow()
print("the Python binding holds")
