"""Joins ranges of Arrow columns, or of record batches, into one.

    joined = lafkuno.join([a, b], [lafkuno.rows(0, 10, 20), lafkuno.gap(1), lafkuno.rows(1, 0, 5)], keep_nulls=True)
    narrow = lafkuno.convert(joined, type)
    runs, plain, small = lafkuno.encode(column), lafkuno.expand(runs), lafkuno.reclaim(dictionary_column)

Sources are any objects of the Arrow PyCapsule protocol (`__arrow_c_array__`), and the result is one: arrays and record batches of any
Arrow implementation go in and out without further code. All orders are carried out, or none: then `lafkuno.Error` says where and why.
"""

import ctypes
from ctypes import byref
from typing import NamedTuple

from ._capsule import ARRAY, SCHEMA, fresh, release, unwrap
from ._library import GAP, ArrowArray, ArrowSchema, Failure, Options, Order, Source, library

__all__ = ["Array", "Error", "convert", "encode", "expand", "gap", "join", "reclaim", "rows", "version"]

version = library.lafkuno_version().decode()
__version__ = version


class rows(NamedTuple):
    """The order of rows start to end - 1 of a source."""

    source: int
    start: int
    end: int


class gap(NamedTuple):
    """The order of n nulls."""

    n: int


class Error(Exception):
    """A refusal. `code` is the ground or the failure of lafkuno_arrow.h; what does not apply is None."""

    def __init__(self, failure):
        super().__init__(failure.message.decode("utf-8", "replace"))
        self.code = failure.code
        for name in ("column", "source", "order", "node", "row"):
            value = getattr(failure, name)
            setattr(self, name, None if value < 0 else value)
        self.found, self.allowed = failure.found, failure.allowed


class Array:
    """A joined column or record batch. It owns its memory, and shares it with whoever takes `__arrow_c_array__`."""

    def __init__(self, schema, array):
        self._schema, self._array = schema, array

    def __del__(self, release=release):
        release(self._schema)
        release(self._array)

    def __len__(self):
        return self._array.length

    def __repr__(self):
        return f"<lafkuno.Array of {len(self)} rows, {self.null_count} of them null, format {self.format!r}>"

    @property
    def null_count(self):
        return self._array.null_count

    @property
    def format(self):
        """The format string of the Arrow C Data Interface."""
        return self._schema.format.decode()

    def __arrow_c_schema__(self):
        capsule, schema = fresh(SCHEMA)
        _check(library.lafkuno_copy_schema(byref(self._schema), byref(schema)))
        return capsule

    def __arrow_c_array__(self, requested_schema=None):
        """The schema and the array as capsules. The type is the array's own, whatever is requested."""
        capsule, array = fresh(ARRAY)
        _check(library.lafkuno_share_array(byref(self._array), byref(array)))
        return self.__arrow_c_schema__(), capsule


def _check(code):
    if code:
        failure = Failure(code, -1, -1, -1, -1, -1, 0, 0, library.lafkuno_meaning(code))
        raise MemoryError(str(Error(failure))) if code == 100 else Error(failure)


def _number(value, top):
    number = value.__index__()
    if not 0 <= number <= top:
        raise ValueError(f"{number} is not a number from 0 to {top}")
    return number


def _order(order):
    if isinstance(order, gap):
        return Order(GAP, 0, _number(order.n, 2**64 - 1))
    source, start, end = order
    return Order(_number(source, GAP - 1), _number(start, 2**64 - 1), _number(end, 2**64 - 1))


def _capsules(number, source):
    if not hasattr(source, "__arrow_c_array__"):
        parts = ": a stream of arrays, each of which can be a source" if hasattr(source, "__arrow_c_stream__") else ""
        raise TypeError(f"source {number} is a {type(source).__name__} without __arrow_c_array__{parts}")
    return source.__arrow_c_array__()


def join(sources, orders, *, keep_nulls=False, one_run_for_gaps=False, most_rows=0):
    """Carries the orders out, one after the other, over 1 to 16 sources of one type; record batches where the sources are structs.

    keep_nulls: orders of nulls (`gap`) are taken even where no source has a null.
    one_run_for_gaps: a gap lengthens the last run of a run-end node where gaps alone have written it; else each gap adds a run.
    most_rows: the most rows that any node may come to, by a bound that is computed first; 0 stands for 2 ** 32.
    """
    capsules = [_capsules(k, source) for k, source in enumerate(sources)]  # kept until the call is over
    structs = [(unwrap(schema, SCHEMA), unwrap(array, ARRAY)) for schema, array in capsules]
    table = (Source * len(structs))(*(Source(ctypes.pointer(s), ctypes.pointer(a)) for s, a in structs))
    list_ = [_order(order) for order in orders]
    options = Options(bool(keep_nulls), bool(one_run_for_gaps), _number(most_rows, 2**64 - 1))
    schema, array, failure = ArrowSchema(), ArrowArray(), Failure()
    batches = bool(structs) and structs[0][0].format == b"+s"
    call = library.lafkuno_join_batches if batches else library.lafkuno_join_arrays
    code = call(table, len(structs), (Order * len(list_))(*list_), len(list_), byref(options), byref(schema), byref(array), byref(failure))
    return _made(code, schema, array, failure)


def convert(source, type, *, most_rows=0):
    """The rows of a column in another type, which is any object with `__arrow_c_schema__`.

    Other widths: byte strings, lists and list-views with offsets of 32 or 64 bits, run ends of 16, 32 or 64, keys of any integer type; or a list
    as a list-view of the same width, or back. Rows read as before.
    most_rows: the most rows that any node may come to where list-views become lists; 0 stands for 2 ** 32.
    """
    if not hasattr(type, "__arrow_c_schema__"):
        raise TypeError(f"the type is a {type.__class__.__name__} without __arrow_c_schema__")
    capsule = type.__arrow_c_schema__()  # kept until the call is over
    options = Options(False, False, _number(most_rows, 2**64 - 1))
    return _anew(library.lafkuno_convert_array, source, byref(unwrap(capsule, SCHEMA)), byref(options))


def encode(source, start=0, end=None, *, ends="i"):
    """Rows start to end - 1 of a column of numbers as a run-end column, in the fewest runs that read the same; without an end, all from start on.

    ends: the format of the run ends, "s", "i" or "l" for 16, 32 or 64 bits.
    """
    return _anew(library.lafkuno_encode_array, source, _number(start, 2**64 - 1), _end(end), ends.encode())


def expand(source, start=0, end=None, *, most_rows=0):
    """Rows start to end - 1 of a run-end column of numbers as plain rows; without an end, all from start on.

    most_rows: the most rows that are taken, since a run may stand for any number of them; 0 stands for 2 ** 32.
    """
    options = Options(False, False, _number(most_rows, 2**64 - 1))
    return _anew(library.lafkuno_expand_array, source, _number(start, 2**64 - 1), _end(end), byref(options))


def reclaim(source):
    """A dictionary column with only the entries that some valid key of its rows names, in their old order; rows read as before."""
    return _anew(library.lafkuno_reclaim_array, source)


def _end(end):
    """None is the array's length, which `_anew` knows."""
    return None if end is None else _number(end, 2**64 - 1)


def _anew(call, source, *given):
    """A call that writes one column anew, with what it is given between the source and the result."""
    capsules = _capsules(0, source)  # kept until the call is over
    pair = Source(ctypes.pointer(unwrap(capsules[0], SCHEMA)), ctypes.pointer(unwrap(capsules[1], ARRAY)))
    given = (max(pair.array[0].length, 0) if value is None else value for value in given)
    schema, array, failure = ArrowSchema(), ArrowArray(), Failure()
    code = call(byref(pair), *given, byref(schema), byref(array), byref(failure))
    return _made(code, schema, array, failure)


def _made(code, schema, array, failure):
    if code == 100:
        raise MemoryError(str(Error(failure)))
    if code:
        raise Error(failure)
    return Array(schema, array)
