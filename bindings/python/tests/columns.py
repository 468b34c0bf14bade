"""Arrow arrays for tests, built buffer by buffer and read row by row as the Columnar Format says, without the library.

Every buffer is a block of its own with exactly the bytes that format, length and offset ask for, so that a memory checker sees a step
outside. Slots outside a window hold anything."""

import ctypes
import struct
from ctypes import POINTER, c_void_p, pointer

from lafkuno._capsule import ARRAY, SCHEMA, borrow, unwrap
from lafkuno._library import ArrowArray, ArrowSchema, Release

_libc = ctypes.CDLL(None)
_libc.malloc.restype = c_void_p
_libc.malloc.argtypes = [ctypes.c_size_t]
_libc.free.argtypes = [c_void_p]

WIDTHS = dict(c=1, C=1, s=2, S=2, i=4, I=4, l=8, L=8, f=4, g=8)
STORAGE = {"e": "S", "tdD": "i", "tdm": "l", "tts": "i", "ttm": "i", "ttu": "l", "ttn": "l", "tiM": "i", "tiD": "l"}


def storage(format):
    if format[:2] in ("ts", "tD"):
        return "l"
    return STORAGE.get(format, format)


class Type:
    def __init__(self, format, nullable=False, children=(), dictionary=None, name="", metadata=None, ordered=False):
        self.format, self.nullable, self.children, self.dictionary = format, nullable, list(children), dictionary
        self.name, self.metadata, self.ordered = name, metadata, ordered

    @property
    def ids(self):
        return [int(i) for i in self.format[4:].split(",")] if len(self.format) > 4 else []

    def nodes(self):
        below = self.children + ([self.dictionary] if self.dictionary else [])
        return [self] + [n for c in below for n in c.nodes()]


def metadata_bytes(pairs):
    texts = [t.encode() for pair in pairs for t in pair]
    return struct.pack("<i", len(pairs)) + b"".join(struct.pack("<i", len(t)) + t for t in texts)


@Release
def _nothing(_):
    """The structs are kept by their column, and never released."""


class Column:
    """A type and an ArrowArray over blocks of memory; slices share them."""

    def __init__(self, type, length, offset, buffers, children=(), dictionary=None, null_count=-1, blocks=None):
        self.type, self.length, self.offset, self.null_count = type, length, offset, null_count
        self.buffers, self.children, self.dictionary = buffers, list(children), dictionary
        self.structs = []
        self.blocks = blocks if blocks is not None else [Block(b) if b is not None else None for b in buffers]

    def slice(self, start, length):
        null_count = 0 if self.null_count == 0 else -1
        return Column(self.type, length, self.offset + start, self.buffers, self.children, self.dictionary, null_count, self.blocks)

    def bytes(self):
        """What the columns' own blocks hold now."""
        return [None if b is None else b.get() for b in self.blocks]

    def schema(self):
        return make_schema(self.type)

    def array(self):
        return make_array(self)

    def __arrow_c_array__(self, requested_schema=None):
        self.structs = self.structs or [self.schema(), self.array()]
        return borrow(self.structs[0], SCHEMA), borrow(self.structs[1], ARRAY)


class Schema:
    """A type by itself."""

    def __init__(self, type):
        self.struct = make_schema(type)

    def __arrow_c_schema__(self):
        return borrow(self.struct, SCHEMA)


class Block:
    def __init__(self, content):
        self.size = len(content)
        self.address = _libc.malloc(max(self.size, 1))
        ctypes.memmove(self.address, content, self.size)

    def get(self):
        return ctypes.string_at(self.address, self.size)

    def put(self, content):
        ctypes.memmove(self.address, content, len(content))

    def __del__(self, free=_libc.free):
        free(self.address)


def make_schema(type):
    flags = (2 if type.nullable else 0) | (1 if type.ordered else 0)
    out = ArrowSchema(format=type.format.encode(), name=type.name.encode(), flags=flags, release=_nothing)
    out.keep = [make_schema(c) for c in type.children]
    if type.metadata is not None:
        out.text = ctypes.create_string_buffer(type.metadata, len(type.metadata))
        out.metadata = ctypes.addressof(out.text)
    if out.keep:
        out.table = (POINTER(ArrowSchema) * len(out.keep))(*(pointer(c) for c in out.keep))
        out.n_children, out.children = len(out.keep), out.table
    if type.dictionary:
        out.values = make_schema(type.dictionary)
        out.dictionary = pointer(out.values)
    return out


def make_array(column):
    addresses = [None if b is None else b.address for b in column.blocks]
    out = ArrowArray(length=column.length, offset=column.offset, null_count=column.null_count, release=_nothing)
    out.list = (c_void_p * max(len(addresses), 1))(*addresses)
    out.n_buffers, out.buffers = len(addresses), out.list
    out.keep = [make_array(c) for c in column.children]
    if out.keep:
        out.table = (POINTER(ArrowArray) * len(out.keep))(*(pointer(c) for c in out.keep))
        out.n_children, out.children = len(out.keep), out.table
    if column.dictionary:
        out.values = make_array(column.dictionary)
        out.dictionary = pointer(out.values)
    return out


# ---- reading


def _unpack(code, address, index):
    size = struct.calcsize(code)
    return struct.unpack("<" + code, ctypes.string_at(address + index * size, size))[0]


def valid(array, slot):
    bits = array.buffers[0]
    return not bits or _unpack("B", bits, slot // 8) >> slot % 8 & 1 == 1


def read(schema, array, row):
    """A row of an array: None, bytes, a list, or (id, row)."""
    format = storage(schema.format.decode())
    slot = array.offset + row
    assert 0 <= row < array.length, (format, row, array.length)
    if format == "+r":
        return _read_run(schema, array, slot)
    if format.startswith("+u"):
        return _read_union(format, schema, array, slot)
    if not valid(array, slot):
        return None
    if schema.dictionary:
        key = _unpack(format.translate(str.maketrans("cCsSiIlL", "bBhHiIqQ")), array.buffers[1], slot)
        return read(schema.dictionary[0], array.dictionary[0], key)
    if format in WIDTHS:
        return ctypes.string_at(array.buffers[1] + slot * WIDTHS[format], WIDTHS[format])
    if format in "zuZU":
        code = "i" if format in "zu" else "q"
        start, end = _unpack(code, array.buffers[1], slot), _unpack(code, array.buffers[1], slot + 1)
        return ctypes.string_at(array.buffers[2] + start, end - start) if end > start else b""
    if format in ("vz", "vu"):
        return _read_view(array, slot)
    if format in ("+l", "+L"):
        code = "i" if format == "+l" else "q"
        start, end = _unpack(code, array.buffers[1], slot), _unpack(code, array.buffers[1], slot + 1)
        return [read(schema.children[0][0], array.children[0][0], k) for k in range(start, end)]
    code = "i" if format == "+vl" else "q"
    start, size = _unpack(code, array.buffers[1], slot), _unpack(code, array.buffers[2], slot)
    return [read(schema.children[0][0], array.children[0][0], start + k) for k in range(size)]


def _read_view(array, slot):
    view = ctypes.string_at(array.buffers[1] + 16 * slot, 16)
    length, prefix, buffer, offset = struct.unpack("<I4sII", view)
    if length <= 12:
        return view[4 : 4 + length]
    assert buffer < array.n_buffers - 3 and offset + length <= _unpack("q", array.buffers[array.n_buffers - 1], buffer)
    text = ctypes.string_at(array.buffers[2 + buffer] + offset, length)
    assert text[:4] == prefix
    return text


def _read_union(format, schema, array, slot):
    id = _unpack("b", array.buffers[0], slot)
    child = [int(i) for i in format[4:].split(",")].index(id)
    at = slot if format.startswith("+us") else _unpack("i", array.buffers[1], slot)
    return (id, read(schema.children[child][0], array.children[child][0], at))


def _read_run(schema, array, slot):
    ends = array.children[0][0]
    code = {b"s": "h", b"i": "i", b"l": "q"}[schema.children[0][0].format]
    low, high = 0, ends.length
    while low < high:
        middle = (low + high) // 2
        if _unpack(code, ends.buffers[1], ends.offset + middle) > slot:
            high = middle
        else:
            low = middle + 1
    return read(schema.children[1][0], array.children[1][0], low)


def read_all(source):
    """All rows of an object of the protocol."""
    capsules = source.__arrow_c_array__()
    schema, array = unwrap(capsules[0], SCHEMA), unwrap(capsules[1], ARRAY)
    return [read(schema, array, row) for row in range(array.length)]


def ordered_null(type):
    """What an ordered null reads as."""
    if type.format.startswith("+u"):
        first = next(k for k, c in enumerate(type.children) if c.nullable)
        return (type.ids[first], ordered_null(type.children[first]))
    return ordered_null(type.children[1]) if type.format == "+r" else None


def describe(schema):
    """Everything that a schema holds."""
    size = 0
    if schema.metadata:
        at = 4
        for _ in range(2 * _unpack("i", schema.metadata, 0)):
            at += 4 + struct.unpack("<i", ctypes.string_at(schema.metadata + at, 4))[0]
        size = at
    return (
        schema.format,
        schema.name or b"",
        ctypes.string_at(schema.metadata, size) if size else None,
        schema.flags,
        [describe(schema.children[k][0]) for k in range(schema.n_children)],
        describe(schema.dictionary[0]) if schema.dictionary else None,
    )
