"""The shared library and the structs of the Arrow C Data Interface, by ctypes."""

import ctypes
import os
from ctypes import POINTER, Structure, c_char, c_char_p, c_int, c_int64, c_size_t, c_uint32, c_uint64, c_void_p
from pathlib import Path

Release = ctypes.CFUNCTYPE(None, c_void_p)


class ArrowSchema(Structure):
    pass


ArrowSchema._fields_ = [
    ("format", c_char_p),
    ("name", c_char_p),
    ("metadata", c_void_p),
    ("flags", c_int64),
    ("n_children", c_int64),
    ("children", POINTER(POINTER(ArrowSchema))),
    ("dictionary", POINTER(ArrowSchema)),
    ("release", Release),
    ("private_data", c_void_p),
]


class ArrowArray(Structure):
    pass


ArrowArray._fields_ = [
    ("length", c_int64),
    ("null_count", c_int64),
    ("offset", c_int64),
    ("n_buffers", c_int64),
    ("n_children", c_int64),
    ("buffers", POINTER(c_void_p)),
    ("children", POINTER(POINTER(ArrowArray))),
    ("dictionary", POINTER(ArrowArray)),
    ("release", Release),
    ("private_data", c_void_p),
]


class Source(Structure):
    _fields_ = [("schema", POINTER(ArrowSchema)), ("array", POINTER(ArrowArray))]


class Order(Structure):
    _fields_ = [("source", c_uint32), ("start", c_uint64), ("end", c_uint64)]


class Options(Structure):
    _fields_ = [("keep_nulls", c_int), ("one_run_for_gaps", c_int), ("most_rows", c_uint64)]


class Failure(Structure):
    _fields_ = [
        ("code", c_int),
        ("column", c_int64),
        ("source", c_int64),
        ("order", c_int64),
        ("node", c_int64),
        ("row", c_int64),
        ("found", c_uint64),
        ("allowed", c_uint64),
        ("message", c_char * 512),
    ]


GAP = 0xFFFFFFFF


def _candidates():
    """LAFKUNO_LIBRARY, beside the package, where the repository builds it, then wherever the system finds it."""
    if "LAFKUNO_LIBRARY" in os.environ:
        yield os.environ["LAFKUNO_LIBRARY"]
        return
    here = Path(__file__).resolve().parent
    for path in (here / "liblafkuno.so", here.parents[2] / "target" / "c" / "liblafkuno.so"):
        if path.exists():
            yield str(path)
    yield "liblafkuno.so.0.2"


def _load():
    problems = []
    for path in _candidates():
        try:
            return ctypes.CDLL(path)
        except OSError as error:
            problems.append(str(error))
    raise ImportError("liblafkuno.so was not found: run 'make', or set LAFKUNO_LIBRARY (" + "; ".join(problems) + ")")


library = _load()
_JOIN = [
    POINTER(Source),
    c_size_t,
    POINTER(Order),
    c_size_t,
    POINTER(Options),
    POINTER(ArrowSchema),
    POINTER(ArrowArray),
    POINTER(Failure),
]
library.lafkuno_join_arrays.argtypes = _JOIN
library.lafkuno_join_batches.argtypes = _JOIN
library.lafkuno_convert_array.argtypes = [POINTER(Source), POINTER(ArrowSchema)] + _JOIN[4:]
library.lafkuno_encode_array.argtypes = [POINTER(Source), c_uint64, c_uint64, c_char_p] + _JOIN[5:]
library.lafkuno_expand_array.argtypes = [POINTER(Source), c_uint64, c_uint64] + _JOIN[4:]
library.lafkuno_reclaim_array.argtypes = [POINTER(Source)] + _JOIN[5:]
library.lafkuno_share_array.argtypes = [POINTER(ArrowArray), POINTER(ArrowArray)]
library.lafkuno_copy_schema.argtypes = [POINTER(ArrowSchema), POINTER(ArrowSchema)]
library.lafkuno_meaning.argtypes = [c_int]
library.lafkuno_meaning.restype = c_char_p
library.lafkuno_version.restype = c_char_p
library.lafkuno_capsules_begin.argtypes = [c_void_p]
library.lafkuno_capsules_begin.restype = None
library.lafkuno_capsule_struct.argtypes = [c_size_t]
library.lafkuno_capsule_struct.restype = c_void_p
