"""PyCapsules of ArrowSchema and ArrowArray, as the Arrow PyCapsule protocol asks for them."""

import ctypes
from ctypes import c_char_p, c_void_p, py_object

from ._library import ArrowArray, ArrowSchema, library

_api = ctypes.pythonapi
_new = ctypes.PYFUNCTYPE(py_object, c_void_p, c_char_p, c_void_p)(("PyCapsule_New", _api))
_pointer = ctypes.PYFUNCTYPE(c_void_p, py_object, c_char_p)(("PyCapsule_GetPointer", _api))

SCHEMA, ARRAY = b"arrow_schema", b"arrow_array"
_KINDS = {SCHEMA: ArrowSchema, ARRAY: ArrowArray}
_DESTRUCTORS = {
    SCHEMA: ctypes.cast(library.lafkuno_drop_schema_capsule, c_void_p),
    ARRAY: ctypes.cast(library.lafkuno_drop_array_capsule, c_void_p),
}
# the names are kept for as long as the process runs: a capsule may outlive this module
_api.Py_IncRef(py_object(_KINDS))
library.lafkuno_capsules_begin(ctypes.cast(_api.PyCapsule_GetPointer, c_void_p))


def release(struct):
    """Calls the release callback, unless whoever took the struct has moved it away."""
    if struct.release:
        struct.release(ctypes.addressof(struct))


def fresh(name):
    """A capsule that owns a struct of zeros, and the struct, to be filled."""
    address = library.lafkuno_capsule_struct(ctypes.sizeof(_KINDS[name]))
    if not address:
        raise MemoryError
    return _new(address, name, _DESTRUCTORS[name]), _KINDS[name].from_address(address)


def borrow(struct, name):
    """A capsule over a struct that somebody else keeps."""
    return _new(ctypes.addressof(struct), name, None)


def unwrap(capsule, name):
    """The struct of a capsule, which still owns it."""
    return _KINDS[name].from_address(_pointer(capsule, name))
