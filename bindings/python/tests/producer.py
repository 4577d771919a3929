"""A producer of Arrow arrays in plain ctypes, which owes nothing to the module under test.

`Made` says what an array is, and may say what no sound producer would. `column_of` hands one over by
capsules. Each struct that is handed over counts in `alive` until it is released.
"""

import ctypes
from typing import Any, List, NamedTuple, Optional, Sequence

from vortex_select._arrays import Field, field_of_type
from vortex_select._native import Array as NativeArray
from vortex_select._native import array_from_capsules
from vortex_select.columns import column_over


class Schema(ctypes.Structure):
    """`struct ArrowSchema`."""


class Array(ctypes.Structure):
    """`struct ArrowArray`."""


class Stream(ctypes.Structure):
    """`struct ArrowArrayStream`."""

    _fields_ = [
        (name, ctypes.c_void_p)
        for name in ("get_schema", "get_next", "get_last_error", "release", "private_data")
    ]


Schema._fields_ = [
    ("format", ctypes.c_char_p),
    ("name", ctypes.c_char_p),
    ("metadata", ctypes.c_void_p),
    ("flags", ctypes.c_int64),
    ("n_children", ctypes.c_int64),
    ("children", ctypes.POINTER(ctypes.POINTER(Schema))),
    ("dictionary", ctypes.POINTER(Schema)),
    ("release", ctypes.c_void_p),
    ("private_data", ctypes.c_void_p),
]
Array._fields_ = [
    ("length", ctypes.c_int64),
    ("null_count", ctypes.c_int64),
    ("offset", ctypes.c_int64),
    ("n_buffers", ctypes.c_int64),
    ("n_children", ctypes.c_int64),
    ("buffers", ctypes.POINTER(ctypes.c_void_p)),
    ("children", ctypes.POINTER(ctypes.POINTER(Array))),
    ("dictionary", ctypes.POINTER(Array)),
    ("release", ctypes.c_void_p),
    ("private_data", ctypes.c_void_p),
]
RELEASE = ctypes.CFUNCTYPE(None, ctypes.c_void_p)
NAMES = {Schema: b"arrow_schema", Array: b"arrow_array", Stream: b"arrow_array_stream"}

# The structs that aren't released yet, with what they lead to, by number.
alive = {}
_numbers = iter(range(1, 2**62))


def _let_go(struct):
    for k in range(struct.n_children):
        release(struct.children[k].contents)
    if struct.dictionary:
        release(struct.dictionary.contents)
    number, struct.release = struct.private_data, None
    alive.pop(number)


@RELEASE
def _release_array(place):
    _let_go(Array.from_address(place))


@RELEASE
def _release_schema(place):
    _let_go(Schema.from_address(place))


def release(struct):
    """Release a struct, if that wasn't done."""
    if struct.release:
        RELEASE(struct.release)(ctypes.addressof(struct))


def _own(struct, call, *keep):
    struct.private_data = next(_numbers)
    struct.release = ctypes.cast(call, ctypes.c_void_p)
    alive[struct.private_data] = struct, keep
    return struct


def _below(struct, kind, children, dictionary):
    listed = (ctypes.POINTER(kind) * max(len(children), 1))(*map(ctypes.pointer, children))
    struct.n_children = len(children)
    struct.children = ctypes.cast(listed, ctypes.POINTER(ctypes.POINTER(kind)))
    if dictionary is not None:
        struct.dictionary = ctypes.pointer(dictionary)
    return listed, children, dictionary


class Made(NamedTuple):
    """An array: its numbers, its buffers (objects of Python, or None), children and dictionary."""

    length: int
    null_count: int
    offset: int
    buffers: Sequence[Any]
    children: Sequence[Any] = ()
    dictionary: Optional[Any] = None


def made_array(length, null_count, offset, buffers, children=(), dictionary=None) -> Made:
    """Return an array over buffers."""
    return Made(length, null_count, offset, buffers, children, dictionary)


def _address(data):
    """Return the bytes of a buffer, held by ctypes, and their place."""
    if data is None:
        return None, None
    held = (ctypes.c_char * max(memoryview(data).nbytes, 1))()
    held[: memoryview(data).nbytes] = memoryview(data).tobytes()
    return held, ctypes.addressof(held)


def array_struct(made: Made) -> Array:
    """Return the struct of an array, which owns copies of the buffers."""
    held: List[Any] = [_address(data) for data in made.buffers]
    listed = (ctypes.c_void_p * max(len(held), 1))(*(place for _, place in held))
    struct = Array(made.length, made.null_count, made.offset, len(held))
    struct.buffers = ctypes.cast(listed, ctypes.POINTER(ctypes.c_void_p))
    children = [array_struct(child) for child in made.children]
    inner = None if made.dictionary is None else array_struct(made.dictionary)
    return _own(struct, _release_array, held, listed, _below(struct, Array, children, inner))


def schema_struct(field: Field) -> Schema:
    """Return the struct of a schema."""
    struct = Schema(field.format.encode(), field.name.encode(), None, field.flags)
    if field.metadata is not None:
        struct.metadata = ctypes.cast(ctypes.c_char_p(field.metadata), ctypes.c_void_p)
    children = [schema_struct(child) for child in field.children]
    inner = None if field.dictionary is None else schema_struct(field.dictionary)
    return _own(struct, _release_schema, field, _below(struct, Schema, children, inner))


_new = ctypes.pythonapi.PyCapsule_New
_new.argtypes, _new.restype = [ctypes.c_void_p, ctypes.c_char_p, ctypes.c_void_p], ctypes.py_object


def capsule(struct):
    """Return a capsule with a struct that nothing moves or frees; who takes it out releases it."""
    kept = type(struct)()
    ctypes.memmove(ctypes.addressof(kept), ctypes.addressof(struct), ctypes.sizeof(struct))
    _capsules.append(kept)
    return _new(ctypes.addressof(kept), NAMES[type(struct)], None)


_capsules: List[Any] = []


class Produced:
    """An object that hands over an array by capsules, each time as structs of its own."""

    def __init__(self, field: Field, made: Made):
        self.field, self.made = field, made

    def __arrow_c_array__(self, requested_schema=None):
        return capsule(schema_struct(self.field)), capsule(array_struct(self.made))


def made_of(node) -> Made:
    """Return what an array of the module is, as this producer hands it over."""
    inner = node.dictionary
    children = [made_of(child) for child in node.children]
    dictionary = None if inner is None else made_of(inner)
    return Made(node.length, node.null_count, node.offset, node.buffers, children, dictionary)


def column_of(of, made, name="", flags=2, metadata=None):
    """Return a column of the module over an array that is handed over by capsules."""
    field = field_of_type(of, name, flags)._replace(metadata=metadata)
    if isinstance(made, NativeArray):
        made = made_of(made.node)
    return column_over([array_from_capsules(*Produced(field, made).__arrow_c_array__())])
