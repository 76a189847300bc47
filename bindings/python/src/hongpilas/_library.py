"""The calls of the library for C, by ctypes over its shared object."""
from __future__ import annotations

import ctypes
import enum
import operator
import os
from typing import Any

#: The major version of the interface.
MAJOR = 2
HERE = os.path.dirname(os.path.abspath(__file__))
#: Where the shared object is: in the package; or, of a package that is used where it lies, where `make` builds it or where the tarball has it.
PLACES = (HERE, os.path.join(HERE, "../../../../out"), os.path.join(HERE, "../../../../lib"))
FILE = "libhongpilas.so"


class Refusal(enum.IntEnum):
    """Why a call is refused. A number of a later library is one, too, without a name of its own."""

    OUT_OF_MEMORY = 1
    NO_SUCH_VIEW = 2
    UNKNOWN_MESSAGE = 3
    NO_SUCH_DOCUMENT = 4
    TOO_LONG = 5
    BAD_ARGUMENT = 6
    TOO_MANY = 7

    @classmethod
    def _missing_(cls, value: object) -> Refusal:
        if not isinstance(value, int) or value < 1:
            raise ValueError(f"{value!r} is no refusal")
        member = int.__new__(cls, value)
        member._name_, member._value_ = f"REFUSAL_{value}", value
        return member


class LimitsInC(ctypes.Structure):
    """Limits of a session; hongpilas_limits of the header."""

    _fields_ = [(name, ctypes.c_uint64) for name in ("doc_bytes", "large_bytes", "handles", "ids", "refs", "views", "depth")]


class NoteInC(ctypes.Structure):
    """A notification; hongpilas_note_data of the header."""

    _fields_ = [
        *((name, ctypes.c_uint32) for name in ("view", "code", "kind", "message")),
        *((name, ctypes.c_int64) for name in ("position", "length", "lines", "line", "now", "prev", "token", "w", "l")),
        ("text", ctypes.c_void_p),
        ("text_length", ctypes.c_size_t),
    ]


def whole(number: int, least: int, most: int) -> int:
    """The number, which a call takes if it is in a range. Raises OverflowError where ctypes would cut it, and TypeError of no whole number."""
    number = operator.index(number)
    if not least <= number <= most:
        raise OverflowError(f"{number} is out of range")
    return number


def as_int64(number: int) -> int:
    return whole(number, -0x8000000000000000, 0x7FFFFFFFFFFFFFFF)


def as_uint32(number: int) -> int:
    return whole(number, 0, 0xFFFFFFFF)


def as_uint64(number: int) -> int:
    return whole(number, 0, 0xFFFFFFFFFFFFFFFF)


def library() -> str:
    """The path of the shared object: the one that HONGPILAS names from the caller's folder, or else the first that is there."""
    named = os.environ.get("HONGPILAS")
    if named:
        path = os.path.abspath(named)
        if not os.path.isfile(path):
            raise ImportError(f"HONGPILAS names the shared object itself, as /usr/local/lib/{FILE}: no file is at {path}")
        return path
    for place in PLACES:
        path = os.path.abspath(os.path.join(place, FILE))
        if os.path.isfile(path):
            return path
    raise ImportError(f"{FILE} is not in the package: build it with `make` at the top of the repository, or name one in HONGPILAS")


def load() -> Any:
    """The shared object, with the types of its calls."""
    lib = ctypes.CDLL(library())
    session, size, number, view = ctypes.c_void_p, ctypes.c_size_t, ctypes.c_int64, ctypes.c_uint32
    address, to_size, to_number = ctypes.POINTER(ctypes.c_void_p), ctypes.POINTER(size), ctypes.POINTER(number)
    types: dict[str, tuple[Any, list[Any]]] = {
        "version": (view, []),
        "new_with_limits": (view, [address, ctypes.POINTER(LimitsInC), size]),
        "free": (None, [session]),
        "new_view": (view, [session, ctypes.POINTER(view)]),
        "close_view": (view, [session, view]),
        "send": (view, [session, view, view, number, number, ctypes.c_void_p, size, to_number]),
        "ask": (view, [session, view, view, number, number, to_number]),
        "read": (view, [session, view, view, number, number, address, to_size, to_number]),
        "value": (view, [session, to_number]),
        "text": (view, [session, address, to_size]),
        "note_count": (view, [session, to_size]),
        "note": (view, [session, size, ctypes.POINTER(NoteInC), size]),
        "lend_range": (view, [session, view, size, size, address]),
        "answer_name": (ctypes.c_char_p, [view]),
        "note_name": (ctypes.c_char_p, [view]),
    }
    for name, (result, arguments) in types.items():
        # A library of another major version may lack a call, and is named as what it is.
        function = getattr(lib, "hongpilas_" + name, None)
        if function is None:
            continue
        function.restype, function.argtypes = result, arguments
    if lib.hongpilas_version() // 1000 != MAJOR:
        raise ImportError(f"the shared object has version {lib.hongpilas_version()} of the interface, and this package needs {MAJOR}000 to {MAJOR}999")
    return lib


LIB = load()


def name_of(answer: int) -> str:
    """The name of a refusal, such as `no such view`."""
    name: bytes = LIB.hongpilas_answer_name(answer)
    return name.decode()
