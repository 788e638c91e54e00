"""What of iova.h is used, and its refusals."""
import ctypes
import enum
import os
from typing import Any, Callable, Dict, Optional

NO_LIMIT = 2**64 - 1
"""A limit that no frame is above."""
NO_MASK = 2**64 - 1
"""A mask that every address is within."""

_VERSION = 2000  # of the header that this is written for
_u64 = ctypes.c_uint64


class Refusal(enum.IntEnum):
    """Why a call is refused: enum iova_refusal of iova.h, and the daemon's in a session. `word` is the name as iovad prints it."""

    ZERO = 1
    TOO_BIG = 2
    NO_CLIENT = 3
    CLOSING = 4
    HOLDINGS_FULL = 5
    NO_SPACE = 6
    RING_FULL = 7
    NOT_HELD = 8
    TAKEN = 9
    BAD_WINDOW = 10
    WINDOWS_FULL = 11
    NO_WORKER = 12
    FLIGHTS_FULL = 13
    NO_FLIGHT = 14
    WORN = 15
    CLIENTS_FULL = 16
    NO_MEMORY = 17
    SINK_FAULT = 18
    LINK_FAULT = 19
    BAD_LINE = 20
    TOO_MANY = 21
    BAD_TRACE = 22
    NO_DOMAIN = 23
    TWICE = 24
    BAD_PROFILE = 25
    OTHER_VERSION = 200
    NO_CACHE = 201
    NO_ORDER = 202
    DRY = 203
    MISS = 204
    FULL = 205

    @property
    def word(self) -> str:
        return "".join(part.capitalize() for part in self.name.split("_"))


class Refused(Exception):
    """A call was refused. `number` is the refusal's, and `refusal` says which it is: None for one of a later library or daemon."""

    def __init__(self, number: int) -> None:
        self.number = number
        self.refusal: Optional[Refusal] = Refusal(number) if number in Refusal._value2member_map_ else None
        super().__init__(self.refusal.word if self.refusal else f"refusal {number}")


def in_64_bits(*numbers: int) -> None:
    """Raises ValueError where one of them isn't a number of 64 bits."""
    for number in numbers:
        if not 0 <= number < 2**64:
            raise ValueError(f"{number} isn't a number from 0 to 2^64 - 1")


class _Struct(ctypes.Structure):
    refused: int


def struct(name: str, *fields: str) -> Any:
    """An answer of the library: a struct of numbers, the first of which is `refused`."""
    return type(name, (_Struct,), {"_fields_": [(field, _u64) for field in ("refused",) + fields], "__slots__": ()})


Range = struct("Range", "lo", "len")
Number = struct("Number", "number")
PlaceAnswer = struct("PlaceAnswer", "kind", "number")
CountsAnswer = struct("CountsAnswer", "free", "reserved", "client", "magazine", "depot", "ring", "clients", "windows")
TotalsAnswer = struct("TotalsAnswer", "count", "frames", "sum_lo")
BoundsAnswer = struct("BoundsAnswer", "start", "last", "magazine", "depot", "workers")
FlushesAnswer = struct("FlushesAnswer", "start", "finish", "owed", "newest", "good", "in_flight")


class CacheCountsAnswer(_Struct):
    _fields_ = [("refused", _u64), ("held", _u64), ("waiting", _u64), ("magazines", _u64 * 6)]


class Listed(ctypes.Structure):
    _fields_ = [("lo", _u64), ("len", _u64)]


# The result of each call, and how many words it takes: pointers and numbers of 64 bits alike.
_CALLS: Dict[str, Any] = {
    "version": (_u64, 0),
    "domain_size": (ctypes.c_size_t, 0),
    "domain_init": (None, 1),
    "domain_make_granule": (_u64, 5),
    "domain_make_second_granule": (_u64, 6),
    "domain_clear": (None, 1),
    "reserve": (Range, 3),
    "open": (Number, 3),
    "alloc": (Range, 5),
    "unmap": (Range, 4),
    "begin": (Number, 1),
    "end": (_u64, 3),
    "drain": (Number, 3),
    "close": (Number, 3),
    "close_one": (Range, 3),
    "place_of": (PlaceAnswer, 2),
    "counts_of": (CountsAnswer, 1),
    "totals_of": (TotalsAnswer, 1),
    "share_of": (TotalsAnswer, 2),
    "bounds_of": (BoundsAnswer, 1),
    "granule_of": (Number, 1),
    "flushes_of": (FlushesAnswer, 1),
    "holdings_of": (Number, 4),
    "windows_of": (Number, 3),
    "cache_size": (ctypes.c_size_t, 0),
    "cache_init": (None, 1),
    "cache_clear": (None, 1),
    "cache_make": (Number, 4),
    "cache_alloc": (Range, 3),
    "cache_unmap": (Range, 3),
    "cache_settle": (Number, 2),
    "cache_refill": (Number, 5),
    "cache_spill": (Number, 4),
    "cache_alloc_by": (Range, 4),
    "cache_unmap_by": (Range, 3),
    "cache_end": (Number, 2),
    "cache_counts_of": (CacheCountsAnswer, 1),
}


class Library:
    """The calls of libiova by their names. A call keeps the interpreter's lock, so two threads are never in the library at once."""

    def __init__(self, path: str, mapping: Any) -> None:
        # not CDLL: a call takes less time than letting the lock go
        self.loaded = ctypes.PyDLL(path)
        self.calls: Dict[str, Callable[..., Any]] = {}
        for name, (result, words) in {**_CALLS, "map": (mapping, 5), "unmap_bytes": (mapping, 4)}.items():
            call = self.loaded["iova_" + name]
            # a c_void_p takes a number of 64 bits as it is, and sooner than a c_uint64 does
            call.restype, call.argtypes = result, [ctypes.c_void_p] * words
            self.calls[name] = call
        self.version: int = self.calls["version"]()
        self.room_bytes: int = self.calls["domain_size"]()
        if self.version // 1_000_000 != _VERSION // 1_000_000 or self.version < _VERSION:
            raise Refused(Refusal.OTHER_VERSION)


def path_of_library() -> str:
    """libiova.so.0 of the folder of IOVA_LIB_DIR, or else the one that the dynamic loader finds."""
    folder = os.environ.get("IOVA_LIB_DIR")
    return os.path.join(folder, "libiova.so.0") if folder else "libiova.so.0"


_loaded: Dict[str, Library] = {}


def library(mapping: Any) -> Library:
    path = path_of_library()
    if path not in _loaded:
        try:
            _loaded[path] = Library(path, mapping)
        except OSError as fault:
            raise OSError(f"{fault}: install libiova0, or say in IOVA_LIB_DIR which folder has libiova.so.0") from None
    return _loaded[path]


def version() -> int:
    """The version of the library: 1,000,000 times its first number, 1,000 times its second, and its third."""
    from .domain import Mapping

    return library(Mapping).version
