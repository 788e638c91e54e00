"""A domain in this process, its clients and their mappings."""
import ctypes
import enum
from types import TracebackType
from typing import Any, Callable, List, NamedTuple, Optional, Set, Tuple, Type

from .cache import Cache
from .library import NO_LIMIT, NO_MASK, Listed, Refused, _Struct, library, in_64_bits

_RING_FULL = 7


class Frames(NamedTuple):
    """Frames in a row: the first, and how many."""

    lo: int
    len: int


class Counts(NamedTuple):
    """How many frames are at each kind of place, together all frames of the bounds; how many clients and windows there are."""

    free: int
    reserved: int
    client: int
    magazine: int
    depot: int
    ring: int
    clients: int
    windows: int


class Totals(NamedTuple):
    """What some clients hold: how many ranges, how many frames these have, and the sum of their first frames."""

    count: int  # type: ignore[assignment]
    frames: int
    sum_lo: int


class Bounds(NamedTuple):
    """What a domain was made with: first and last frame, the entries of a magazine, the magazines of a depot, the workers."""

    start: int
    last: int
    magazine: int
    depot: int
    workers: int


class Flushes(NamedTuple):
    """The flushes: begun, accounted for, the failed ones that are owed, the newest that ended well, how many did, how many are in
    flight."""

    start: int
    finish: int
    owed: int
    newest: int
    good: int
    in_flight: int


class PlaceKind(enum.IntEnum):
    """At what a frame is: outside the bounds, nobody's, a window's, a client's, in a magazine, in the depot, in a ring."""

    OUTSIDE = 0
    FREE = 1
    RESERVED = 2
    CLIENT = 3
    MAGAZINE = 4
    DEPOT = 5
    RING = 6


class Place(NamedTuple):
    """Where a frame is. `number` is the client's or the worker's, else 0."""

    kind: PlaceKind
    number: int


def _fields(answer: Any) -> Tuple[int, ...]:
    if answer.refused:
        raise Refused(answer.refused)
    return tuple(getattr(answer, name) for name, _ in answer._fields_[1:])


def _number(answer: Any) -> int:
    if answer.refused:
        raise Refused(answer.refused)
    number: int = answer.number
    return number


def _range(answer: Any) -> Frames:
    if answer.refused:
        raise Refused(answer.refused)
    return Frames(answer.lo, answer.len)


class Mapping(_Struct):
    """Bytes in a row that a device may use: those of Client.map. `address` and `bytes` are multiples of the domain's granule.

    It is given up by unmap(), or at the end of a with. Nothing is given up where the object is merely forgotten: then it stays its
    client's, and goes with that.
    """

    __slots__ = ("client",)
    _fields_ = [("refused", ctypes.c_uint64), ("address", ctypes.c_uint64), ("bytes", ctypes.c_uint64)]
    address: int
    bytes: int
    client: "Optional[Client]"

    def unmap(self) -> None:
        """The device no longer uses it: it waits in the ring of its client's worker for a flush. Refused by RING_FULL, and then it
        stays; flush, and try again. A second time does nothing."""
        client = self.client
        if client is not None:
            refused = client._unmap(client._room, client.worker, client.number, self.address).refused
            if refused:
                raise Refused(refused)
            self.client = None

    def __enter__(self) -> "Mapping":
        return self

    def __exit__(self, kind: Optional[Type[BaseException]], fault: Optional[BaseException], trace: Optional[TracebackType]) -> None:
        """Gives it up; where the ring is full, the domain owes it until the next flush, and where its client is gone, it is too."""
        client = self.client
        if client is not None:
            self.client = None
            if client._unmap(client._room, client.worker, client.number, self.address).refused == _RING_FULL:
                client.domain._owed.append((client.worker, client.number, self.address))

    def __repr__(self) -> str:
        return f"<Mapping {self.address:#x}, {self.bytes} bytes{'' if self.client else ', given up'}>"


class Client:
    """A client of a worker: Domain.client makes it. At the end of a with, or by close(), it is closed with all that it has."""

    __slots__ = ("domain", "worker", "number", "_room", "_map", "_unmap")

    def __init__(self, domain: "Domain", worker: int, number: int) -> None:
        self.domain, self.worker, self.number = domain, worker, number
        self._room: int = domain._at
        self._map: Callable[..., Any] = domain._calls["map"]
        self._unmap: Callable[..., Any] = domain._calls["unmap_bytes"]

    def map(self, bytes: int, mask: int = NO_MASK) -> Mapping:
        """A range for so many bytes, none above the address `mask`, as 2**32 - 1 for a device of 32 bits. The bytes are rounded up to
        frames, and as Domain.alloc says. Refused as that is; for 0 bytes by ZERO, for more than 1,048,576 frames (4 GiB of 4,096 bytes)
        by TOO_BIG, for a mask in which two frames don't end (below 8,191) by NO_SPACE."""
        if (bytes | mask) >> 64:
            in_64_bits(bytes, mask)
        given: Mapping = self._map(self._room, self.worker, self.number, bytes, mask)
        if given.refused:
            raise Refused(given.refused)
        given.client = self
        return given

    def holdings(self) -> List[Frames]:
        """The ranges that it holds, rising by first frame."""
        return self.domain.holdings(self.number)

    def close(self) -> None:
        """Closes it: all that it holds goes into its worker's ring. What has no room there is owed until the next flush."""
        self.domain._close(self.worker, self.number)

    def __enter__(self) -> "Client":
        return self

    def __exit__(self, kind: Optional[Type[BaseException]], fault: Optional[BaseException], trace: Optional[TracebackType]) -> None:
        self.close()

    def __repr__(self) -> str:
        return f"<Client {self.number} of worker {self.worker}>"


class Domain:
    """The address space of one device: frames `start` to `last`, `1 <= start <= last <= 2**36 - 1`, with 1 to 16 workers, which stand for
    processors. With `depot`, 0 to 32, the second profile: frames up to 2**40 - 1, magazines of 127 entries. A frame has `granule` bytes, a
    power of two from 4,096 to 2,097,152: calls in bytes round by it, and all numbers of frames are as ever.

    Refused by BAD_PROFILE, BAD_WINDOW, NO_WORKER, NO_MEMORY; by OTHER_VERSION where the library doesn't serve this package. At the end of
    a with, or by close(), it ends, and each later call is refused by NO_DOMAIN. The calls that take numbers are the steps of iova.h; mostly
    a program has a Client and its mappings in their place. One thread at a time works on it.
    """

    def __init__(self, start: int, last: int, workers: int = 1, depot: Optional[int] = None, granule: int = 4096) -> None:
        in_64_bits(start, last, workers, depot or 0, granule)
        its = library(Mapping)
        self._calls = its.calls
        # room aligned to 8
        self._words = (ctypes.c_uint64 * ((its.room_bytes + 7) // 8))()
        self._at = ctypes.addressof(self._words)
        self._workers = workers
        # what a with couldn't give up: a client's mapping, or, without an address, a client
        self._owed: List[Tuple[int, int, Optional[int]]] = []
        self._caches: List[Cache] = []
        self._flushing: Set[int] = set()  # the threads that are in the invalidate of a cache
        self._calls["domain_init"](self._at)
        if depot is None:
            refused = self._calls["domain_make_granule"](self._at, start, last, workers, granule)
        else:
            refused = self._calls["domain_make_second_granule"](self._at, start, last, workers, depot, granule)
        if refused:
            raise Refused(refused)

    def client(self, worker: int = 0, sac: bool = False) -> Client:
        """A client of the worker. With `sac` (single address cycle) it is first sought a place below 4 GiB, in frames of 4,096 bytes.
        Refused as open() is."""
        return Client(self, worker, self.open(worker, sac))

    def cache(self, invalidate: Callable[[], object], worker: int = 0, sac: bool = False) -> Cache:
        """A cache of ranges, which is a client of the worker and flushes by `invalidate` where it has to. Refused as open() is."""
        return Cache(self, invalidate, worker, sac)

    def flush(self, invalidate: Callable[[], object]) -> int:
        """A flush of the IOTLB: `invalidate` is called once it has begun, and answers whether the invalidation was done; what it raises is
        raised, and the flush has failed. Then each ring is drained into its own worker's magazines, and what is owed is given up. Answers
        how many ranges left the rings. Refused by FLIGHTS_FULL, WORN."""
        number = self.begin()
        is_done = False
        try:
            is_done = bool(invalidate())
        finally:
            self.end(number, is_done)
        left = sum(self.drain(worker, worker) for worker in range(self._workers))
        self._pay()
        return left

    def _pay(self) -> None:
        owed, self._owed = self._owed, []
        for worker, client, address in owed:
            if address is None:
                self._close(worker, client)
            elif self._calls["unmap_bytes"](self._at, worker, client, address).refused == _RING_FULL:
                self._owed.append((worker, client, address))

    @property
    def owed(self) -> int:
        """How many mappings and clients are still to be given up, since their worker's ring was full."""
        return len(self._owed)

    def _close(self, worker: int, client: int, flush: Callable[[], bool] = lambda: False) -> None:
        flushes = 0
        while True:
            left = self._calls["close_one"](self._at, worker, client)
            if left.refused == _RING_FULL:
                flushes += 1
                goes_on = False
                try:
                    goes_on = flushes <= 4 and flush()
                finally:
                    if not goes_on:
                        self._owed.append((worker, client, None))
                if not goes_on:
                    return
            elif left.refused or left.len == 0:
                return
            else:
                flushes = 0

    def close(self) -> None:
        """Ends the domain and its caches, and gives back all memory that they took."""
        for cache in self._caches:
            self._calls["cache_clear"](cache._at)
        self._caches.clear()
        self._calls["domain_clear"](self._at)

    def __enter__(self) -> "Domain":
        return self

    def __exit__(self, kind: Optional[Type[BaseException]], fault: Optional[BaseException], trace: Optional[TracebackType]) -> None:
        self.close()

    def __del__(self) -> None:
        # not where it was refused before there was room
        if hasattr(self, "_owed"):
            self.close()

    def __repr__(self) -> str:
        try:
            bounds = self.bounds()
        except Refused:
            return "<Domain, closed>"
        return f"<Domain of frames {bounds.start} to {bounds.last}, {bounds.workers} workers>"

    # The steps.

    def reserve(self, lo: int, hi: int) -> Frames:
        """Makes one window of the frames `lo` to `hi` and of all windows that overlap them, and answers it: frames that nobody is given.
        Refused by BAD_WINDOW, TAKEN, WINDOWS_FULL, NO_MEMORY."""
        in_64_bits(lo, hi)
        return _range(self._calls["reserve"](self._at, lo, hi))

    def open(self, worker: int, sac: bool = False) -> int:
        """Opens a client of the worker, and answers its number. Refused by NO_WORKER, WORN, CLIENTS_FULL, NO_MEMORY; by BAD_PROFILE with
        `sac` where the granule isn't 4,096."""
        in_64_bits(worker)
        return _number(self._calls["open"](self._at, worker, 1 if sac else 0))

    def alloc(self, worker: int, client: int, frames: int, limit: int = NO_LIMIT) -> Frames:
        """Gives the client the highest range that fits, none of its frames above frame `limit`. Fewer than 32 frames are rounded up to a
        power of two, and the range begins at a multiple of the least power of two that isn't below its length. Refused by NO_WORKER, ZERO,
        TOO_BIG, NO_CLIENT, CLOSING, HOLDINGS_FULL, NO_MEMORY, NO_SPACE. NO_SPACE has emptied all caches, and NO_MEMORY may have."""
        in_64_bits(worker, client, frames, limit)
        return _range(self._calls["alloc"](self._at, worker, client, frames, limit))

    def unmap(self, worker: int, client: int, lo: int) -> Frames:
        """Puts the client's holding that begins at frame `lo` into the worker's ring, where it waits for a flush, and answers it. Refused by
        NO_WORKER, NO_CLIENT, CLOSING, NOT_HELD, RING_FULL."""
        in_64_bits(worker, client, lo)
        return _range(self._calls["unmap"](self._at, worker, client, lo))

    def begin(self) -> int:
        """Begins a flush, and answers its number: now invalidate the IOTLB. Refused by FLIGHTS_FULL, WORN."""
        return _number(self._calls["begin"](self._at))

    def end(self, number: int, ok: bool) -> None:
        """Ends the flush of this number: `ok` says that the invalidation was done. Refused by NO_FLIGHT."""
        in_64_bits(number)
        refused = self._calls["end"](self._at, number, 1 if ok else 0)
        if refused:
            raise Refused(refused)

    def drain(self, ring: int, by: int) -> int:
        """Takes what flushes have covered out of the ring of worker `ring` into the magazines of worker `by`, and answers how many ranges.
        Refused by NO_WORKER."""
        in_64_bits(ring, by)
        return _number(self._calls["drain"](self._at, ring, by))

    def close_client(self, worker: int, client: int) -> int:
        """Marks the client closing: it is given nothing more. Answers how many ranges it holds. Refused by NO_WORKER, NO_CLIENT."""
        in_64_bits(worker, client)
        return _number(self._calls["close"](self._at, worker, client))

    def close_one(self, worker: int, client: int) -> Optional[Frames]:
        """Marks the client closing, and puts its lowest holding into the worker's ring; answers it, or None where it has none, and then it
        is gone. Refused by NO_WORKER, NO_CLIENT; by RING_FULL, and then it is marked."""
        in_64_bits(worker, client)
        left = _range(self._calls["close_one"](self._at, worker, client))
        return left if left.len else None

    # What it holds.

    def place(self, frame: int) -> Place:
        """Where the frame is."""
        in_64_bits(frame)
        kind, number = _fields(self._calls["place_of"](self._at, frame))
        return Place(PlaceKind(kind), number)

    def counts(self) -> Counts:
        """How many frames are where, without a walk over them."""
        return Counts(*_fields(self._calls["counts_of"](self._at)))

    def totals(self) -> Totals:
        """What all clients hold."""
        return Totals(*_fields(self._calls["totals_of"](self._at)))

    def share(self, worker: int) -> Totals:
        """What the clients of the worker hold. Refused by NO_WORKER."""
        in_64_bits(worker)
        return Totals(*_fields(self._calls["share_of"](self._at, worker)))

    def bounds(self) -> Bounds:
        """The bounds, the sizes of the caches and the workers."""
        return Bounds(*_fields(self._calls["bounds_of"](self._at)))

    @property
    def granule(self) -> int:
        """How many bytes a frame has."""
        return _number(self._calls["granule_of"](self._at))

    def flushes(self) -> Flushes:
        """The numbers of the flushes."""
        return Flushes(*_fields(self._calls["flushes_of"](self._at)))

    def holdings(self, client: int) -> List[Frames]:
        """The ranges that the client holds, rising by first frame. Refused by NO_CLIENT."""
        in_64_bits(client)
        return self._listed(lambda at, room: self._calls["holdings_of"](self._at, client, at, room))

    def windows(self) -> List[Frames]:
        """The windows, rising."""
        return self._listed(lambda at, room: self._calls["windows_of"](self._at, at, room))

    @staticmethod
    def _listed(ask: Callable[[int, int], Any]) -> List[Frames]:
        room = 64
        while True:
            listed = (Listed * room)()
            count = _number(ask(ctypes.addressof(listed), room))
            if count <= room:
                return [Frames(one.lo, one.len) for one in listed[:count]]
            room = count
