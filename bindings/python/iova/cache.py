"""A cache of ranges in front of a domain: what iova_shared.h is in C, for one thread."""
import ctypes
import threading
from types import TracebackType
from typing import TYPE_CHECKING, Any, Callable, List, NamedTuple, Optional, Type

from .library import NO_LIMIT, NO_MASK, Refused, Refusal, in_64_bits

if TYPE_CHECKING:
    from .domain import Domain

_ORDERS, _MAGAZINE, _RING, _EXCHANGED = 6, 256, 255, 64
# by these a range is no longer the user's; by each other refusal it still is
_GONE = (0, Refusal.NOT_HELD, Refusal.NO_CACHE, Refusal.NO_DOMAIN)


class CacheCounts(NamedTuple):
    """How many ranges of a cache are with the user, given up and waiting for a flush, and in magazines, where nobody has them."""

    held: int
    waiting: int
    cached: int


class Cached:
    """Bytes in a row of a cache that a device may use: those of Cache.map. `address` and `bytes` are multiples of the domain's granule.

    It is given up by unmap(), or at the end of a with. Nothing is given up where the object is merely forgotten: then it stays its
    cache's, and goes with that.
    """

    __slots__ = ("address", "bytes", "cache", "_lo")

    def __init__(self, cache: "Cache", lo: int, length: int) -> None:
        self.cache: Optional[Cache] = cache
        self._lo, self.address, self.bytes = lo, lo * cache._granule, length * cache._granule

    def unmap(self) -> None:
        """The device no longer uses it: it waits in the cache for a flush. Refused by RING_FULL where 255 wait and no flush goes well, and
        then it stays. A second time does nothing."""
        if self.cache is not None:
            self.cache._give_up(self._lo)
            self.cache = None

    def __enter__(self) -> "Cached":
        return self

    def __exit__(self, kind: Optional[Type[BaseException]], fault: Optional[BaseException], trace: Optional[TracebackType]) -> None:
        """Gives it up. If no flush goes well, or invalidate raises, the cache owes it, and does it at a later call."""
        cache, self.cache = self.cache, None
        if cache is not None:
            cache._give_up_or_owe(self._lo)

    def __repr__(self) -> str:
        return f"<Cached {self.address:#x}, {self.bytes} bytes{'' if self.cache else ', given up'}>"


class Cache:
    """A cache of a domain, of which it is one client of the worker: Domain.cache makes it. Up to 32 frames it gives out of its own
    magazines, and takes back into a ring of its own, where a range waits for a flush. It calls `invalidate` for a flush where 255 wait
    and where it finds no space; that answers whether the IOTLB was invalidated, and what it raises is raised. `invalidate` makes no
    flush: there flush() is refused by FLIGHTS_FULL. At the end of a with, or by close(), or with its domain, a cache ends with all that
    it gave; then map() is refused by NO_CACHE."""

    def __init__(self, domain: "Domain", invalidate: Callable[[], object], worker: int, sac: bool) -> None:
        in_64_bits(worker)
        self.domain, self.worker, self.invalidate = domain, worker, invalidate
        self._calls = domain._calls
        self._granule: int = domain.granule
        self._words = (ctypes.c_uint64 * ((self._calls["cache_size"]() + 7) // 8))()
        self._at = ctypes.addressof(self._words)
        self._clean = 0  # at least so many of the oldest that wait were covered by a flush
        self._owed: List[int] = []  # what a with couldn't give up
        self._has_raised = False  # invalidate, in the last flush
        self._is_wanted = False  # another cache found no space: what nobody uses goes back at the next call
        self._calls["cache_init"](self._at)
        made = self._calls["cache_make"](domain._at, self._at, worker, 1 if sac else 0)
        if made.refused:
            raise Refused(made.refused)
        self.number: int = made.number
        domain._caches.append(self)

    def map(self, bytes: int, mask: int = NO_MASK) -> Cached:
        """A range for so many bytes, none above the address `mask`. The bytes are rounded up to frames of the domain's granule, up to 32 of
        them to a power of two. Refused as Domain.alloc is."""
        in_64_bits(bytes, mask)
        return self.alloc(-(-bytes // self._granule), max(mask - (self._granule - 1), 0) // self._granule)

    def alloc(self, frames: int, limit: int = NO_LIMIT) -> Cached:
        """The same for so many frames, none above frame `limit`. Up to 32 need not be the highest that fit."""
        in_64_bits(frames, limit)
        if self._owed:
            self._pay()
        self._answer()
        range_ = self._request(frames, limit)
        if range_.refused == Refusal.NO_SPACE:
            for other in self.domain._caches:
                other._is_wanted = other._is_wanted or other is not self
        if range_.refused:
            raise Refused(range_.refused)
        return Cached(self, range_.lo, range_.len)

    def unmap(self, address: int) -> None:
        """Gives up the range in whose first frame the address is, of which there is no Cached any more. Refused as Cached.unmap is, and by
        NOT_HELD."""
        in_64_bits(address)
        self._give_up(address // self._granule)

    def flush(self) -> None:
        """A flush of the domain now, and then what it owes. Refused by SINK_FAULT if the invalidation failed, by FLIGHTS_FULL if 32 are in
        flight or in an `invalidate` of this thread, and by WORN."""
        refused = self._flush_now()
        if refused:
            raise Refused(refused)
        self.domain._pay()

    def give_back(self) -> None:
        """Gives back to the domain what nobody uses and what waits for no flush. A cache does so at its next call too where another one of
        the domain found no space."""
        self._pay()
        self._answer()
        self._give_back()

    def _give_back(self) -> None:
        while True:
            self._settle()
            if not sum(self._spill(order, NO_LIMIT) for order in range(_ORDERS)):
                return

    def counts(self) -> CacheCounts:
        """How many ranges are where."""
        told = self._counts()
        return CacheCounts(told.held, told.waiting, sum(told.magazines))

    @property
    def owed(self) -> int:
        """How many ranges a with couldn't give up, since 255 waited and no flush went well: they go at a later call."""
        return len(self._owed)

    def close(self) -> None:
        """Ends the cache, and closes its client; what has no room in the domain's ring the domain owes until its next flush."""
        if self._calls["cache_end"](self.domain._at, self._at).refused == Refusal.NO_CACHE:
            return
        self.domain._caches.remove(self)
        self.domain._close(self.worker, self.number, self._flush_goes_well)

    def __enter__(self) -> "Cache":
        return self

    def __exit__(self, kind: Optional[Type[BaseException]], fault: Optional[BaseException], trace: Optional[TracebackType]) -> None:
        self.close()

    def __del__(self) -> None:
        if hasattr(self, "number"):
            self._calls["cache_clear"](self._at)

    def __repr__(self) -> str:
        return f"<Cache of client {self.number} of worker {self.worker}>"

    def _counts(self) -> Any:
        told = self._calls["cache_counts_of"](self._at)
        if told.refused:
            raise Refused(told.refused)
        return told

    def _flush_now(self) -> int:
        """A flush: 0, or why there was none."""
        domain, me = self.domain, threading.get_ident()
        if me in domain._flushing:
            return Refusal.FLIGHTS_FULL
        begun = self._calls["begin"](domain._at)
        if begun.refused:
            return int(begun.refused)
        went_well = False
        self._has_raised = True
        domain._flushing.add(me)
        try:
            went_well = bool(self.invalidate())
            self._has_raised = False
        finally:
            domain._flushing.discard(me)
            domain.end(begun.number, went_well)
        return 0 if went_well else Refusal.SINK_FAULT

    def _flush_goes_well(self) -> bool:
        return self._flush_now() == 0

    def _settle(self) -> int:
        count: int = self._calls["cache_settle"](self._at, self.domain.flushes().newest).number
        self._clean = max(self._clean - count, 0)
        return count

    def _flush_for(self, waiting: int) -> int:
        if waiting and self._flush_goes_well():
            self._clean = waiting
        return self._settle()

    def _spill(self, order: int, most: int) -> int:
        spilled = flushes = 0
        while spilled < most:
            gone = self._calls["cache_spill"](self.domain._at, self._at, order, most - spilled)
            spilled += gone.number
            if gone.number:
                flushes = 0
                continue
            # one flush isn't enough where an older one is in flight
            flushes += 1
            if gone.refused != Refusal.RING_FULL or flushes > 4 or not self._flush_goes_well():
                break
        return spilled

    def _make_room(self) -> bool:
        if self._settle() or (not self._clean and self._flush_for(_RING)):
            return True
        if not self._clean:
            return False  # the flush failed
        # the oldest is clean, and its magazines are full
        for order, count in enumerate(self._counts().magazines):
            if count >= _MAGAZINE:
                self._spill(order, _EXCHANGED)
        return self._settle() > 0

    def _unmap(self, lo: int) -> int:
        flushes = self._calls["flushes_of"](self.domain._at)
        if flushes.refused:
            return Refusal.NO_CACHE  # it has ended with its domain
        refused: int = self._calls["cache_unmap"](self._at, lo, flushes.start).refused
        return refused

    def _answer(self) -> None:
        if self._is_wanted:
            self._is_wanted = False
            self._give_back()

    def _give_up(self, lo: int) -> None:
        refused = self._try_to_give_up(lo)
        if refused:
            raise Refused(refused)

    def _try_to_give_up(self, lo: int) -> int:
        """0, or the refusal; what is raised, invalidate has raised."""
        self._answer()
        refused = self._unmap(lo)
        if refused == Refusal.NO_ORDER:
            flushes = 0
            while True:
                refused = self._calls["cache_unmap_by"](self.domain._at, self._at, lo).refused
                flushes += 1
                if refused != Refusal.RING_FULL or flushes > 4 or not self._flush_goes_well():
                    break
        elif refused == Refusal.RING_FULL and self._make_room():
            refused = self._unmap(lo)
        return refused

    def _give_up_or_owe(self, lo: int) -> bool:
        """Whether the range is given up; else it is owed, also if invalidate raises."""
        self._has_raised = False
        try:
            refused = self._try_to_give_up(lo)
        except BaseException:
            if self._has_raised:
                self._owed.append(lo)
            raise
        if refused not in _GONE:
            self._owed.append(lo)
        return refused in _GONE

    def _pay(self) -> None:
        """Gives up what is owed, up to the first that is refused: behind a flush that failed no other is made."""
        while self._owed and self._give_up_or_owe(self._owed.pop()):
            pass

    def _alloc(self, frames: int, limit: int) -> Any:
        range_ = self._calls["cache_alloc"](self._at, frames, limit)
        if range_.refused in (Refusal.DRY, Refusal.MISS) and self._settle():
            range_ = self._calls["cache_alloc"](self._at, frames, limit)
        return range_

    def _ask(self, frames: int, limit: int, range_: Any, most: int) -> Any:
        at = self.domain._at
        if range_.refused == Refusal.DRY:
            got = self._calls["cache_refill"](at, self._at, frames, limit, most)
            if got.refused:
                return got
            range_ = self._calls["cache_alloc"](self._at, frames, limit)
        if range_.refused in (Refusal.MISS, Refusal.NO_ORDER):
            range_ = self._calls["cache_alloc_by"](at, self._at, frames, limit)
        return range_

    def _request(self, frames: int, limit: int) -> Any:
        tries = 0
        while True:
            range_ = self._alloc(frames, limit)
            if range_.refused not in (Refusal.DRY, Refusal.MISS, Refusal.NO_ORDER):
                return range_
            range_ = self._ask(frames, limit, range_, 1 if tries else _EXCHANGED)
            if range_.refused not in (Refusal.NO_SPACE, Refusal.HOLDINGS_FULL) or tries == 2:
                return range_
            if tries == 0 and self._flush_for(self._counts().waiting):
                tries = 1  # what waited here may do
                continue
            self._give_back()
            if self.domain.counts().ring and self._flush_goes_well():
                for worker in range(self.domain._workers):
                    self.domain.drain(worker, worker)
            tries = 2
