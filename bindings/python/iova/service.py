"""A client of the daemon iovad serve, over its Unix socket. libiova isn't called."""
import collections
import re
import socket
import time
from types import TracebackType
from typing import Any, Callable, Deque, Generic, List, NamedTuple, Optional, Type, TypeVar

from .domain import Frames
from .library import NO_LIMIT, Refused, in_64_bits

IN_FLIGHT = 16
"""Requests in flight at most."""
_MAX_LINE = 4096
_NUMBER = r"(0|[1-9][0-9]{0,19})"
_REFUSAL = re.compile(rb"no ([1-9][0-9]?) [A-Za-z]+")
T = TypeVar("T")


class ServiceError(OSError):
    """The session is lost, or was never there: no daemon, a stream that ended, an answer that is none."""


class TimedOut(ServiceError, TimeoutError):
    """No connection, or no answer, within the time. The session is lost: an answer that comes later would be taken for the next one's."""


class Freed(NamedTuple):
    """The answer to a free: the range, and whether a strict domain has flushed it already."""

    lo: int
    len: int
    is_flushed: bool


class Flushed(NamedTuple):
    """The answer to a flush: its number, and how many ranges it drained."""

    number: int
    ranges: int


class Stat(NamedTuple):
    """How many frames are where, and how many flushes have begun and are accounted for."""

    free: int
    reserved: int
    client: int
    magazine: int
    depot: int
    ring: int
    start: int
    finish: int


def _form(words: str, count: int) -> "re.Pattern[bytes]":
    return re.compile(f"({words}){(' ' + _NUMBER) * count}".encode())


_OPENED, _GIVEN, _FREED = _form("opened", 1), _form("given", 2), _form("queued|freed", 2)
_HELD, _LISTED, _FLUSHED, _STAT, _BYE = _form("held", 1), re.compile(f"{_NUMBER} {_NUMBER}".encode()), _form("flushed", 2), _form("stat", 8), _form("bye", 0)


class Answer(Generic[T]):
    """The answer to a request of a batch, once that has taken it."""

    def __init__(self) -> None:
        self._value: Optional[T] = None
        self._fault: Optional[BaseException] = None
        self._is_there = False

    @property
    def is_there(self) -> bool:
        """Whether it was taken."""
        return self._is_there

    def get(self) -> T:
        """What the request answers, or raises what it is refused by."""
        if not self._is_there:
            raise ServiceError("the answer isn't there before the end of the batch")
        if self._fault is not None:
            raise self._fault
        return self._value  # type: ignore[return-value]


class Service:
    """A session of the daemon at the path: a client of the domain with this number. With `sac` it is first sought a place below 4 GiB.

    `within`, in seconds, is how long connecting and the first answer may take together, and each later call; None is as long as it takes:
    long where the daemon serves as many clients as it may. A flush, and a free in a strict domain or at a full ring, may take as long as
    the daemon's --sink-timeout. Behind a ServiceError each call raises the same; the daemon takes back what the session held. It is
    used by one thread at a time.
    """

    def __init__(self, path: str, domain: int = 0, sac: bool = False, within: Optional[float] = None) -> None:
        in_64_bits(domain)
        self.within = within
        self._until = None if within is None else time.monotonic() + within
        self._lost: Optional[ServiceError] = None
        self._read = bytearray()
        self._unsent = bytearray()
        self._asked: Deque[Callable[[], None]] = collections.deque()
        self._stream = socket.socket(socket.AF_UNIX, socket.SOCK_STREAM)
        try:
            self._stream.settimeout(within)
            self._stream.connect(path)
        except (BlockingIOError, socket.timeout):
            raise self._lose(TimedOut("no connection within the time")) from None
        except (OSError, ValueError) as fault:
            raise self._lose(ServiceError(f"no daemon at {path}: {fault}")) from None
        try:
            opened = self._ask(f"hello iova1 {domain} {'sac' if sac else 'dac'}", lambda: int(self._line(_OPENED)[2]))
            self._take_all()
            self.number: int = opened.get()
        except BaseException:
            self._stream.close()
            raise

    def alloc(self, frames: int, limit: int = NO_LIMIT) -> Frames:
        """So many frames, none above frame `limit`."""
        return self._now(lambda batch: batch.alloc(frames, limit))

    def free(self, lo: int) -> Freed:
        """The device has stopped using the range that begins at frame `lo`."""
        return self._now(lambda batch: batch.free(lo))

    def list(self) -> List[Frames]:
        """The ranges that the client holds, rising by first frame."""
        return self._now(lambda batch: batch.list())

    def flush(self) -> Flushed:
        """A flush now."""
        return self._now(lambda batch: batch.flush())

    def stat(self) -> Stat:
        """How many frames are where."""
        return self._now(lambda batch: batch.stat())

    def batch(self) -> "Batch":
        """Requests without waiting for each answer: up to 16 are in flight, which costs one write and mostly one read for all of them.

            with service.batch() as batch:
                given = [batch.alloc(1) for _ in range(100)]
            frames = [answer.get() for answer in given]

        All answers are there at the end of the with; get() raises what its own request is refused by."""
        return Batch(self)

    def close(self) -> None:
        """Ends the session, in good order where it is whole. The daemon takes back what it held."""
        if self._lost is None:
            try:
                self._ask("bye", lambda: bool(self._line(_BYE)))
                self._take_all()
            except (ServiceError, Refused):
                pass
            self._lost = self._lost or ServiceError("the session is closed")
        self._stream.close()

    def __enter__(self) -> "Service":
        return self

    def __exit__(self, kind: Optional[Type[BaseException]], fault: Optional[BaseException], trace: Optional[TracebackType]) -> None:
        self.close()

    def _now(self, ask: "Callable[[Batch], Answer[T]]") -> T:
        if self._asked:
            raise ServiceError("requests of a batch are in flight")
        answer = ask(Batch(self))
        self._take_all()
        return answer.get()

    def _lose(self, fault: ServiceError) -> ServiceError:
        self._lost = fault
        self._stream.close()
        return fault

    def _ask(self, line: str, read: "Callable[[], T]") -> "Answer[T]":
        if self._lost is not None:
            raise self._lost
        answer: Answer[T] = Answer()

        def take() -> None:
            try:
                answer._value = read()
            except (Refused, ServiceError) as fault:
                answer._fault = fault
            answer._is_there = True

        self._unsent += line.encode() + b"\n"
        self._asked.append(take)
        # a full run is taken whole, so that each costs one write
        if len(self._asked) == IN_FLIGHT:
            self._take_all()
        return answer

    def _take_all(self) -> None:
        """Sends what was asked, and takes all answers."""
        if self._until is None and self.within is not None:
            self._until = time.monotonic() + self.within
        try:
            if self._unsent and self._lost is None:
                self._wait()
                self._stream.sendall(self._unsent)
        except socket.timeout:
            self._lose(TimedOut("no answer within the time"))
        except ServiceError:
            pass
        except OSError as fault:
            self._lose(ServiceError(f"the session broke: {fault}"))
        self._unsent.clear()
        while self._asked:
            self._asked.popleft()()
        self._until = None

    def _wait(self) -> None:
        if self._until is None:
            self._stream.settimeout(None)
            return
        left = self._until - time.monotonic()
        if left <= 0:
            raise self._lose(TimedOut("no answer within the time"))
        self._stream.settimeout(left)

    def _line(self, form: "re.Pattern[bytes]") -> Any:
        """The next line, which is waited for, as the form has it."""
        if self._lost is not None:
            raise self._lost
        at = self._read.find(b"\n")
        while at < 0:
            if len(self._read) >= _MAX_LINE:
                raise self._lose(ServiceError("what came is no answer"))
            self._wait()
            try:
                more = self._stream.recv(_MAX_LINE)
            except socket.timeout:
                raise self._lose(TimedOut("no answer within the time")) from None
            except OSError as fault:
                raise self._lose(ServiceError(f"the session broke: {fault}")) from None
            if not more:
                raise self._lose(ServiceError("the daemon ended the session"))
            seen = len(self._read)
            self._read += more
            at = self._read.find(b"\n", seen)
        line = bytes(self._read[:at])
        del self._read[: at + 1]
        found = form.fullmatch(line)
        if found and all(int(number) < 2**64 for number in found.groups() if number.isdigit()):
            # the word first, and then the numbers
            return found if found.re is not _LISTED else found.groups()
        refused = _REFUSAL.fullmatch(line)
        if refused:
            raise Refused(int(refused.group(1)))
        raise self._lose(ServiceError(f"what came is no answer: {line[:80]!r}"))


class Batch:
    """Requests of a session whose answers are taken together: Service.batch."""

    def __init__(self, service: Service) -> None:
        self._service = service

    def alloc(self, frames: int, limit: int = NO_LIMIT) -> "Answer[Frames]":
        in_64_bits(frames, limit)
        return self._service._ask(f"alloc {frames} {limit}", lambda: self._frames(_GIVEN))

    def free(self, lo: int) -> "Answer[Freed]":
        in_64_bits(lo)

        def freed() -> Freed:
            found = self._service._line(_FREED)
            return Freed(int(found[2]), int(found[3]), found[1] == b"freed")

        return self._service._ask(f"free {lo}", freed)

    def list(self) -> "Answer[List[Frames]]":
        def held() -> List[Frames]:
            count = int(self._service._line(_HELD)[2])
            return [Frames(int(lo), int(length)) for lo, length in (self._service._line(_LISTED) for _ in range(count))]

        return self._service._ask("list", held)

    def flush(self) -> "Answer[Flushed]":
        def flushed() -> Flushed:
            found = self._service._line(_FLUSHED)
            return Flushed(int(found[2]), int(found[3]))

        return self._service._ask("flush", flushed)

    def stat(self) -> "Answer[Stat]":
        return self._service._ask("stat", lambda: Stat(*(int(number) for number in self._service._line(_STAT).groups()[1:])))

    def _frames(self, form: "re.Pattern[bytes]") -> Frames:
        found = self._service._line(form)
        return Frames(int(found[2]), int(found[3]))

    def __enter__(self) -> "Batch":
        if self._service._asked:
            raise ServiceError("requests of another batch are in flight")
        return self

    def __exit__(self, kind: Optional[Type[BaseException]], fault: Optional[BaseException], trace: Optional[TracebackType]) -> None:
        self._service._take_all()
        if kind is None and self._service._lost is not None:
            raise self._service._lost
