"""What the package iova has beside the suite of calls: prints what is wrong, and nothing where all is well."""
import os
import sys

import iova
from iova import Domain, Refusal, Refused, Service, ServiceError, TimedOut

program, path = sys.argv[1:]


def raises(kind, call, text=""):
    try:
        call()
    except kind as fault:
        if text not in str(fault):
            print(f"{kind.__name__} says {fault}, not {text}")
    else:
        print(f"no {kind.__name__}")


def holds(what, is_so):
    if not is_so:
        print(what)


# numbers that are none
with Domain(1, 1023) as domain, domain.client() as client:
    for call in (lambda: client.map(-1), lambda: client.map(2**64), lambda: client.map(1, -1), lambda: domain.open(2**64), lambda: Domain(-1, 1)):
        raises(ValueError, call)
    # the end of a with gives up also where something is raised in it, and a second unmap does nothing
    try:
        with client.map(1) as buffer:
            buffer.unmap()
            buffer.unmap()
            raise KeyError
    except KeyError:
        pass
    holds("one range waits", domain.counts().ring == 1)
    # what a client has is that client's: a Mapping that is forgotten stays
    client.map(1)
    holds("a mapping that is forgotten stays its client's", len(client.holdings()) == 1)
    holds("a place", domain.place(1023) == iova.Place(iova.PlaceKind.RING, 0) and domain.place(1024).kind == iova.PlaceKind.OUTSIDE)
    left = buffer
raises(Refused, lambda: client.map(1), "NoDomain")
raises(Refused, domain.counts, "NoDomain")
left.unmap()
holds("a closed domain is told", repr(domain) == "<Domain, closed>")
# 4,096 holdings are listed whole
with Domain(1, 2**20 - 1) as domain, domain.client() as client:
    for _ in range(4096):
        client.map(1)
    raises(Refused, lambda: client.map(1), "HoldingsFull")
    holds("4,096 holdings", len(client.holdings()) == 4096)


# caches whose invalidate fails, raises or flushes
class Stop(Exception):
    pass


class Device:
    """What invalidates: `does` says how it goes."""

    def __init__(self):
        self.does, self.calls, self.nested = True, 0, None

    def __call__(self):
        self.calls += 1
        if self.does == "raise":
            raise Stop
        if self.does == "flush":
            raises(Refused, self.nested, "FlightsFull")
            return True
        return self.does


def full_ring(cache, more):
    """255 ranges wait, and so many more are held."""
    many, more = [cache.map(4096) for _ in range(255)], [cache.map(4096) for _ in range(more)]
    for one in many:
        one.unmap()
    return more


# 32 flushes are in flight, of which none has ended: what a with ends is owed, and so is what it ends where invalidate raises
with Domain(1, 100000) as domain:
    device = Device()
    with domain.cache(device) as cache:
        more = full_ring(cache, 6)
        flights = [domain.begin() for _ in range(32)]
        with more[0]:
            pass
        holds("a with is owed where no flush can begin", cache.owed == 1 and cache.counts().held == 6)
        raises(Refused, more[1].unmap, "RingFull")
        raises(Refused, cache.flush, "FlightsFull")
        for number in flights:
            domain.end(number, False)
        device.does = "raise"
        for one in more[1:4]:
            try:
                with one:
                    pass
                print("what invalidate raises isn't raised by a with")
            except Stop:
                pass
        holds(f"what a with ends is owed where invalidate raises: {cache.owed}", cache.owed == 4)
        # and stays so where that raises while it is paid
        for call in (lambda: cache.map(1), cache.give_back, lambda: cache.map(1)):
            raises(Stop, call)
        holds(f"what is owed stays so: {cache.owed}, {cache.counts()}", cache.owed == 4 and cache.counts().held == 6)
        device.does = True
        cache.map(1).unmap()
        holds(f"it is given up later: {cache.owed}, {cache.counts()}", cache.owed == 0 and cache.counts().held == 2)
    with domain.cache(device) as cache:
        more, device.does = full_ring(cache, 40), False
        for one in more:
            with one:
                pass
        device.calls = 0
        cache.map(1)
        holds(f"40 owed cost one flush that fails: {device.calls}", cache.owed == 40 and device.calls == 1)
        device.does, device.nested = "flush", cache.flush
        cache.flush()
        holds("a flush in invalidate is refused", domain.flushes().in_flight == 0)
        # the end of a cache whose invalidate raises is owed by the domain
        device.does = "raise"
        for _ in range(300):
            cache.map(4096)
        raises(Stop, cache.close)
    holds(f"the domain owes it: {domain.owed}", domain.owed == 1)
    while domain.owed:
        domain.flush(lambda: True)
    holds("the clients are gone", domain.counts().clients == 0)
    cache = domain.cache(lambda: True)
    kept, left = cache.map(1), cache.map(1)
raises(Refused, lambda: cache.map(1), "NoCache")
raises(Refused, lambda: cache.alloc(64), "NoCache")
raises(Refused, kept.unmap, "NoCache")
raises(Refused, cache.counts, "NoCache")
with left:
    pass
holds("nothing is owed in a domain that is closed", cache.owed == 0)
cache.close()
holds("a refusal of a later library", Refused(77).refusal is None and str(Refused(77)) == "refusal 77")
holds("the version", iova.version() == 2000 and iova.__version__ == "0.2.0")

# logs
log = ["iovalog 1 1 1023", "map 1020 4", "begin 1", "unmap 1020 4", "end 1 ok", "map 1020 4"]
verdict = iova.check(log, program=program)
holds(f"a finding: {verdict}", verdict.findings == [iova.Finding(6, "reused", 1020, 4, 4)] and verdict.status == 1 and verdict.counts["maps"] == 2)
good = iova.check(log[:5] + ["begin 2", "end 2 ok"] + log[5:], program=program)
holds(f"no finding: {good}", good.is_good and good.findings == [] and good.notices == [])
bad = iova.check(["nothing"], program=program)
holds(f"no log: {bad}", bad.status == 3 and "line 1" in bad.notices[0])
raises(OSError, lambda: iova.check(log, program="/nonexistent"))

# a session: one batch at a time, answers at its end, and each refusal at its own request
with Service(path, within=60) as service:
    with service.batch() as batch:
        zero, given = batch.alloc(0), batch.alloc(1)
        raises(ServiceError, given.get, "isn't there")
        raises(ServiceError, service.stat, "in flight")
        raises(ServiceError, lambda: service.batch().__enter__(), "in flight")
        many = [batch.alloc(1) for _ in range(40)]
        holds("answers come as they have to", many[0].is_there and not many[-1].is_there)
    raises(Refused, zero.get, "Zero")
    holds("frames", given.get().len == 1 and len({one.get().lo for one in many}) == 40)
    raises(ValueError, lambda: service.alloc(-1))
    holds("the session goes on", len(service.list()) == 41)
raises(ServiceError, service.stat, "closed")
raises(ServiceError, lambda: Service("/nonexistent"), "no daemon")
raises(ServiceError, lambda: Service("/" + "x" * 200), "no daemon")
holds("a time-out is one", issubclass(TimedOut, TimeoutError) and issubclass(ServiceError, OSError))
holds("words", all(refusal.word for refusal in Refusal))
