"""I/O virtual addresses (IOVAs) for a driver, a device emulator or a test.

    from iova import Domain

    with Domain(1, 2**20 - 1) as domain, domain.client() as client:
        with client.map(10000, mask=2**32 - 1) as buffer:
            print(f"the device may use {buffer.bytes} bytes from {buffer.address:#x} on")
        domain.flush(lambda: True)  # invalidates the IOTLB, and says whether it did

A Domain hands them out in this process, by libiova; a Service is a client of the daemon iovad; check() has the program iovad check a
log. Frames are pages of 4,096 bytes, or of the domain's granule, numbered by their address divided by it.
"""
from .checking import Finding, Verdict, check
from .cache import Cache, CacheCounts, Cached
from .library import NO_LIMIT, NO_MASK, Refusal, Refused, version
from .domain import Bounds, Client, Counts, Domain, Flushes, Frames, Mapping, Place, PlaceKind, Totals
from .service import Answer, Batch, Flushed, Freed, Service, ServiceError, Stat, TimedOut

__version__ = "0.2.0"
__all__ = [
    "Answer", "Batch", "Bounds", "Cache", "CacheCounts", "Cached", "Client", "Counts", "Domain", "Finding", "Flushed", "Flushes", "Frames",
    "Freed", "Mapping", "NO_LIMIT", "NO_MASK", "Place", "PlaceKind", "Refusal", "Refused", "Service", "ServiceError", "Stat", "TimedOut", "Totals", "Verdict", "check", "version",
]
