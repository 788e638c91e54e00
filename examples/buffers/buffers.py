#!/usr/bin/env python3
"""A driver's buffers by the package iova: what was given up is given again only after a flush."""
from iova import Domain, Refused

MASK = 2**32 - 1


def invalidate_the_iotlb() -> bool:
    return True


with Domain(1, 1048575) as domain, domain.client() as client:
    with client.map(10000, mask=MASK) as buffer:
        print(f"{buffer.bytes} bytes at {buffer.address:#x}")

    # the device no longer uses the buffer
    with client.map(10000, mask=MASK) as other:
        print(f"before the flush {other.address:#x}")

    domain.flush(invalidate_the_iotlb)
    with client.map(10000, mask=MASK) as again:
        print(f"after it {again.address:#x}")

    try:
        client.map(10000, mask=4095)
    except Refused as refused:
        print(f"below 4096: {refused}")
