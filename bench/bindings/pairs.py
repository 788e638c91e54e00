#!/usr/bin/env python3
"""Pairs of a map and its unmap through the package iova, with a flush behind each 200: the word is how many rounds of 50, and the least
nanoseconds that a pair of a round took are printed."""
import sys
import time

from iova import Domain

with Domain(1, 2**20 - 1) as domain, domain.client() as client:
    least = None
    for at in range(int(sys.argv[1])):
        begun = time.perf_counter_ns()
        for _ in range(50):
            client.map(4096, mask=0xFFFFFFFF).unmap()
        took = (time.perf_counter_ns() - begun) / 50
        least = took if least is None else min(least, took)
        if at % 4 == 3:
            domain.end(domain.begin(), True)
print(round(least or 0))
