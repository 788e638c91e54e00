#!/usr/bin/env python3
"""A device emulator behind the daemon: it answers the daemon's requests, so no address comes back too early.

    examples/emulator.py PEER SOCKET [MAPPINGS [SEED]]

The device listens at PEER, which is the daemon's --peer. It has a page table, which drivers write, and an IOTLB, which it
fills from the page table as it uses addresses. Four drivers at a time, clients of the daemon at SOCKET, ask for addresses,
map them, have the device use them, unmap and free them; most die before they have come so far. After MAPPINGS mappings what
waits is flushed, the daemon is led to its end, and counts are printed. Two are 0 where all is well: `stale`, uses through a
translation that isn't the page table's any more, and `reused`, ranges that were given while page table or IOTLB had them.
"""
import collections
import concurrent.futures
import contextlib
import os
import random
import socket
import sys
import threading
import time

from client import Session  # client.py, beside this file

ENDS = ("asking", "given", "mapped", "unmapped", "freeing", "bye")  # how a driver's life may end


def frames_of(ranges):
    return [frame for first, length in ranges for frame in range(first, first + length)]


class Device:
    """One domain's page table and IOTLB, and the peer that the daemon asks to invalidate."""

    def __init__(self):
        self.lock = threading.RLock()
        self.pages = {}  # of each frame that is mapped: the client that mapped it, and the mapping's number
        self.iotlb = {}  # the same, as the device has seen it
        self.gone = set()  # clients that may map nothing any more
        self.counts = collections.Counter()

    # The daemon's side: a connection for each worker, and one for the flusher.

    def listen(self, path):
        listener = socket.socket(socket.AF_UNIX)
        listener.bind(path)
        listener.listen(64)
        threading.Thread(target=self.accept, args=(listener,), daemon=True).start()

    def accept(self, listener):
        while True:
            threading.Thread(target=self.answer, args=(listener.accept()[0],), daemon=True).start()

    def answer(self, connection):
        """Meets the requests of a connection, one after another, until it ends."""
        with contextlib.suppress(OSError), connection, connection.makefile("rb") as stream:
            for line in stream:
                words = line.decode().split()
                lines = [stream.readline() for _ in range(int(words[3]))] if words[0] == "gone" else []
                if not all(text.endswith(b"\n") for text in (line, *lines)):
                    return  # it has ended in the middle of a request
                self.meet(connection, words, [tuple(map(int, text.split())) for text in lines])

    def meet(self, connection, words, ranges):
        """Carries a request out, and says so afterwards. A request whose connection has ended is nobody's any more."""
        with self.lock:
            if has_ended(connection):
                return
            self.carry_out(words, ranges)
        connection.sendall(done(words))

    def carry_out(self, words, ranges):
        self.counts[words[0]] += 1
        if words[0] == "inval":
            self.iotlb.clear()
        elif words[0] == "gone":
            self.gone.add(int(words[2]))
            self.unmap(int(words[2]), ranges)
        else:  # reset: a new daemon, which counts its clients from 1
            self.pages.clear()
            self.iotlb.clear()
            self.gone.clear()

    # The drivers' side.

    def given(self, ranges):
        with self.lock:
            for each in ranges:
                self.counts["reused"] += any(frame in self.pages or frame in self.iotlb for frame in frames_of([each]))

    def map(self, client, ranges):
        with self.lock:
            if client in self.gone:
                self.counts["refused"] += 1
                return
            for each in ranges:
                self.counts["mapped"] += 1
                self.pages.update((frame, (client, self.counts["mapped"])) for frame in frames_of([each]))

    def use(self, ranges):
        """The device reaches these ranges, and goes on with all that is mapped, also where its driver is dead."""
        with self.lock:
            for frame in [*self.pages, *frames_of(ranges)]:
                entry = self.pages.get(frame)
                seen = self.iotlb.get(frame, entry)
                self.counts["faults" if seen is None else "stale" if seen != entry else "used"] += 1
                self.iotlb.update({frame: seen} if seen else {})

    def unmap(self, client, ranges):
        """What this client mapped there is mapped no more; what others did stays. The IOTLB is as it was."""
        with self.lock:
            for frame in frames_of(ranges):
                if frame in self.pages and self.pages[frame][0] == client:
                    del self.pages[frame]


def has_ended(connection):
    with contextlib.suppress(BlockingIOError):
        return connection.recv(1, socket.MSG_PEEK | socket.MSG_DONTWAIT) == b""


def done(words):
    """The answer to `reset DOMAIN`, `inval DOMAIN NUMBER` or `gone DOMAIN CLIENT COUNT`."""
    return f"done {words[0]} {words[:3][-1]}\n".encode()


class Driver(Session):
    """A client of the daemon. The daemon maps nothing: a driver maps what it is given, and unmaps it before it frees it."""

    def send(self, requests):
        self.stream.write("".join(request + "\n" for request in requests))
        self.stream.flush()
        return [self.line] * len(requests)  # each of these gives the words of an answer

    def turn(self, device, sizes):
        """Tells after each of its deeds how far it has come, at most 16 requests together. Who is killed goes no further."""
        answers = self.send([f"alloc {size} {2**40 - 1}" for size in sizes])
        yield "asking"
        words = [answer() for answer in answers]
        self.ranges = [(int(first), int(length)) for verb, first, length in words if verb == "given"]
        device.given(self.ranges)
        time.sleep(0 if self.ranges else 0.01)  # where nothing fits before a flush
        yield "given"
        device.map(self.number, self.ranges)
        device.use(self.ranges)
        yield "mapped"
        device.unmap(self.number, self.ranges)
        yield "unmapped"
        frees = [f"free {first}" for first, _length in self.ranges]
        while frees:  # a ring that is full refuses while the device fails to answer
            answers = self.send(frees)
            yield "freeing"
            frees = [free for free, answer in zip(frees, answers) if answer()[0] == "no"]


def drive(device, path, mappings, seed):
    """Drivers, one after another, until the device has had so many mappings."""
    dice = random.Random(seed)
    while device.counts["mapped"] < mappings:
        driver, turns, end = Driver(path), dice.randrange(1, 8), dice.choice(ENDS)
        for turn in range(1, turns + 1):
            for state in driver.turn(device, [dice.randrange(1, 9) for _ in range(8)]):
                if turn == turns and state == end:
                    break
        driver.close() if end == "bye" else driver.stream.close()
        if end == "given":  # the last word of a dead driver may come late
            threading.Timer(dice.random() / 100, device.map, (driver.number, driver.ranges)).start()
        with device.lock:
            device.counts["drivers"] += 1


def settle(path):
    """Flushes until nothing is a dead client's or waits in a ring, and leads the daemon to its end."""
    stat = ["stat"] + ["1"] * 8
    while stat[3] != "0" or stat[6] != "0":
        time.sleep(0.05)
        _flushed, stat, _bye = [answer() for answer in Driver(path).send(["flush", "stat", "bye"])]
    with contextlib.suppress(OSError):
        while True:
            socket.socket(socket.AF_UNIX).connect(path)  # a session, which ends at once


def main():
    sink, path, mappings, seed = sys.argv[1:] + ["5000", "1"][len(sys.argv) - 3 :]
    device = Device()
    device.listen(sink)
    while not os.path.exists(path):
        time.sleep(0.1)
    time.sleep(0.1)  # now it listens
    with concurrent.futures.ThreadPoolExecutor() as pool:
        for driven in [pool.submit(drive, device, path, int(mappings), f"{seed} {n}") for n in range(4)]:
            driven.result()
    settle(path)
    os.unlink(sink)
    for name in ("mapped", "drivers", "inval", "gone", "refused", "faults", "stale", "reused"):
        print(f"{name:10}{device.counts[name]:10}")


if __name__ == "__main__":
    main()
