#!/usr/bin/env python3
"""A client of the daemon, for programs in Python.

    examples/client.py SOCKET

asks for a range, gives it back, asks for another, and prints what becomes of it.
"""
import socket
import sys

PAGE = 4096  # bytes in a frame


class Refused(Exception):
    """The daemon answered no; the text is its answer."""


class Session:
    """A client of a domain. Its ranges go back when the session ends, also where the program is killed."""

    def __init__(self, path, domain=0, reach="dac"):
        peer = socket.socket(socket.AF_UNIX)
        peer.connect(path)
        self.stream = peer.makefile("rw", encoding="ascii", newline="\n")
        self.number = int(self.ask(f"hello iova1 {domain} {reach}")[1])

    def line(self):
        text = self.stream.readline()
        if not text.endswith("\n"):
            raise ConnectionError("the daemon is gone")
        return text.split()

    def ask(self, request):
        """The words of the answer to a request."""
        self.stream.write(request + "\n")
        self.stream.flush()
        answer = self.line()
        if answer[0] == "no":
            raise Refused(" ".join(answer))
        return answer

    def alloc(self, frames, limit=2**64 - 1):
        """First frame and length of a range for so many frames, none above the limit."""
        _given, first, length = self.ask(f"alloc {frames} {limit}")
        return int(first), int(length)

    def free(self, first):
        """The device has stopped using the range that begins there."""
        self.ask(f"free {first}")

    def held(self):
        """The ranges that the client holds, rising."""
        _held, count = self.ask("list")
        return [tuple(int(word) for word in self.line()) for _ in range(int(count))]

    def close(self):
        self.ask("bye")


def main():
    session = Session(sys.argv[1])
    first, length = session.alloc(3)
    print(f"3 frames: the device may use the addresses {first * PAGE:#x} to {(first + length) * PAGE - 1:#x}")
    session.free(first)
    other, _length = session.alloc(3)
    print(f"3 frames more, before a flush: {other * PAGE:#x}, and not {first * PAGE:#x}")
    try:
        session.free(first)
    except Refused as refused:
        print(f"a second free of the first: {refused}")
    print(f"held: {session.held()}")
    session.close()


if __name__ == "__main__":
    main()
