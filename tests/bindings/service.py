#!/usr/bin/env python3
"""The service's part of tests/run_bindings over the package iova: requests from standard input, and the daemon's answers in its own
words. `batch N` puts the next N requests in flight together. The words are the socket, and milliseconds."""
import sys

from iova import Refused, Service, ServiceError, TimedOut


def ask(asked, words):
    return getattr(asked, words[0])(*map(int, words[1:]))


def told(word, answer):
    if word == "alloc":
        return f"given {answer.lo} {answer.len}"
    if word == "free":
        return f"{'freed' if answer.is_flushed else 'queued'} {answer.lo} {answer.len}"
    if word == "list":
        return "\n".join([f"held {len(answer)}"] + [f"{lo} {length}" for lo, length in answer])
    return " ".join(["flushed" if word == "flush" else "stat"] + [str(number) for number in answer])


def lost(fault):
    words = {"no daemon": "NoDaemon", "the daemon ended": "Ended", "what came": "Malformed", "the session broke": "Broken"}
    return "TimedOut" if isinstance(fault, TimedOut) else next(word for begin, word in words.items() if str(fault).startswith(begin))


def run(service, lines):
    while lines:
        words = lines.pop(0).split()
        if words[0] == "batch":
            asked = [lines.pop(0).split() for _ in range(int(words[1]))]
            with service.batch() as batch:
                answers = [(one[0], ask(batch, one)) for one in asked]
            for word, answer in answers:
                assert answer.is_there
                try:
                    print(told(word, answer.get()))
                except Refused as refused:
                    print(f"no {refused.number} {refused}")
        else:
            try:
                print(told(words[0], ask(service, words)))
            except Refused as refused:
                print(f"no {refused.number} {refused}")


def main():
    try:
        with Service(sys.argv[1], within=int(sys.argv[2]) / 1000 if sys.argv[2:] else None) as service:
            print(f"opened {service.number}")
            try:
                run(service, sys.stdin.read().splitlines())
            except ServiceError as fault:
                print(lost(fault))
                # each further call answers the same at once
                try:
                    service.stat()
                except ServiceError as more:
                    print(lost(more))
                return
        print("bye")
    except Refused as refused:
        print(f"no {refused.number} {refused}")
    except ServiceError as fault:
        print(lost(fault))


main()
