#!/usr/bin/env python3
"""The suite of tests/run_bindings over the package iova: calls from standard input, a line each, and their answers."""
import sys

from iova import Domain, Refusal, Refused

domain = None
clients, mappings = {}, {}
caches, cached, iotlb = {}, {}, {}
RANGE = "{} {}".format


def forget():
    global domain
    for one in list(cached.values()):
        one.__exit__(None, None, None)
    for cache in list(caches.values()):
        cache.close()
    cached.clear()
    caches.clear()
    iotlb.clear()
    for mapping in list(mappings.values()):
        mapping.__exit__(None, None, None)
    for client in list(clients.values()):
        client.close()
    mappings.clear()
    clients.clear()
    if domain:
        domain.close()
    domain = None


def make(words, is_told):
    global domain
    forget()
    profile, start, last, workers, *more = (int(word) for word in words)
    depot = [more.pop(0)] if profile == 2 else [None]
    domain = Domain(start, last, workers, *depot, **({"granule": more[0]} if more else {}))
    if domain.granule != (more[0] if more else 4096):
        raise ValueError("another granule")
    return "made" if is_told else None


def broken():
    raise RuntimeError("broken")


def rows():
    counts, flushes = domain.counts(), domain.flushes()
    told = [(name, getattr(counts, name)) for name in ("free", "reserved", "client", "magazine", "depot", "ring", "clients")]
    told += [("holdings", domain.totals().count), ("start", flushes.start), ("finish", flushes.finish), ("owed", flushes.owed)]
    told.append(("flights", flushes.in_flight))
    lines = [f"{name:<10}{value:>20}" for name, value in told]
    lines += [f"{'window':<10}{one.lo:>20}{one.lo + one.len - 1:>20}" for one in domain.windows()]
    return "\n".join(lines)


def closed_one(left):
    return f"queued {RANGE(*left)}" if left else "empty"


def window(made):
    return f"reserved {made.lo} {made.lo + made.len - 1}"


def open_client(name, worker, reach):
    clients[name] = domain.client(int(worker), reach == "sac")
    return f"client {clients[name].number}"


def map_one(name, client, bytes_, mask):
    made = clients[client].map(int(bytes_), mask=int(mask))
    mappings[name] = made
    return f"mapped {made.address} {made.bytes}"


def unmap_one(name):
    mappings[name].unmap()
    del mappings[name]
    return "unmapped"


def drop(name):
    if name in mappings:
        mappings.pop(name).__exit__(None, None, None)
    else:
        clients.pop(name).close()
    return "dropped"


def flush(how):
    try:
        return f"flushed {domain.flush(broken if how == 'throw' else lambda: how == 'ok')}"
    except RuntimeError:
        return "threw"


def end(number, how):
    domain.end(int(number), how == "ok")
    return "ended"


def name_of(number):
    return f"name {Refusal(int(number)).word}"


def of_counts():
    return "counts " + " ".join(str(count) for count in domain.counts())


def share():
    iotlb.update(is_good=True, flushes=0)
    return "shared"


def invalidate():
    iotlb["flushes"] += 1
    return iotlb["is_good"]


def invalidates(how):
    iotlb["is_good"] = how == "ok"
    return "so"


def open_cache(name, worker, reach):
    caches[name] = domain.cache(invalidate, int(worker), reach == "sac")
    return f"cache {caches[name].number}"


def map_cached(name, cache, bytes_, mask):
    made = caches[cache].map(int(bytes_), mask=int(mask))
    cached[name] = made
    return f"mapped {made.address} {made.bytes}"


def unmap_cached(name):
    cached[name].unmap()
    del cached[name]
    return "unmapped"


def drop_cached(name):
    if name in cached:
        cached.pop(name).__exit__(None, None, None)
    else:
        caches.pop(name).close()
    return "dropped"


def free_cached(name, address):
    caches[name].unmap(int(address))
    return "unmapped"


def flush_cached():
    next(iter(caches.values())).flush()
    return "flushed"


def give_back(name):
    caches[name].give_back()
    return "given back"


# Of a shared domain: each is told with how many flushes there were.
SHARED = {
    "invalidates": invalidates,
    "cache": open_cache,
    "cmap": map_cached,
    "cunmap": unmap_cached,
    "cdrop": drop_cached,
    "ckeep": lambda name: f"kept {cached.pop(name).address}",
    "cfree": free_cached,
    "cflush": flush_cached,
    "cback": give_back,
    "ccounts": lambda name: "counts {} {} {}".format(*caches[name].counts()),
    "cowed": lambda name: f"owed {caches[name].owed}",
    "scounts": of_counts,
    "sowed": lambda: f"owed {domain.owed}",
}
CALLS = {
    **SHARED,
    "share": share,
    "iovatrace": lambda *words: make(words, False),
    "domain": lambda *words: make(("1",) + words, True),
    "second": lambda *words: make(("2",) + words, True),
    "client": open_client,
    "map": map_one,
    "unmap_one": unmap_one,
    "drop": drop,
    "flush": flush,
    "owed": lambda: f"owed {domain.owed}",
    "holdings": lambda name: " ".join(["holdings"] + [f"{lo}+{length}" for lo, length in clients[name].holdings()]),
    "name": name_of,
    "counts": of_counts,
    "report": rows,
    "reserve": lambda *v: window(domain.reserve(*map(int, v))),
    "open": lambda worker, reach: f"opened {domain.open(int(worker), reach == 'sac')}",
    "alloc": lambda *v: "given " + RANGE(*domain.alloc(*map(int, v))),
    "unmap": lambda *v: "queued " + RANGE(*domain.unmap(*map(int, v))),
    "begin": lambda: f"begun {domain.begin()}",
    "end": end,
    "drain": lambda *v: f"drained {domain.drain(*map(int, v))}",
    "close": lambda *v: f"marked {domain.close_client(*map(int, v))}",
    "closeone": lambda *v: closed_one(domain.close_one(*map(int, v))),
}

for text in sys.stdin:
    word, *words = text.split() or ["#"]
    if word[0] == "#":
        continue
    try:
        answer = CALLS[word](*words)
    except Refused as refused:
        answer = f"no {refused.number} {refused}"
    if answer is not None:
        print(answer)
    if word in SHARED:
        print("flushes", iotlb["flushes"])
forget()
