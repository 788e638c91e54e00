"""Logs that `iovad check` reads, for what shows them."""
import random


def random_log(dice, lines=40):
    """A log of few frames, in which all goes wrong."""
    rows, numbers = ["iovalog 1 2 11"], []
    for _ in range(lines):
        verb, lo = dice.choice(("map", "map", "unmap", "unmap", "use", "begin", "end", "end")), dice.randint(1, 12)
        if verb == "begin":
            numbers.append(dice.randint(1, 4))
            rows.append(f"begin {numbers[-1]}" + (f" {lo} {dice.randint(1, 6)}" if dice.random() < 0.7 else ""))
        elif verb == "end":
            rows.append(f"end {dice.choice(numbers or [1])} {dice.choice(('ok', 'ok', 'fail'))}")
        else:
            rows.append(f"{verb} {lo} {dice.choice((1, 1, 2, 3, 5))}")
    return "\n".join(rows) + "\n"


def queue_log(lines, seed, plants=False):
    """What an allocator with a flush queue does, and the number of the flush that it leaves out where a reuse is planted."""
    dice = random.Random(seed)
    rows, live, stale, flushes, missing = ["iovalog 1 1 1048575"], [], [], 0, None
    free = [(lo, dice.choice((1, 1, 2, 4))) for lo in range(1000, 21000, 4)]

    def unmap():
        k = dice.randrange(len(live))
        live[k], live[-1] = live[-1], live[k]
        stale.append(live.pop())
        rows.append("unmap %d %d" % stale[-1])

    while len(rows) < lines:
        if len(stale) >= 250:
            flushes += 1
            if plants and missing is None and len(rows) > lines * 0.6:
                missing, again = flushes, stale.pop(dice.randrange(len(stale)))
                for _ in range(20):
                    unmap()
                rows.append("map %d %d" % again)
                live.append(again)
                continue
            rows.append(f"begin {flushes}")
            covered, stale[:] = stale[:], []
            for _ in range(dice.randrange(3)):
                unmap()
            rows.append(f"end {flushes} ok")
            free += covered
        elif len(live) > 400 and (dice.random() < 0.5 or not free):
            unmap()
        else:
            live.append(free.pop())
            rows.append("map %d %d" % live[-1])
    return "\n".join(rows[:lines]) + "\n", missing
