"""The machine with disks: examples/nvme in it, by itself and behind the broker, and what is looked at from outside."""
import array
import os
import re
import struct

from machine import EXAMPLES, Machine, build, check_between, check_parts, counts, edited, last, make_root

DISK = 64 << 20
BLOCK, SECTOR = 4096, 512
IOS, FEWER = 100000, 5000  # of the part `lazy`, and of the others
WINDOW = (0x2800, 0x37FF)  # frames, of the part `window`

# What has to be found: its name, which is a part's, the program, and the edit of a file that makes it wrong.
WRONG = (
    ("frees_first", "disk", "nvme/driver.c", "unmap_all(worker, ios, count) || give_up_all(worker, ios, count)",
     "give_up_all(worker, ios, count) || usleep(30000) || unmap_all(worker, ios, count)"),
    ("takes_twice", "disk", "nvme/driver.c", "while (nvme_take(&worker->queue, &taken)) {",
     "while (nvme_take(&worker->queue, &taken) && load_end(&worker->load, &taken)) {"),
    ("shares_a_list", "disk", "nvme/ios.h", "list = (uint64_t)slot * NVME_LIST_BYTES",
     "list = (uint64_t)slot / 2 * NVME_LIST_BYTES"),
    ("ignores_the_mask", "disk", "nvme/driver.c", "map(worker, memory, 2 * FRAME, UINT32_MAX, &at)",
     "map(worker, memory, 2 * FRAME, UINT64_MAX, &at)"),
    ("ignores_mdts", "disk", "nvme/driver.c", "driver->most = nvme->most < LARGE ? nvme->most : LARGE;",
     "driver->most = LARGE;"),
)
# And outside of the machine, since QEMU translates a command's addresses when it comes: a queue that isn't deleted would have it
# write into the guest's memory when that is another's.
KEEPS_THE_QUEUE = ("disk_broker", "nvme/queues.c", "client != NO_CLIENT && pair->client != client", "client != NO_CLIENT")
PROGRAMS = {
    "disk": ("nvme/driver.c",),
    "disk_broker": ("vfio/broker.c", "nvme/queues.c"),
    "disk_client": ("nvme/client.c",),
}


def build_program(name, program, prefix, *words, examples=EXAMPLES):
    build([os.path.join(examples, source) for source in PROGRAMS[name]], program, prefix, *words, examples=examples)


def boot(work, prefix, folder, version, kills):
    """Starts the machine."""
    work, root = os.path.join(work, "disks"), os.path.join(work, "disks", "root")
    os.makedirs(work, exist_ok=True)
    make_root(root, prefix, folder, "disk_parts")
    with open(os.path.join(root, "parts")) as file:
        text = file.read()
    with open(os.path.join(root, "parts"), "w") as file:
        file.write(f"kills={kills}\n" + text)
    for name in PROGRAMS:
        build_program(name, os.path.join(root, "bin", name), prefix)
    for what, name, file, old, new in WRONG:
        examples = edited(work, what, file, old, new)
        build_program(name, os.path.join(root, "bin", f"{name}.{what}"), prefix, examples=examples)
    devices = []
    for name, more, address in (("disk", "mdts=8", "05"), ("brokered", "mdts=5", "06")):
        path = os.path.join(work, name)
        with open(path, "wb") as file:
            file.truncate(DISK)
        # the brokered one is slow, so that commands are in flight when a driver is killed
        slow = ",throttling.iops-total=200" if name == "brokered" else ""
        devices += ["-drive", f"file={path},format=raw,if=none,id={name},cache=unsafe{slow}"]
        devices += ["-device", f"nvme,drive={name},serial={name},{more},addr={address}"]
    devices += ["-device", "edu,dma_mask=0xffffffff,addr=07"]
    return Machine(work, root, os.path.join(folder, "vmlinuz-" + version), devices)


def wrong_blocks(path, generations):
    """How many blocks the driver wrote, and how many sectors of them aren't as it says, by the disk's file."""
    written = wrong = 0
    with open(path, "rb") as file:
        for number, generation in enumerate(generations):
            data = file.read(BLOCK)
            if generation:
                written += 1
                marks = [struct.unpack_from("<QQ", data, at * SECTOR) for at in range(BLOCK // SECTOR)]
                wrong += sum(mark != (number << 8 | at, generation) for at, mark in enumerate(marks))
    return written, wrong


def wrong_on_disk(path, generations):
    """The same by the file of generations that the driver left."""
    numbers = array.array("I")
    with open(generations, "rb") as file:
        numbers.frombytes(file.read())
    return wrong_blocks(path, numbers)


def maps(part):
    """First frames and lengths of what the log says was mapped."""
    return [(int(line.split()[1]), int(line.split()[2])) for line in part.text("log").splitlines() if line.startswith("map ")]


def check_driver(part, ios):
    """All I/Os were made, each with the right bytes, and mapped for itself, and none at a wrong time."""
    said = part.said
    part.check_outcome({"wrong": 0})
    part.check("I/Os, and what is read back", said["reads"] + said["writes"], ios + DISK // (1 << 20))
    if part.name != "static":
        part.check("a mapping for each, and one for the queues", said["mapped"] - said["copies"], ios + DISK // (1 << 20) + 1)
    part.check_faults()
    part.check_log()
    if part.name == "static":
        part.check_trace_findings()
    else:
        part.check_trace()
    print(
        f"{part.name}: {said['reads'] + said['writes']} I/Os, {said['KiB'] >> 10} MiB, mapped {said['mapped']} times, unmapped by "
        f"{said['calls']} calls, {said['flushes']} flushes, {said['waits']} waits, {said['wrong']} wrong, "
        f"{said['milliseconds']} ms; {part.words()}",
        flush=True,
    )


def check_lazy(part, disk):
    check_driver(part, IOS)
    mean = part.said["KiB"] / (part.said["reads"] + part.said["writes"])
    part.check("the mean of I/Os is some 16 KiB", 12 < mean < 24, True)
    part.check("of 1 MiB, and the queues", sum(frames == 256 for _, frames in maps(part)) >= 200, True)
    part.check("unmaps of neighbours by one call", part.said["calls"] < part.said["unmapped"], True)
    try:
        written, wrong = wrong_on_disk(disk, os.path.join(part.out, "lazy.generations"))
    except OSError as fault:
        written, wrong = 0, str(fault)
    part.check("blocks of the disk's file, and sectors that are wrong", (written > 16000, wrong), (True, 0))
    print(f"{part.name}: {written} blocks of the disk's file as they were written, {wrong} sectors wrong", flush=True)


def check_beside(part):
    check_driver(part, FEWER)
    low = [first for first, _ in maps(part) if first < 1 << 20]
    part.check("copies by the device of 32 bits", part.said["copies"] > 0, True)
    part.check("its addresses are those below 4 GiB", len(low), part.said["copies"])
    print(f"{part.name}: {part.said['copies']} copies by the device of 32 bits beside it", flush=True)


def check_window(part):
    check_driver(part, FEWER)
    met = [first for first, frames in maps(part) if first <= WINDOW[1] and first + frames > WINDOW[0]]
    part.check("addresses in the window", met, [])
    sides = {first > WINDOW[1] for first, _ in maps(part)}
    part.check("addresses on both sides of it", sides, {False, True})


def check_filled(part):
    check_driver(part, FEWER)
    part.check("it waited for room", part.said["waits"] > 0, True)


def check_brokered(part, kills, slow):
    lines = part.text("out").splitlines()
    part.check("statuses", [line.split()[2] for line in lines if " status " in line], ["0"] * 4)
    drivers = [counts(last(part.text(name))) for name in ("first", "second", "last")]
    part.check("what the others lost", [driver["wrong"] for driver in drivers], [0, 0, 0])
    part.check("they were at work", all(driver["reads"] > 100 for driver in drivers), True)  # what is read back is more
    said = part.said
    killed = sum(int(line.split()[1]) for line in lines if line.startswith("killed "))
    part.check("killed", killed, kills)
    part.check_outcome({"clashes": 0, "deleted": kills, "queues": kills + 3, "reset": 1}, quiet=False)
    # where the machine keeps up with its disk 192 and more at each; a slow one may have none left when `gone` comes
    part.check("commands in flight at the kills", said["in_flight"] >= 20 or slow, True)
    part.check_faults()
    part.check_log()
    part.check_trace()
    stat = next((line.split() for line in lines if line.startswith("stat ")), ["0"] * 9)
    part.check("frames of clients and in rings at the end", (stat[3], stat[6]), ("0", "0"))
    print(
        f"{part.name}: {killed} drivers killed with {said['in_flight']} commands in flight, at least {said['least']} each; "
        f"the others made {sum(driver['reads'] + driver['writes'] for driver in drivers)} I/Os, 0 wrong; "
        f"{said['gone']} `gone`, {said['inval']} `inval`; {part.words()}",
        flush=True,
    )


# What is wrong is told, each time by the tool that docs/VFIO.md names.


def check_frees_first(part):
    first = part.check_found("reused", "overlap")
    print(f"{part.name}: {len(part.log)} findings of its log; the first is `{first}`", flush=True)


def check_takes_twice(part):
    told = re.findall("nvme: a completion of a command that isn't in flight", part.text("err"))
    part.check("told by the driver", bool(told), True)
    print(f"{part.name}: `{told[0] if told else 'nothing'}`", flush=True)


def check_shares_a_list(part):
    wrong = part.said["wrong"]
    part.check("told by the bytes", wrong > 0 or part.text("status") != "0", True)
    print(f"{part.name}: {wrong} sectors wrong, {len(part.faults)} faults", flush=True)


def check_ignores_the_mask(part):
    told = (bool(part.faults), part.said["wrong"] > 0)
    part.check("told by the kernel, and by the bytes", told, (True, True))
    print(f"{part.name}: {len(part.faults)} faults, {part.said['wrong']} of {part.said['copies']} copies wrong", flush=True)


def check_ignores_mdts(part):
    told = re.findall(r"nvme: (?:read|write): status 0x\w+", part.text("err"))
    part.check("told by the controller", bool(told), True)
    print(f"{part.name}: `{told[0] if told else 'nothing'}`", flush=True)


def check_machine(work, out, prefix, kills, slow):
    check_between(out, slow)
    check_parts(
        out,
        os.path.join(prefix, "bin", "iovad"),
        slow,
        ("brokered", lambda part: check_brokered(part, kills, slow)),
        ("frees_first", check_frees_first),
        ("takes_twice", check_takes_twice),
        ("shares_a_list", check_shares_a_list),
        ("ignores_the_mask", check_ignores_the_mask),
        ("ignores_mdts", check_ignores_mdts),
        ("beside", check_beside),
        ("window", check_window),
        ("filled", check_filled),
        ("few", lambda part: check_driver(part, 1000)),
        ("strict", lambda part: check_driver(part, FEWER)),
        ("static", lambda part: check_driver(part, FEWER)),
        ("lazy", lambda part: check_lazy(part, os.path.join(work, "disks", "disk"))),
    )
