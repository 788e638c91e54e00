"""A virtual machine with an Intel IOMMU: what is put into it, its end, and what it left, which is looked at from outside.

tests/run_vfio makes two of them: one with two `edu`, and one with disks (disks.py). It wants Debian's packages of WANTED, and
takes the kernel's by `apt-get download`; what it wants of that it keeps in out/vfio.
"""
import collections
import ctypes
import glob
import os
import re
import shutil
import signal
import subprocess
import tempfile
import time

from harness import HERE, TOP, check, within

EXAMPLES = os.path.join(TOP, "examples")
GUEST = os.path.join(HERE, "vfio")
KEPT = os.path.join(TOP, "out", "vfio")
PATIENCE = 1200  # seconds that a machine has: without KVM, on a machine that others use
SLOW = 30  # seconds until its first part begins: 5 where processors are free
SILENT = 300  # seconds of processor time in which it says nothing: else it does each five seconds of its own
SANE = ("-O1", "-g", "-fsanitize=address,undefined", "-fno-sanitize-recover=all")
MODULES = ("virtio_pci", "virtio_blk", "vfio_iommu_type1", "vfio-pci")
WANTED = {
    "qemu-system-x86": "qemu-system-x86_64",
    "busybox-static": "busybox",
    "cpio": "cpio",
    "kmod": "modprobe",
    "gcc": "cc",
}


def shell(command, **more):
    return subprocess.run(command, check=True, stdout=subprocess.PIPE, stdin=subprocess.DEVNULL, **more).stdout.decode()


def find(program):
    return shutil.which(program, path=os.environ.get("PATH", "") + ":/sbin:/usr/sbin")


def what_is_missing():
    missing = [package for package, program in WANTED.items() if not find(program)]
    return "apt-get install -y " + " ".join(missing) if missing else "" if find("apt-get") else "there is no apt-get"


# What it is made of.


class NoKernel(Exception):
    pass


def kernel():
    """The folder with the kernel and those of its modules that are wanted, and the kernel's version."""
    try:
        depends = shell(["apt-cache", "depends", "linux-image-amd64"], stderr=subprocess.DEVNULL).split()
        package = [word for word in depends if word.startswith("linux-image-") and word != "linux-image-amd64"][0]
        version = package[len("linux-image-") :]
        folder = os.path.join(KEPT, version)
        if not os.path.isdir(folder):
            os.makedirs(KEPT, exist_ok=True)
            with tempfile.TemporaryDirectory(dir=KEPT) as made:
                shell(["apt-get", "download", "-qq", package], cwd=made, stderr=subprocess.DEVNULL, timeout=120)
                (file,) = glob.glob(os.path.join(made, "*.deb"))
                package, kept = os.path.join(made, "package"), os.path.join(made, "kept")
                shell(["dpkg-deb", "-x", file, package])
                shell([find("depmod"), "-b", package, version])
                put_modules(package, version, kept)
                put(os.path.join(package, "boot", "vmlinuz-" + version), kept)
                os.rename(kept, folder)
        return folder, version
    except (subprocess.SubprocessError, IndexError, ValueError, OSError) as fault:
        raise NoKernel(f"no kernel by apt-get download, apt-get update may help: {fault}") from fault


def put(source, folder, name=None):
    os.makedirs(folder, exist_ok=True)
    shutil.copy(source, os.path.join(folder, name or os.path.basename(source)))


def put_modules(folder, version, root):
    below = os.path.join("lib", "modules", version)
    for name in ("order", "builtin", "builtin.modinfo"):
        put(os.path.join(folder, below, "modules." + name), os.path.join(root, below))
    for module in MODULES:
        for line in shell([find("modprobe"), "-d", folder, "-S", version, "--show-depends", module]).splitlines():
            if line.startswith("insmod "):
                path = os.path.relpath(os.path.realpath(line.split()[1]), os.path.realpath(folder))
                put(os.path.join(folder, path), os.path.join(root, os.path.dirname(path)))
    shell([find("depmod"), "-b", root, version])


def put_libraries(program, root):
    """The dynamic libraries of a program, where it wants them."""
    for word in shell(["ldd", program]).split():
        if word.startswith("/") and os.path.exists(word):
            put(word, root + os.path.dirname(word))


def build(sources, program, prefix, *words, examples=EXAMPLES):
    """Builds a program of some sources: statically, where no words say how."""
    warnings = ["-std=c11", "-Wall", "-Wextra", "-Werror", "-pthread"]
    folders = [f"-I{examples}/vfio", f"-I{examples}/nvme", f"-I{prefix}/include"]
    command = ["cc", *warnings, *(words or ("-O2", "-static")), *sources, *folders]
    shell(command + [f"{prefix}/lib/libiova.a", "-o", program])


def edited(work, name, file, old, new):
    """The examples with one line edited: their folder."""
    folder = os.path.join(work, "edited", name)
    shutil.rmtree(folder, ignore_errors=True)
    shutil.copytree(EXAMPLES, folder)
    path = os.path.join(folder, file)
    with open(path) as source:
        text = source.read()
    assert text.count(old) == 1, f"{file} has no single '{old}'"
    with open(path, "w") as source:
        source.write(text.replace(old, new))
    return folder


def make_root(root, prefix, folder, parts):
    """The guest's first file system, but for the programs of its parts."""
    shutil.rmtree(root, ignore_errors=True)
    for name in ("bin", "proc", "sys", "dev", "tmp", "run"):
        os.makedirs(os.path.join(root, name))
    put(find("busybox"), os.path.join(root, "bin"))
    put(os.path.join(prefix, "bin", "iovad"), os.path.join(root, "bin"))
    put_libraries(os.path.join(prefix, "bin", "iovad"), root)
    shutil.copytree(os.path.join(folder, "lib", "modules"), os.path.join(root, "lib", "modules"))
    put(os.path.join(GUEST, "init"), root)
    put(os.path.join(GUEST, "common"), root)
    put(os.path.join(GUEST, parts), root, "parts")
    os.chmod(os.path.join(root, "init"), 0o755)
    build([os.path.join(GUEST, "killer.c")], os.path.join(root, "bin", "killer"), prefix)


def dies_with_us():
    """Before a machine's program: it is killed where this process is (PR_SET_PDEATHSIG)."""
    ctypes.CDLL(None).prctl(1, signal.SIGKILL)


class Machine:
    """Runs by itself to its end. What its parts left is in `out` then."""

    def __init__(self, work, root, image, devices):
        self.work, self.results, self.is_silent = work, os.path.join(work, "results"), False
        shell(["sh", "-c", f"cd {root} && find . | cpio -o -H newc --quiet | gzip -1 >{work}/initrd.gz"])
        with open(self.results, "wb") as file:
            file.truncate(512 << 20)
        words = "console=ttyS0 quiet loglevel=4 panic=-1 no_timer_check intel_iommu=on iommu.strict=0"
        command = ["qemu-system-x86_64", "-accel", "tcg,thread=multi", "-machine", "q35,kernel-irqchip=split"]
        command += ["-smp", "2", "-m", "1G", "-cpu", "max", "-kernel", image, "-initrd", f"{work}/initrd.gz"]
        command += ["-append", words, "-nodefaults", "-no-user-config", "-no-reboot", "-display", "none"]
        command += ["-monitor", "none", "-serial", f"file:{work}/console"]
        command += ["-device", "intel-iommu,intremap=on,caching-mode=off"]
        command += ["-drive", f"file={self.results},format=raw,if=none,id=results", "-device", "virtio-blk-pci,drive=results"]
        with open(os.path.join(work, "qemu.log"), "wb") as log:
            self.process = subprocess.Popen(
                command + devices, stdin=subprocess.DEVNULL, stdout=log, stderr=log, preexec_fn=dies_with_us
            )

    def end(self):
        """At once."""
        self.process.kill()
        self.process.wait()

    def processor_seconds(self):
        """What it has had of processors."""
        with open(f"/proc/{self.process.pid}/stat", encoding="ascii") as file:
            words = file.read().rpartition(")")[2].split()
        return (int(words[11]) + int(words[12])) / os.sysconf("SC_CLK_TCK")

    def bring_out(self, patience):
        """Waits for its end, and no longer than so many seconds, or until it has run for long and said nothing."""
        end, said, had = time.monotonic() + patience, None, 0
        while self.process.poll() is None:
            text, has = self.console(), self.processor_seconds()
            if text != said:
                said, had = text, has
            self.is_silent = has - had > SILENT
            if self.is_silent or time.monotonic() > end:
                self.end()
            time.sleep(0.2)
        out = os.path.join(self.work, "out")
        shutil.rmtree(out, ignore_errors=True)
        os.makedirs(out)
        subprocess.run(["tar", "xf", self.results, "-C", out], stderr=subprocess.DEVNULL, check=False)
        os.unlink(self.results)
        return out

    def console(self):
        try:
            with open(os.path.join(self.work, "console"), errors="replace") as file:
                return file.read()
        except FileNotFoundError:
            return ""

    def hung(self):
        """The part in which it hung: it ran, and the part didn't go on. Nothing where it didn't."""
        if self.is_silent or "the parts hang" in self.console():
            return (re.findall(r"^part (\w+)", self.console(), re.MULTILINE) or ["its start"])[-1]
        return ""

    def was_cut_off(self):
        """Whether its time ran out: this side's, or that of its first program."""
        return self.process.returncode == -signal.SIGKILL or bool(re.search("the parts (take too long|hang)", self.console()))

    def hardly_ran(self):
        """Whether by its own clock it took long to come to its first part, or was ended before it. One that ended by itself
        without a part is no slow one."""
        begun = re.search(r"^part \w+ ([0-9.]+)", self.console(), re.MULTILINE)
        return float(begun[1]) > SLOW if begun else self.was_cut_off()

    def was_slow(self):
        """Whether its parts may not have come to their end: it hardly ran, or more wants to run here than there are processors."""
        return self.hardly_ran() or bool(self.hung()) or within(1) > 2


# What it left.

def last(text):
    """The last line."""
    return (text.splitlines() or [""])[-1]


def counts(text):
    """Names with a number behind each."""
    words = text.split()
    return collections.Counter({name: int(number) for name, number in zip(words[::2], words[1::2]) if number.isdigit()})


class Part:
    """What a part of the run left in the guest's /out, and what `iovad check` says to it."""

    def __init__(self, out, name, iovad):
        self.out, self.name, self.iovad = out, name, iovad
        self.faults = re.findall(r"DMAR: \[DMA (?:Read|Write).*fault addr (\w+)", self.text("dmesg"))
        self.said = counts(self.text("broker") or last(self.text("out")))
        regions = ("--reserved-regions", os.path.join(out, "regions"))
        self.trace, self.trace_counts = self.checked("trace", "--ftrace", "--first", "0", *regions)
        self.log, self.log_counts = self.checked("log", *regions)
        self.reused = 0

    def text(self, kind):
        try:
            with open(os.path.join(self.out, f"{self.name}.{kind}"), errors="replace") as file:
                return file.read()
        except FileNotFoundError:
            return ""

    def checked(self, kind, *words, text=None):
        """The findings and the counts."""
        data = (self.text(kind) if text is None else text).encode()
        done = subprocess.run([self.iovad, "check", *words, "-"], input=data, capture_output=True, check=False)
        lines = done.stdout.decode().splitlines()
        self.remarks = done.stderr.decode()
        return [line for line in lines if line.startswith("line ")], counts(" ".join(lines[-8:]))

    def check(self, name, got, want):
        check(f"{self.name}: {name}", got, want)

    def check_outcome(self, said, quiet=True):
        """It ended well, and the device and the driver's memory say so."""
        self.check("status", self.text("status").strip(), "0")
        if quiet:
            self.check("standard error", self.text("err"), "")
        for name, number in said.items():
            self.check(name, self.said[name], number)
        self.check("unmapped", self.said["unmapped"], self.said["mapped"])

    def check_faults(self):
        """The IOMMU told as many as were provoked. One that came just when the device had ended may be either."""
        provoked = self.said["provoked"]
        self.check("faults", provoked <= len(self.faults) <= provoked + self.said["near"], True)
        self.check("faults that the kernel left out", "suppressed" in self.text("dmesg"), False)

    def check_trace(self):
        """The guest's kernel saw no address mapped again too early. Beside that VFIO tries, as it opens a container,
        whether there are large pages: it maps two pages at 0 and unmaps them one by one."""
        lost = re.findall(r"(?:overrun|dropped events): (\d+)", self.text("stats"))
        self.check("events that were lost", (len(lost), set(lost)), (6, {"0"}))  # of two processors
        self.check_trace_findings()
        bare = "".join(line for line in self.text("trace").splitlines(True) if "iotlb_inv" not in line)
        findings, _ = self.checked("trace", "--ftrace", "--first", "0", text=bare)
        self.reused = sum(" reused " in line for line in findings)
        self.check("without its flushes something is told", self.reused > 0, True)

    def check_trace_findings(self):
        self.check("findings of the trace", [" ".join(line.split()[2:5]) for line in self.trace], ["cut 0 1"])

    def check_log(self):
        self.check("findings of the log", self.log, [])
        self.check("the log's maps", self.log_counts["maps"], self.said["mapped"])
        self.check("the log's unmaps", self.log_counts["unmaps"], self.said["unmapped"])

    def check_found(self, *kinds):
        """One of these was told, with its line."""
        found = [line for line in self.log if line.split()[2] in kinds]
        self.check(f"one of {kinds} in its log", bool(found), True)
        return found[0] if found else "nothing was found"

    def words(self):
        """What the kernel and the log told."""
        return (
            f"{self.said['provoked']} faults provoked, {len(self.faults)} told; the kernel's trace: {self.trace_counts['maps']} maps, "
            f"{self.trace_counts['flushes']} flushes, {len(self.trace)} finding, VFIO's own (without the flushes {self.reused} "
            f"`reused`); the log: {self.log_counts['maps']} maps, {self.log_counts['flushes']} flushes, "
            f"{self.log_counts['uses']} uses, {len(self.log)} findings"
        )


def check_parts(out, iovad, slow, *parts):
    """Looks at each part by its function. What a slow machine, or one that hung before, hasn't come to the end of is left out."""
    for name, check_it in parts:
        part = Part(out, name, iovad)
        if part.text("status") or not slow:
            try:
                check_it(part)
            except (IndexError, ValueError) as fault:
                part.check("what it left", repr(fault), "whole lines")
        else:
            print(f"left out: {name}, to whose end the machine didn't come", flush=True)


def check_between(out, slow):
    """The kernel told of no fault between the parts, and the machine came to its end."""
    there = os.path.exists(os.path.join(out, "seconds"))
    check("the machine came to its end", there or slow, True)
    try:
        with open(os.path.join(out, "between"), errors="replace") as file:
            check("faults between the parts", re.findall("DMAR: .*fault addr.*", file.read()), [])
    except FileNotFoundError:
        check("what the kernel said between the parts", "nothing", "nothing" if slow else "a file")
