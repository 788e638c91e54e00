"""Checks that find false sentences in the pages: a name in code font that no source has, a figure without its circumstances, a table of
the gate that lacks a crate. Each check takes the text that it judges, so that it can be tried on a false sentence of its kind."""
import functools
import glob
import os
import re

from harness import TOP

# what the names of a page may come from
SOURCES = ("crates", "bin", "dev", "share", "tests", "bindings", "examples", "bench", "debian", "docs", ".githooks", ".ci", "release", "crates.txt", ".gitmessage")
LEFT_OUT = ("out", "target", "__pycache__", "results")
OWN = ("tests/claims.py", "tests/run_docs", "tests/prose.tsv")  # these have the false names that the checks are tried on
# names that no source of ours has, by the program that they belong to
FOREIGN = frozenset(
    # the allocator of Linux, which docs/MODEL.md compares ours with, and its flush queue and caches
    "IOVA_MAG_SIZE MAX_GLOBAL_MAGS IOVA_RANGE_CACHE_MAX_SIZE iommu_dma_alloc_iova __alloc_and_insert_iova_range alloc_iova "
    "__iova_rcache_get __iova_rcache_insert iova_magazine_pop iova_domain_flush iova_fq rcache trace_event NO_PASID "
    # the interfaces of docs/FITS.md: DPDK, SPDK, vfio-user, IOMMUFD
    "rte_dev_dma_map rte_extmem_register rte_malloc_heap_create rte_malloc_heap_memory_add rte_pktmbuf_attach_extbuf pa va mp xmem spdk_mem_register VFIO_USER_DMA_MAP VFIO_USER_DMA_UNMAP "
    "IOMMU_IOAS_IOVA_RANGES IOMMU_IOAS_MAP IOMMU_IOAS_MAP_FIXED_IOVA IOMMU_IOAS_UNMAP "
    # settings of systemd and docker; words of tools: rt and its prover, trace-cmd, libabigail, the compiler, grep; the system's words;
    # the front of `inval`, which docs/MODEL.md has as cut off
    "TasksMax MemoryMax stop_grace_period CMD tidy plant Lts cmd abidiff __atomic rlwE denied inva".split()
)
# folders of the repository, with which a path in code font begins
FOLDERS = re.compile(r"(?:bin|tests|docs|crates|share|bench|examples|bindings|debian|release|src|specs|proofs|must-fail|iova_\w+|iovad)/")
FILES = re.compile(r"\.(?:rt|antt|md|txt|tsv|c|h|hpp|py|json|svg|png|edit|trace|service|log|html|so|a|pc|sh|sock|\d+)\b")


@functools.lru_cache(None)
def texts():
    """The text of each source without the comments of crates, by its path."""
    found = {}
    for top in SOURCES:
        walked = os.walk(os.path.join(TOP, top)) if os.path.isdir(os.path.join(TOP, top)) else [(TOP, [], [top])]
        for at, folders, names in walked:
            folders[:] = sorted(it for it in folders if it not in LEFT_OUT)
            for path in (os.path.relpath(os.path.join(at, name), TOP) for name in names):
                text = ""
                if path not in OWN and not path.endswith((".md", ".xz", ".png", ".svg")):
                    try:
                        with open(os.path.join(TOP, path), encoding="utf-8") as file:
                            text = file.read()
                    except UnicodeDecodeError:
                        pass
                found[path] = re.sub(r"(?m)^\s*(//|--).*$", "", text) if path.endswith((".rt", ".antt")) else text
    return found


@functools.lru_cache(None)
def places():
    """The sources that have a word, in their text or in their path, by the word."""
    found = {}
    for path, text in texts().items():
        for word in set(re.findall(r"\w+", text)) | set(re.findall(r"\w+", path)):
            found.setdefault(word, set()).add(path)
    return found


def spans(lines):
    """The number of each line with its text in code font. Blocks of code and the quotes of sources aren't read."""
    inside = False
    for number, line in enumerate(lines, 1):
        if line.startswith("```"):
            inside = not inside
        elif line == "## Quoted":
            return
        elif not inside:
            for found in re.finditer(r"(?<!`)`([^`]+)`(?!`)", line):
                yield number, found[1]


def has_path(path, page):
    """Whether a file or folder of the repository ends so. Words in capitals, such as NAME, and stars stand for any text."""
    pattern = re.sub(r"\b[A-Z]{1,}[A-Z_]*\b", "*", path.rstrip("/"))
    tops = (TOP, os.path.join(TOP, os.path.dirname(page)), os.path.join(TOP, "crates"), os.path.join(TOP, "crates", "*"), os.path.join(TOP, "crates", "*", "src"))
    return any(glob.glob(os.path.join(top, pattern + end)) for top in tops for end in ("", ".rt", ".antt", ".edit", ".trace"))


def is_known(word):
    """Whether a source has the word. A word that ends in _ or _N stands for all that begin so."""
    stem = re.sub(r"(?<=_)N$", "", word)
    return word in places() or word in FOREIGN or (stem.endswith("_") and any(it.startswith(stem) for it in places()))


def unknown_names(lines, page):
    """The names in code font that no source has."""
    wrong = []
    for number, span in spans(lines):
        # in a line with other words a word in capitals stands for another
        plain = re.sub(r"(?<!\S)-I(?=\w)|\\w\*\w+", "", span)  # a compiler's option, a pattern
        words = [word for word in re.findall(r"(?<!\w)[A-Za-z_]\w*", plain) if not (re.fullmatch(r"[A-Z_]+", word) and re.search(r"[ /]", plain))]
        missing = [word for word in words if not is_known(word)]
        wrong += [f"{page}:{number}: no source has {word} of `{span}`" for word in missing]
        if missing:
            continue
        if re.fullmatch(r"\w+(?:(?:::|\.)\w+)+", span) and not FILES.search(span) and not span[0].isdigit():
            # CRATE::MODULE::NAME, Module.Name, Type::name: one source has the name, and the others in its text or its path
            if not set.intersection(*(places()[word] for word in words)):
                wrong.append(f"{page}:{number}: no source has all of `{span}`")
        elif re.fullmatch(r"[\w*.-]+(?:/[\w*.-]+)+/?", span) and FOLDERS.match(span) and "out" not in words and not has_path(span, page):
            wrong.append(f"{page}:{number}: there is no {span}")
    return wrong


def between(text, mark):
    """The generated block of a page after its first mark."""
    return text.partition(f"<!-- {mark} -->")[2].partition("<!-- end -->")[0]


def gate_gaps(page, edits):
    """The crates that the gate's table lacks or has twice, and rows with another number of edits than there are."""
    rows = re.findall(r"^\| `(\w+)` \|(.*)\|$", between(page, "bin/dev gate").partition("| Part |")[0], re.M)
    names = [name for name, _ in rows]
    wrong = [f"{name} has {names.count(name)} rows" for name in edits if names.count(name) != 1]
    wrong += [f"{name} is no crate" for name in names if name not in edits]
    cells = {name: [cell.strip() for cell in row.split("|")] for name, row in rows}
    return wrong + [f"{name}: the table has {cells[name][3] or 0} edits, and there are {count}"
                    for name, count in edits.items() if name in cells and cells[name][3] != str(count or "")]


DAY, COMMIT, MACHINE, LOAD = r"\b20\d\d-\d\d-\d\d\b", r"\bcommit [0-9a-f]{8}\b", r"\b\d+ processors\b", r"\bload\b"
# a time or a rate that was measured; how often something is done, or how far apart, is no measurement
FIGURE = re.compile(r"(?<!every )\b\d[\d.,]*(?: to \d[\d.,]*)? (?:ns|us|µs|nanoseconds|microseconds)\b(?! apart| more)|\b(?:thousand|million) (?:requests|operations) a second\b")


def bare_figures(lines, page):
    """The figures in sentences without a day, a commit, a machine and a load, and without a link to bench/README.md, which has them. A
    paragraph that begins with "All figures" says these for its section. Blocks that scripts write have their own."""
    wrong, block, has_all, inside = [], [], False, ""

    def settle():
        text = " ".join(line for _, line in block)
        told = all(re.search(words, text) for words in (DAY, COMMIT, MACHINE, LOAD))
        bare = [(number, found[0]) for number, line in block for found in FIGURE.finditer(line)]
        if not (told or has_all or "bench/README.md" in text):
            wrong.extend(f"{page}:{number}: {found} has no day, commit, machine and load" for number, found in bare)
        block.clear()
        return told and text.startswith("All figures")

    for number, line in [*enumerate(lines, 1), (0, "")]:
        if re.match(r"<!-- (?:bin|bench)/", line) or (line.startswith("```") and not inside):
            inside = line[:3]
        elif line == "<!-- end -->" or (line.startswith("```") and inside == "```"):
            inside = ""
        elif not inside:
            if not line or line.startswith(("#", "- ")):
                has_all = settle() or (has_all and not re.match(r"##? ", line))
            if line and not line.startswith(("#", "|")):
                block.append((number, line))
    return wrong


# results whose circumstances weren't noted when they were taken: no name is added
UNRECORDED = frozenset("answered bindings check client control gate kernel machines placement replay service_cache spent steps threads view".split())


def bad_header(name, head):
    """What the first line of a kept result lacks: `# DAY, commit HASH, N processors (NAME), a load of N at the start: COMMAND`."""
    unknown = "|unknown" if name in UNRECORDED else ""
    parts = {"day": r"^# 20\d\d-\d\d-\d\d, ", "commit": rf", commit (?:[0-9a-f]{{8}}{unknown}), ", "machine": rf", (?:\d+{unknown}) processors \(.+\), ",
             "load": rf", (?:a load of \d+\.\d+{unknown and '|load unknown'}) at the start: "}
    return [f"{name}: its first line has no {what}" for what, words in parts.items() if not re.search(words, head)]


def seeded():
    """Each check finds the false sentence of its kind, and leaves the true one alone: what is wrong with the checks."""
    head = "# 2026-11-30, commit 531b42a6, 4 processors (Intel), a load of 0.3 at the start: bench/kernel 5"
    table = "<!-- bin/dev gate -->\n| Crate | Proof | Its tests | Its edits | Edits | Sum | Run |\n|---|---|---|---|---|---|---|\n{}<!-- end -->\n"
    one, two = "| `iova_range` | 0.5 |  | 1.5 | 8 | 2.0 | x |\n", "| `iova_text` | 0.8 |  | 2.1 | 8 | 2.9 | x |\n"
    names = functools.partial(unknown_names, page="docs/X.md")
    figures = functools.partial(bare_figures, page="docs/X.md")
    edits = {"iova_range": 8, "iova_text": 8}
    cases = (
        ("a name", names, (["It has a `MachineState`."],), (["It has a `RecordedState`."],)),
        ("a name of another module", names, (["As `Slots.TriesAgain` says."],), (["As `SessionThreads.TriesAgain` says."],)),
        ("a function of another module", names, (["In `iova_session::socket_link::take_piece`."],), (["In `iova_session::serve::take_piece`."],)),
        ("a file", names, (["By `tests/run_nothing`."],), (["By `tests/run_docs`."],)),
        ("a figure", figures, (["It takes 68 ns."],), (["It takes 68 ns (2026-11-30, commit 531b42a6, 4 processors, a load of 0.3)."],)),
        ("a figure of another paragraph", figures, (["As bench/README.md says.", "", "It takes 68 ns."],), (["It takes 68 ns (bench/README.md)."],)),
        ("a figure below All figures", figures, (["# A", "All figures are old.", "", "It takes 68 ns."],),
         (["# A", "All figures: 2026-11-30, commit 531b42a6, 4 processors, no load.", "", "It takes 68 ns."],)),
        ("a crate of the gate", gate_gaps, (table.format(one), edits), (table.format(one + two), edits)),
        ("a number of edits", gate_gaps, (table.format(one + two.replace("| 8 |", "| 7 |")), edits), (table.format(one + two), edits)),
        *((f"a result without its {words}", bad_header, ("service", head.replace(words, "")), ("service", head))
          for words in ("2026-11-30", "commit 531b42a6", "4 processors (Intel)", "a load of 0.3")),
        ("a result of an unknown commit", bad_header, ("service", head.replace("531b42a6", "unknown")), ("answered", head.replace("531b42a6", "unknown"))),
    )
    wrong = [f"{what}: the false sentence isn't found" for what, check, bad, _ in cases if not check(*bad)]
    return wrong + [f"{what}: {found}" for what, check, _, good in cases for found in check(*good)]
