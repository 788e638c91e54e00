"""Logs of maps, unmaps and flushes, checked by the program iovad."""
import os
import re
import subprocess
from typing import Dict, Iterable, List, NamedTuple, Optional, Sequence

_FINDING = re.compile(r"line (\d+): ([a-z]+) (\d+) (\d+)(?: since (\d+))?")
_COUNT = re.compile(r"([a-z]+) +(\d+)")


class Finding(NamedTuple):
    """Something that is wrong in a log: its line, what it is (overlap, reused, outside ..), the frames, and since which line."""

    line: int
    kind: str
    lo: int
    len: int
    since: Optional[int]


class Verdict(NamedTuple):
    """What iovad check says of a log. `status` is 0 only where frames were mapped, all was read, and nothing was found."""

    status: int
    findings: List[Finding]
    counts: Dict[str, int]
    notices: List[str]

    @property
    def is_good(self) -> bool:
        return self.status == 0


def check(lines: Iterable[str], options: Sequence[str] = (), program: Optional[str] = None, within: Optional[float] = None) -> Verdict:
    """Has the program iovad check the lines of a log (iovad(5)), or with the options of a kernel's trace: iovad-check(1).

    `program` is iovad's path; without it that of the environment's IOVAD, or else the one on the PATH. `within`, in seconds, is how long
    it may take: subprocess.TimeoutExpired else. A log that is none isn't an error here: the verdict's status and notices say so.
    """
    words = [program or os.environ.get("IOVAD") or "iovad", "check", *options, "-"]
    text = "".join(line if line.endswith("\n") else line + "\n" for line in lines)
    done = subprocess.run(words, input=text, stdout=subprocess.PIPE, stderr=subprocess.PIPE, timeout=within, encoding="utf-8", check=False)
    findings, counts = [], {}
    for line in done.stdout.splitlines():
        found, count = _FINDING.fullmatch(line), _COUNT.fullmatch(line)
        if found:
            number, kind, lo, length, since = found.groups()
            findings.append(Finding(int(number), kind, int(lo), int(length), int(since) if since else None))
        elif count:
            counts[count.group(1)] = int(count.group(2))
    return Verdict(done.returncode, findings, counts, done.stderr.splitlines())
