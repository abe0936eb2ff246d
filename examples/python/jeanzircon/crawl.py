"""python3 -m jeanzircon.crawl [OPTION..] ARCHIVE..: reads the pages of WARC and tar files, of folders and of HTML files, and writes a line of JSON
for each: where it is, whether it was read or why not, its title, links and numbers of errors."""
from __future__ import annotations

import argparse
import json
import os
import signal
import sys
import threading
import time
from collections import Counter
from collections.abc import Callable
from typing import TYPE_CHECKING

from . import __version__
from ._archives import Archives, Done
from ._crew import Crew, Lines

if TYPE_CHECKING:
    from ._cluster import Cluster

SAYS = """Each line has archive and record, address, status ("ok", or why the page was not read, and at, the byte of a refusal), title, links (pairs of
href and text), errors (how many of each code), bytes and seconds, in the order in which pages come done. Bytes that are not UTF-8 are read as U+FFFD,
whatever charset is declared. With --output it goes on where it was ended, if it is given the same archives by the same names."""


BEGIN = b'{"archive": '


class Output:
    """Where lines are written, each whole, and what is counted of them."""

    def __init__(self, file: int) -> None:
        self._file, self._lock = file, threading.Lock()
        self._counts: Counter[str] = Counter()
        self._size, self._begun, self._shown = 0, time.monotonic(), 0.0

    def write(self, lines: Lines) -> None:
        with self._lock:
            left = memoryview(lines.text)
            while left:
                left = left[os.write(self._file, left):]
            self._counts.update(lines.counts)
            self._size += lines.size
            if sys.stderr.isatty() and time.monotonic() - self._shown > 0.25:
                self._shown = time.monotonic()
                print(f"\r\x1b[K{self.progress()}", end="", file=sys.stderr, flush=True)

    def progress(self) -> str:
        count, seconds = sum(self._counts.values()), time.monotonic() - self._begun
        return f"{count} pages, {count - self._counts['ok']} not read, {self._size / 1e6:.0f} MB, {count / (seconds or 1):.0f} pages a second"

    def summary(self, left_out: Counter[str], stood: int) -> str:
        """What is said at the end."""
        said = "crawl: " + (", ".join(f"{count} {status}" for status, count in self._counts.most_common()) or "no page")
        if left_out:
            said += "; left out: " + ", ".join(f"{count} {why}" for why, count in sorted(left_out.items()))
        return "\r\x1b[K" * sys.stderr.isatty() + said + f"; {stood} stood there" * bool(stood)


def standing(path: str) -> tuple[Done, int]:
    """What the lines of an output are of, and how many there are. A last line that was cut off goes; a file that has other lines is not touched."""
    done, count, size = Done(), 0, 0
    if not os.path.isfile(path):
        return done, count
    with open(path, "rb") as file:
        for line in file:
            if not line.endswith(b"\n") and line.startswith(BEGIN[:len(line)]):
                break
            try:
                it = json.loads(line)
                done.add(str(it["archive"]), int(it["record"]))
            except (ValueError, KeyError, TypeError, RecursionError):
                raise ValueError(f"line {count + 1} of {path} is none of an output") from None
            count, size = count + 1, size + len(line)
    if size < os.path.getsize(path):
        os.truncate(path, size)
    return done, count


def told() -> argparse.Namespace:
    words = argparse.ArgumentParser(prog="python3 -m jeanzircon.crawl", description="Reads the pages of archives, and writes a line of JSON for each.",
                                    epilog=SAYS)
    words.add_argument("archives", nargs="+", metavar="ARCHIVE", help="a WARC file (also gzip), a tar file (also packed), a folder, an HTML file")
    words.add_argument("--output", metavar="FILE", help="where lines are added; standard output where none is named")
    words.add_argument("--processes", type=int, default=len(os.sched_getaffinity(0)), metavar="N", help="as many as there are cores, unless told")
    words.add_argument("--largest", type=int, default=8 << 20, metavar="BYTES", help="what a page may have, unpacked: 8388608, unless told")
    words.add_argument("--scheduler", metavar="ADDRESS", help="a Dask scheduler, whose workers read the archives, at the paths that they have here")
    words.add_argument("--version", action="version", version=f"jeanzircon {__version__}")
    found = words.parse_args()
    lost = [it for it in found.archives if not os.path.exists(it)]
    if lost:
        words.error(f"there is no {lost[0]}")
    if found.scheduler:
        found.archives = [os.path.abspath(it) for it in found.archives]
    if found.processes < 1 or found.largest < 1:
        words.error("--processes and --largest are 1 or more")
    return found


def readers(given: argparse.Namespace, write: Callable[[Lines], None]) -> Crew | Cluster:
    """Who reads the pages: processes of this machine, or the workers of a cluster."""
    if given.scheduler is None:
        return Crew(given.processes, given.largest, write)
    from ._cluster import Cluster
    return Cluster(given.scheduler, given.largest, write)


def crawled(given: argparse.Namespace, file: int, done: Done, stood: int) -> int:
    """Reads all archives; the status of the program."""
    output, archives = Output(file), Archives(done, given.largest)
    crew = readers(given, output.write)
    for number in (signal.SIGINT, signal.SIGTERM):
        signal.signal(number, crew.stop)
    crew.run(archives, dict.fromkeys(given.archives))
    print(output.summary(archives.left_out, stood), file=sys.stderr)
    if isinstance(crew.fault, OSError) and crew.fault.strerror:
        print(f"fault: cannot write: {crew.fault.strerror}", file=sys.stderr)
        return 3
    if crew.fault:
        raise crew.fault
    return 128 + crew.ended_by if crew.is_ending else 0


def main() -> int:
    given = told()
    try:
        if given.output is None:
            return crawled(given, sys.stdout.fileno(), Done(), 0)
        done, stood = standing(given.output)
        with open(given.output, "ab") as file:
            return crawled(given, file.fileno(), done, stood)
    except (ImportError, OSError, ValueError) as fault:
        print(f"fault: {fault}", file=sys.stderr)
        return 3


if __name__ == "__main__":
    sys.exit(main())
