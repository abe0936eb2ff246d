"""Processes that read pages side by side. What they are given and what they make is bounded: a batch of pages a process, and two that wait for each."""
from __future__ import annotations

import contextlib
import functools
import json
import multiprocessing
import queue
import resource
import signal
import threading
import time
from collections import Counter
from collections.abc import Callable, Iterable, Iterator
from multiprocessing import resource_tracker
from multiprocessing.connection import Connection
from typing import Any

from . import Page, Refused, parse
from ._archives import Archives
from ._base import Node, given
from ._engine import ENGINE
from ._stored import Found, Unread, content_of

# A link that is in a link has its text again, and a formatting element that is made again its attributes. So the links of a page may have so many
# characters for each of its bytes, and so many more; and where they might have more than FEW these are counted before they are made.
TIMES, MORE, FEW = 8, 1 << 16, 1 << 25
NOTHING = b'"title": null, "links": [], "errors": {}'


# Pages are handed over so many bytes at a time, and one page more.
BATCH = 1 << 19
SETTINGS, CALL = given(bad_bytes=1), getattr(ENGINE, "said", None)
quoted = json.JSONEncoder().encode
known = functools.lru_cache(64)(quoted)


def depth_of(node: Node | None, known: dict[int, int]) -> int:
    """In how many links what a node has is. What is found of the nodes around it is kept in `known`."""
    passed: list[Node] = []
    while node is not None and node.number not in known:
        passed.append(node)
        node = node.parent
    depth = 0 if node is None else known[node.number]
    for it in reversed(passed):
        depth += it.name == "a" and it.get("href") is not None
        known[it.number] = depth
    return depth


def are_more(page: Page, room: int) -> bool:
    """Whether the links of a page have more characters, in time that grows as the page does."""
    for node in page.iter("a"):
        room -= len(node.get("href", ""))
        if room < 0:
            return True
    known: dict[int, int] = {}
    return sum(len(it.data or "") * depth_of(it.parent, known) for it in page if it.kind == "text") > room


def links_of(page: Page, size: int) -> list[tuple[str, str]]:
    """The links of a page of so many bytes, each with its text."""
    room = TIMES * size + MORE
    count = sum(1 for _ in page.iter("a"))
    if 2 * size * count > FEW and are_more(page, room):
        raise Unread("LinksTooLarge")
    links = page.links()
    if sum(len(href) + len(text) for href, text in links) > room:
        raise Unread("LinksTooLarge")
    return links


def said_by_nodes(content: bytes) -> bytes:
    """What is said of a page, but how large it is and how long it took; the module in C gives the same."""
    page = parse(content, bad_bytes=1)
    it = {"title": page.title, "links": links_of(page, len(content)), "errors": page.error_counts}
    return json.dumps(it)[1:-1].encode()


def said(content: bytes) -> bytes:
    if CALL is None:
        return said_by_nodes(content)
    found: bytes | None = CALL(content, SETTINGS, TIMES * len(content) + MORE)
    if found is None:
        raise Unread("LinksTooLarge")
    return found


def read(found: Found, most: int) -> tuple[str, int | None, int, bytes]:
    """What comes of a page: its status, the byte of a refusal, how large it is, and what is said of it."""
    size = 0
    try:
        content = content_of(found, most)
        size = len(content)
        return "ok", None, size, said(content)
    except Unread as why:
        return why.status, why.at, size, NOTHING
    except Refused as why:
        status, place, _ = str(why).partition(" at ")
        return status, why.at if place else None, size, NOTHING
    except MemoryError:
        return "Memory", None, size, NOTHING


class Lines:
    """Lines of the output, and what is counted of them: how many there are of each status, by its first word, and the bytes of their pages."""

    def __init__(self, pages: Iterable[Found], most: int) -> None:
        self.text, self.counts, self.size = bytearray(), Counter[str](), 0
        for it in pages:
            self.add(it, most)

    def add(self, found: Found, most: int) -> None:
        """Reads a page, and adds its line."""
        begun = time.perf_counter()
        status, at, size, it = read(found, most)
        begin = (f'{{"archive": {known(found.archive)}, "record": {found.record}, "address": {quoted(found.address)}, "status": {known(status)}, '
                 f'"at": {"null" if at is None else at}, ')
        self.text += b'%b%b, "bytes": %d, "seconds": %.6f}\n' % (begin.encode(), it, size, time.perf_counter() - begun)
        self.counts[status.partition(" ")[0]] += 1
        self.size += size


def work(link: Connection, most: int, others: list[Connection]) -> None:
    """What a process does: lines for pages, until there is nobody who asks. It leaves what it has of its parent's: the other ends, and how that
    answers signals. What a tree needs is not bounded by its page: attributes may be copied, so memory is bounded for itself."""
    signal.signal(signal.SIGTERM, signal.SIG_DFL)
    signal.pthread_sigmask(signal.SIG_UNBLOCK, [signal.SIGTERM])
    for it in others:
        it.close()
    hardest = resource.getrlimit(resource.RLIMIT_AS)[1]
    room = 128 * most + (256 << 20)
    resource.setrlimit(resource.RLIMIT_AS, (room if hardest == resource.RLIM_INFINITY else min(room, hardest), hardest))
    try:
        while True:
            link.send(Lines(map(Found._make, link.recv()), most))
    except (EOFError, OSError):
        pass


def batches(pages: Iterable[Found]) -> Iterator[list[Found]]:
    few: list[Found] = []
    room = BATCH
    for it in pages:
        few.append(it)
        room -= len(it.content) + it.span[1] + 256
        if room < 0:
            yield few
            few, room = [], BATCH
    if few:
        yield few


class Worker:
    """A process, which is started again where it has ended by itself. No Ctrl-C reaches it."""

    def __init__(self, most: int, others: Iterable[Worker] = ()) -> None:
        self._most = most
        self._start([it._link for it in others])

    def _start(self, others: list[Connection]) -> None:
        """Starts it: as a copy, which need not read its modules, where no other thread is there, nor workers but those with these links."""
        is_alone, stops = threading.active_count() == 1, [signal.SIGINT, signal.SIGTERM]
        before = signal.pthread_sigmask(signal.SIG_BLOCK, stops)
        if not is_alone:
            resource_tracker.ensure_running()
            signal.pthread_sigmask(signal.SIG_BLOCK, stops)  # (which the tracker lets through)
        context: Any = multiprocessing.get_context("fork" if is_alone else "spawn")
        self._link, other = context.Pipe()
        self._process = context.Process(target=work, args=(other, self._most, [*others, self._link] if is_alone else []), daemon=True)
        self._process.start()
        other.close()
        signal.pthread_sigmask(signal.SIG_SETMASK, before)

    def lines_of(self, batch: list[Found], is_ending: Callable[[], bool]) -> Iterator[Lines]:
        """The lines of some pages. Where the process ends, each is read by itself."""
        try:
            self._link.send([tuple(it) for it in batch])
            lines: Lines = self._link.recv()
            yield lines
            return
        except (EOFError, OSError):
            if is_ending():
                return
        self.close()
        self._start([])
        if len(batch) > 1:
            for it in batch:
                yield from self.lines_of([it], is_ending)
        else:
            yield Lines([it._replace(content=b"", status="ProcessEnded", at=None) for it in batch], self._most)

    def terminate(self) -> None:
        """Ends the process, if it is not closed already."""
        with contextlib.suppress(ValueError):
            self._process.terminate()

    def close(self) -> None:
        self._link.close()
        self._process.join()
        self._process.close()


class Crew:
    """Workers, each with a thread that hands it pages and takes its lines to `write`. After `stop` no more are written; `fault` is what failed."""

    def __init__(self, count: int, most: int, write: Callable[[Lines], None]) -> None:
        self._count, self._most, self._write = count, most, write
        self._waiting: queue.Queue[list[Found] | None] = queue.Queue(2 * count)
        self._threads: list[threading.Thread] = []
        self._workers: list[Worker] = []
        self.is_ending, self.ended_by = False, 0
        self.fault: Exception | None = None

    def run(self, archives: Archives, paths: Iterable[str]) -> None:
        """Has all pages of these paths read."""
        try:
            self._begin()
            for batch in batches(archives.pages(paths)):
                if self.is_ending:
                    break
                self._waiting.put(batch)  # (once there is room)
        except BaseException:
            self.stop()
            raise
        finally:
            self._end()

    def _begin(self) -> None:
        """Starts the processes, and then the threads, which no Ctrl-C reaches."""
        for _ in range(self._count):
            self._workers.append(Worker(self._most, self._workers))
        blocked = signal.pthread_sigmask(signal.SIG_BLOCK, [signal.SIGINT])
        for it in self._workers:
            self._threads.append(threading.Thread(target=self._serve, args=(it,)))
            self._threads[-1].start()
        signal.pthread_sigmask(signal.SIG_SETMASK, blocked)

    def _serve(self, worker: Worker) -> None:
        while (batch := self._waiting.get()) is not None:
            try:
                for lines in [] if self.is_ending else worker.lines_of(batch, lambda: self.is_ending):
                    self._write(lines)
            except Exception as fault:
                self.fault = self.fault or fault
                self.stop()
        worker.close()

    def stop(self, number: int = 0, frame: object = None) -> None:
        """Ends the processes. A signal may call it: it takes no lock, and what waits for a process goes on by itself."""
        self.is_ending, self.ended_by = True, number
        for it in self._workers:
            it.terminate()

    def _end(self) -> None:
        """Waits until what was given is written, or left."""
        for _ in self._threads:
            self._waiting.put(None)
        for thread in self._threads:
            thread.join()
