"""Archives that the workers of a Dask cluster read. Each opens them by itself, at the same paths, and gives their lines a part at a time, so that a
part which a worker has not given when it ends is read by another."""
from __future__ import annotations

import queue
from collections import Counter
from collections.abc import Callable, Iterable, Iterator
from typing import TYPE_CHECKING, Any

from ._archives import Archives, Done, Place
from ._crew import Lines, Worker, batches
from ._stored import Found

if TYPE_CHECKING:  # distributed need not be there for a check of types
    Client: Any

    class KilledWorker(Exception):
        pass

    class Late(Exception):
        pass
else:
    from distributed import Client, KilledWorker
    from distributed import TimeoutError as Late

# How many bytes of lines a part has, and one page more; how many files are handed out together; how often a part that failed is tried again.
PART, FILES, AGAIN = 1 << 22, 256, 3
Given = tuple[Lines, "Counter[str]", list[Place]]


def read(places: list[Place], done: Done, most: int) -> Given:
    """The lines of a part, from the first of these places on, what is left out of it, and the places that are left."""
    archives, lines = Archives(done, most), Lines([], most)
    for number, place in enumerate(places):
        for found in archives.at(place):
            if len(lines.text) > PART and found.record:
                return lines, archives.left_out, [place._replace(record=found.record, begin=found.begin), *places[number + 1:]]
            lines.add(found, most)
    return lines, archives.left_out, []


def bundles(places: Iterable[Place | Found]) -> Iterator[list[Place] | Found]:
    """The same, with single pages together, since each bundle is a message; an archive is one for itself."""
    few: list[Place] = []
    for it in places:
        if isinstance(it, Place) and it.kind == "html":
            few.append(it)
        else:
            yield [it] if isinstance(it, Place) else it
        if len(few) == FILES:
            yield few
            few = []
    if few:
        yield few


class Cluster:
    """The workers of a scheduler, each core of which has two parts to read. What they give is written here, each part once, whoever read it."""

    def __init__(self, address: str, most: int, write: Callable[[Lines], None]) -> None:
        self._client, self._most, self._write = Client(address, set_as_default=False), most, write
        self._came: queue.SimpleQueue[Any] = queue.SimpleQueue()
        self._parts: dict[Any, tuple[list[Place], Done]] = {}
        self._here: Worker | None = None
        self.is_ending, self.ended_by = False, 0
        self.fault: Exception | None = None

    def stop(self, number: int = 0, frame: object = None) -> None:
        """Has it end. A signal may call it."""
        self.is_ending, self.ended_by = True, number

    def run(self, archives: Archives, paths: Iterable[str]) -> None:
        """Has all pages of these paths read."""
        left = bundles(archives.places(paths))
        try:
            while not self.is_ending and (self._hand_out(left, archives) or self._parts):
                self._take(archives)
        except Exception as fault:
            self.fault = fault
        finally:
            self._end()

    def _hand_out(self, left: Iterator[list[Place] | Found], archives: Archives) -> bool:
        """Hands out parts as long as cores wait for one. Says whether any may be left."""
        room = 2 * max(1, sum(self._client.nthreads().values())) - len(self._parts)
        while room > 0 and (it := next(left, None)) is not None:
            if isinstance(it, Found):
                self._write(Lines([it], self._most))
            else:
                self._give(it, archives.done.of(place.path for place in it))
                room -= 1
        return bool(room <= 0)

    def _give(self, places: list[Place], done: Done) -> None:
        future = self._client.submit(read, places, done, self._most, pure=False, retries=AGAIN)
        self._parts[future] = places, done
        future.add_done_callback(self._came.put)

    def _take(self, archives: Archives) -> None:
        """Waits a second at most for a part, and writes it."""
        try:
            future = self._came.get(timeout=1)
            places, done = self._parts[future]
            lines, left_out, rest = self._given_by(future)
        except queue.Empty:
            return
        del self._parts[future]
        self._write(lines)
        archives.left_out.update(left_out)
        if rest:
            self._give(rest, done)

    def _given_by(self, future: Any) -> Given:
        """What a part gives; it is read here where it ended several workers."""
        places, done = self._parts[future]
        while not self.is_ending:
            try:
                given: Given = future.result(timeout=1)
                return given
            except Late:
                continue
            except KilledWorker:
                return self._read_here(places, done)
        raise queue.Empty

    def _read_here(self, places: list[Place], done: Done) -> Given:
        """The lines of a part by a process of this machine, whose memory is bounded: a page that ends it is a line."""
        self._here = self._here or Worker(self._most)
        archives = Archives(done, self._most)
        for place in places:
            for batch in batches(archives.at(place)):
                for lines in self._here.lines_of(batch, lambda: self.is_ending):
                    self._write(lines)
        return Lines([], self._most), archives.left_out, []

    def _end(self) -> None:
        """Leaves what is not read yet."""
        self._client.cancel(list(self._parts))
        self._client.close()
        if self._here:
            self._here.close()
