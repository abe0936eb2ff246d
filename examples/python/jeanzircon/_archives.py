"""What is read of archives, a page at a time: WARC and tar files, folders of these and of HTML files, single files."""
from __future__ import annotations

import functools
import os
import stat
import tarfile
from collections import Counter
from collections.abc import Iterable, Iterator
from typing import Any, BinaryIO, NamedTuple

from . import _warc
from ._stored import Found

PAGES, WARCS = (".html", ".htm"), (".warc", ".warc.gz")
TARS = ".tar", ".tar.gz", ".tgz", ".tar.bz2", ".tbz2", ".tar.xz", ".txz"
BLOCK = 1024
NO_MEMBER = tuple(getattr(tarfile, it) for it in ("InvalidHeaderError", "TruncatedHeaderError"))


class Done:
    """Of which records of which archives lines stand: for each archive a bit for each, in numbers for a thousand."""

    def __init__(self) -> None:
        self._blocks: dict[str, dict[int, int]] = {}

    def add(self, archive: str, record: int) -> None:
        block, bit = divmod(record, BLOCK)
        blocks = self._blocks.setdefault(archive, {})
        blocks[block] = blocks.get(block, 0) | 1 << bit

    def has(self, archive: str, record: int) -> bool:
        blocks, (block, bit) = self._blocks.get(archive), divmod(record, BLOCK)
        return blocks is not None and bool(blocks.get(block, 0) >> bit & 1)

    def of(self, archives: Iterable[str]) -> Done:
        """What is known of these archives."""
        found = Done()
        found._blocks = {it: self._blocks[it] for it in archives if it in self._blocks}
        return found


class Place(NamedTuple):
    """A file, what it is by its name, and the first record that is wanted of it; the file can be read from `begin` on."""
    path: str
    kind: str
    record: int = 0
    begin: tuple[int, int] = (0, 0)


def kind_of(path: str) -> str:
    """What a file is by its name: "warc", "tar", "html", or nothing of these."""
    name = path.lower()
    ends = {"warc": WARCS, "tar": TARS, "html": PAGES}
    return next((kind for kind, it in ends.items() if name.endswith(it)), "")


def kind_within(path: str) -> str:
    """What a file is that was named by itself, whatever its name is."""
    with open(path, "rb") as file:
        begin = file.read(4096)
    if begin.startswith(b"WARC/") or _warc.begins_record(begin):
        return "warc"
    return "tar" if tarfile.is_tarfile(path) else "html"


def files_in(folder: str, faults: list[OSError]) -> Iterator[str]:
    """The files in a folder and the folders in it, in the order of their names. A link to a folder is not followed."""
    for place, folders, names in os.walk(folder, onerror=faults.append):
        folders.sort()
        yield from (os.path.join(place, it) for it in sorted(names))


class Member(tarfile.TarInfo):
    """A member of a tar file. Where none begins, that is an error: tarfile takes it for the end."""

    @classmethod
    def fromtarfile(cls, tar: tarfile.TarFile) -> Member:
        try:
            return super().fromtarfile(tar)
        except NO_MEMBER as why:
            raise tarfile.ReadError(str(why)) from why


class Archives:
    """The pages of archives, but those of which lines stand. A page is of at most so many bytes."""

    def __init__(self, done: Done, most: int) -> None:
        self.done, self._most = done, most
        self.left_out: Counter[str] = Counter()

    def pages(self, paths: Iterable[str]) -> Iterator[Found]:
        for it in self.places(paths):
            yield from [it] if isinstance(it, Found) else self.at(it)

    def places(self, paths: Iterable[str]) -> Iterator[Place | Found]:
        """The files of these paths, and why a folder is not read."""
        for path in paths:
            if not os.path.isdir(path):
                yield Place(path, kind_of(path))
                continue
            faults: list[OSError] = []
            for it in files_in(path, faults):
                if kind := kind_of(it):
                    yield Place(it, kind)
                else:
                    self.left_out["of another name"] += 1
            yield from (self._unreadable(str(it.filename), it) for it in faults if not self.done.has(str(it.filename), 0))

    def _unreadable(self, archive: str, why: Exception) -> Found:
        return Found(archive, 0, archive, status=f"Unreadable {getattr(why, 'strerror', None) or why}")

    def at(self, place: Place) -> Iterator[Found]:
        """The pages of a file, and, at the number 0, why not all of them are read."""
        path = place.path
        try:
            if not stat.S_ISREG(os.stat(path).st_mode):
                raise OSError("no file")
            reads = {"warc": self._of_warc, "tar": self._of_tar, "html": self._of_file}
            yield from reads[place.kind or kind_within(path)](place)
        except Exception as why:  # (tarfile raises whatever its code comes upon)
            if not self.done.has(path, 0):
                yield self._unreadable(path, why)

    def _is_done(self, place: Place, record: int) -> bool:
        return record < place.record or self.done.has(place.path, record)

    def _of_warc(self, place: Place) -> Iterator[Found]:
        with open(place.path, "rb") as file:
            is_done = functools.partial(self._is_done, place)
            yield from _warc.pages(place.path, file, place.begin, is_done, self.left_out, self._most)

    def _read(self, found: Found, file: BinaryIO) -> Found:
        content = file.read(self._most + 1)
        return found._replace(content=content) if len(content) <= self._most else found._replace(status="TooLarge", at=self._most)

    def _of_file(self, place: Place) -> Iterator[Found]:
        if not self._is_done(place, 1):
            with open(place.path, "rb") as file:
                yield self._read(Found(place.path, 1, place.path), file)

    def _of_tar(self, place: Place) -> Iterator[Found]:
        """The HTML files of a tar file, each with the number of its member."""
        path, number = place.path, 0
        tar: Any
        with tarfile.open(path, "r|*", tarinfo=Member) as tar:
            while member := tar.next():
                tar.members = []  # (where all that were read are kept)
                number += 1
                if member.isdir() or self._is_done(place, number):
                    continue
                file = tar.extractfile(member) if member.isreg() and kind_of(member.name) == "html" else None
                if file:
                    yield self._read(Found(path, number, member.name), file)
                else:
                    self.left_out["of another name"] += 1
