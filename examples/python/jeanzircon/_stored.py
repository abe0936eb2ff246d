"""A page as an archive has it, and how it is read: chunks and codings of HTTP are undone where the standard library can."""
from __future__ import annotations

import os
import re
import zlib
from typing import NamedTuple

HEX = re.compile(rb"[ \t]*([0-9A-Fa-f]{1,16})[ \t]*(?:;[^\n]*)?\r?\n")


class Unread(Exception):
    """Why a page is not read: a status, whose first word is its name, and the byte, where there is one."""

    def __init__(self, status: str, at: int | None = None) -> None:
        super().__init__(status, at)
        self.status, self.at = status, at


class Broken(Unread):
    """A record that is not as its format has it."""

    def __init__(self, why: str) -> None:
        super().__init__(f"BrokenRecord {why}")


# An archive, the number of a record, its address, and from where on the archive can be read again: a byte, and how many records are before it.
Where = tuple[str, int, str, "tuple[int, int]"]


class Found(NamedTuple):
    """A page of an archive, or why it is not read. Its content is as it is stored, with the codings that HTTP names; or `span` says where in the
    archive it is, and how many bytes it has, for the process that reads the page."""
    archive: str
    record: int
    address: str
    begin: tuple[int, int] = (0, 0)
    content: bytes = b""
    transfer: str = ""
    coding: str = ""
    status: str = ""
    at: int | None = None
    span: tuple[int, int] = (0, 0)


def whole_chunks(content: bytes) -> bytes:
    """What chunks hold. Many archives name the coding of what they keep without it: what begins with no size is taken as it is."""
    parts: list[bytes] = []
    at = 0
    while True:
        size = HEX.match(content, at)
        if size is None and not at:
            return content
        if size is None:
            raise Broken("a chunk has no size")
        count, begin = int(size[1], 16), size.end()
        if not count:
            return b"".join(parts)
        if begin + count > len(content):
            raise Broken("a chunk is cut off")
        parts.append(content[begin:begin + count])
        at = begin + count + (2 if content.startswith(b"\r\n", begin + count) else 1)


def inflated(content: bytes, form: int, most: int) -> bytes:
    """What zlib unpacks, of no more than so many bytes."""
    parts: list[bytes] = []
    room = most
    while content:
        unpacking = zlib.decompressobj(form)
        parts.append(unpacking.decompress(content, room + 1))
        room -= len(parts[-1])
        if room < 0:
            raise Unread("TooLarge", most)
        if not unpacking.eof:
            raise Broken("its packed content is cut off")
        # (another member may follow; what else follows is left)
        content = unpacking.unused_data if form == 31 and unpacking.unused_data.startswith(b"\x1f\x8b") else b""
    return b"".join(parts)


def unpacked(content: bytes, coding: str, most: int) -> bytes:
    """The content without a coding. As with chunks, what is plainly without it is taken as it is."""
    try:
        if coding in ("gzip", "x-gzip"):
            return inflated(content, 31, most) if content.startswith(b"\x1f\x8b") else content
        if coding == "deflate":
            is_wrapped = len(content) > 1 and content[0] & 15 == 8 and not int.from_bytes(content[:2], "big") % 31
            return inflated(content, 15 if is_wrapped else -15, most)
    except zlib.error as error:
        raise Broken("its content cannot be unpacked") from error
    raise Unread(f"UnknownCoding {coding[:20]}")


def codings(words: str) -> list[str]:
    """The codings that a header names, the last first, but those that change nothing."""
    found = [it.strip().lower() for it in words.split(",")]
    return [it for it in reversed(found) if it not in ("", "identity", "none", "utf-8")]


class Parts:
    """Reads parts of archives, of which the last one stays open."""

    def __init__(self) -> None:
        self._path, self._file = "", -1

    def read(self, path: str, at: int, size: int) -> bytes:
        """So many bytes of a file, from this one on."""
        try:
            if path != self._path:
                self.close()
                self._file, self._path = os.open(path, os.O_RDONLY), path
            content = os.pread(self._file, size, at)
        except OSError as why:
            raise Unread(f"Unreadable {why.strerror}") from why
        if len(content) < size:
            raise Broken("it is cut off")
        return content

    def close(self) -> None:
        if self._path:
            os.close(self._file)
        self._path = ""


PARTS = Parts()


def content_of(found: Found, most: int) -> bytes:
    """The bytes of a page, which are no more than `most`."""
    if found.status:
        raise Unread(found.status, found.at)
    content = PARTS.read(found.archive, *found.span) if found.span[1] else found.content
    if found.transfer or found.coding:
        for coding in codings(found.transfer) + codings(found.coding):
            content = whole_chunks(content) if coding == "chunked" else unpacked(content, coding, most)
    if len(content) > most:
        raise Unread("TooLarge", most)
    return content
