"""Reads WARC files a record at a time, plain or gzip, one member a record or many; a broken record is told, and the next one is sought."""
from __future__ import annotations

import enum
import re
import zlib
from collections import Counter
from collections.abc import Callable, Iterator
from typing import BinaryIO, Union

from ._stored import Broken, Found, Unread, Where

PIECE, LONGEST_HEAD, MAGIC = 1 << 18, 1 << 16, b"\x1f\x8b\x08"
RECORD, FOLDED = re.compile(rb"(?<=\n)WARC/[01]\."), re.compile(rb"\r?\n[ \t]+")
OF_RECORD, OF_HTTP = "warc-type|warc-target-uri|content-type|content-length", "content-type|content-encoding|transfer-encoding"
FIELD = re.compile(rf"\n({OF_RECORD}|{OF_HTTP})[ \t]*:(.*)", re.ASCII | re.IGNORECASE)
# Both heads of a page as most are stored, where no header makes it another: address, length, where its block begins.
USUAL = re.compile(rb"""WARC/1\.[01]\r\n
    (?: WARC-Type:[ ](response)\r\n | WARC-Target-URI:[ ]([!-;=?-~]+)\r\n | Content-Length:[ ]([0-9]{1,9})\r\n
      | Content-Type:[ ]application/http\b[^\r\n]*\r\n | (?!(?i:%b)) [^\s][^\r\n]*\r\n )* \r\n
    () HTTP/[^\r\n]*\r\n (?: Content-Type:[ ](text/html)(?:;[^\r\n]*)?\r\n | (?!(?i:%b)) [^\s][^\r\n]*\r\n )* \r\n""" %
                   (OF_RECORD.encode(), OF_HTTP.encode()), re.VERBOSE)


class Mark(enum.Enum):
    """What stands between two pieces of an archive: the begin of a member that begins a record, a damaged place, or the end."""
    START, DAMAGE, END = range(3)


Piece = Union[bytes, Mark]


def begins_record(raw: bytes) -> bool:
    """Whether a gzip member begins here whose first bytes are those of a record."""
    try:
        return zlib.decompressobj(31).decompress(raw, 5) == b"WARC/"
    except zlib.error:
        return False


class Members:
    """The pieces of a gzip file, of which a member that begins a record is marked: there a record begins, whatever was before. `begin` is the
    place of the last such member."""

    def __init__(self, file: BinaryIO) -> None:
        self._file, self._raw = file, b""
        self.begin = 0

    def __iter__(self) -> Iterator[Piece]:
        while self._has_member():
            if begins_record(self._raw[:4096]):
                self.begin = self._file.tell() - len(self._raw)
                yield Mark.START
            try:
                yield from self._member()
            except zlib.error:
                yield Mark.DAMAGE
                self._seek()

    def _fill(self) -> bool:
        """Reads as much as shows how a member begins, and says whether anything is left."""
        while len(self._raw) < 4096 and (more := self._file.read(PIECE)):
            self._raw += more
        return bool(self._raw)

    def _has_member(self) -> bool:
        """Whether anything is left, past zeros that fill a file up."""
        while self._fill() and self._raw.startswith(b"\0"):
            self._raw = self._raw.lstrip(b"\0")
        return bool(self._raw)

    def _member(self) -> Iterator[bytes]:
        member = zlib.decompressobj(31)
        while not member.eof:
            self._raw = self._raw or self._file.read(PIECE)
            if not self._raw:
                raise zlib.error("cut off")
            piece = member.decompress(self._raw, PIECE)
            self._raw = member.unused_data if member.eof else member.unconsumed_tail
            if piece:
                yield piece

    def _seek(self) -> None:
        """Goes on to the next member that begins a record."""
        self._raw = self._raw[1:]
        while self._fill():
            at = self._raw.find(MAGIC)
            if not at and begins_record(self._raw[:4096]):
                break
            self._raw = self._raw[max(1, at if at >= 0 else len(self._raw) - 2):]


class Pieces:
    """The pieces of a file that is not packed, from where it stands."""

    def __init__(self, file: BinaryIO) -> None:
        self._file, self.begin = file, file.tell()

    def __iter__(self) -> Iterator[Piece]:
        while piece := self._file.read(PIECE):
            yield piece


class Window:
    """The bytes of an archive that were read, of which those from `_at` on are not yet taken. It stays before a mark until it is told to go on."""

    def __init__(self, source: Members | Pieces) -> None:
        self._source, self._pieces = source, iter(source)
        self._kept, self._at = b"", 0
        self._mark: Mark | None = None
        self._begin, self._before = source.begin, 0

    def begin(self, number: int, before: tuple[int, int]) -> tuple[int, int]:
        """From where on the archive can be read again, which so many records are before; in a packed one that is where a member begins."""
        taken = self._before + self._at
        return (self._begin + taken, number) if isinstance(self._source, Pieces) or not taken else before

    def _piece(self) -> bytes:
        """The next piece, or nothing where a mark is next."""
        if self._mark is None:
            piece = next(self._pieces, Mark.END)
            if not isinstance(piece, Mark):
                return piece
            self._mark = piece
        return b""

    def _leave(self) -> int:
        """Leaves what is taken; returns how many bytes are not."""
        self._before += self._at
        self._kept, self._at = self._kept[self._at:], 0
        return len(self._kept)

    def _has(self, size: int) -> bool:
        """Whether so many bytes come before a mark. They are read."""
        if len(self._kept) - self._at >= size:
            return True
        count, parts = self._leave(), [self._kept]
        while count < size and (piece := self._piece()):
            parts.append(piece)
            count += len(piece)
        self._kept = b"".join(parts)
        return count >= size

    def take(self, size: int) -> bytes:
        """So many bytes, or what there is before a mark."""
        self._has(size)
        found = self._kept[self._at:self._at + size]
        self._at += len(found)
        return found

    def head(self, most: int) -> bytes:
        """What is before the first empty line, with it."""
        size = 4096
        while True:
            has_so_many = self._has(min(size, most))
            line = self._kept.find(b"\n\r\n", self._at, self._at + most)
            bare = self._kept.find(b"\n\n", self._at, line + 1 if line >= 0 else self._at + most)
            if bare >= 0 or line >= 0:
                return self.take((bare + 2 if bare >= 0 else line + 3) - self._at)
            if not has_so_many or size >= most:
                raise Broken("its headers do not end")
            size *= 4

    def usual_page(self, most: int) -> tuple[str, bytes, tuple[int, int]] | None:
        """The address and the content of a page that is stored as most are and is read already, with its record. It is taken; any other is not. Of
        an archive that is not packed the span of the content stands for it."""
        found = USUAL.match(self._kept, self._at)
        if found is None or None in (groups := found.groups()):
            return None
        begin, end = found.end(), found.start(4) + int(groups[2])
        if begin - self._at > LONGEST_HEAD or not begin <= end <= begin + 2 * most or not self._kept.startswith(b"\r\n\r\n", end):
            return None
        self._at = end
        if isinstance(self._source, Pieces):
            return groups[1].decode(), b"", (self._begin + self._before + begin, end - begin)
        return groups[1].decode(), self._kept[begin:end], (0, 0)

    def is_between(self) -> bool:
        """Whether what ends a record comes next: two line ends, or at least a record or a mark."""
        self._has(32)
        begin = self._kept[self._at:self._at + 32]
        return begin.startswith(b"\r\n\r\n") or b"WARC/".startswith(begin.lstrip(b"\r\n")[:5])

    def begins(self, word: bytes) -> bool:
        """Whether what comes next begins so."""
        self._has(len(word))
        return self._kept.startswith(word, self._at)

    def is_left(self) -> bool:
        """Leaves line ends, and says whether anything follows them."""
        while True:
            while self._has(1):
                begin = self._kept[self._at:self._at + 64]
                left = len(begin.lstrip(b"\r\n"))
                self._at += len(begin) - left
                if left:
                    return True
            if self._mark is not Mark.START:
                return self._mark is Mark.DAMAGE
            self._begin, self._before, self._mark = self._source.begin, 0, None

    def seek(self) -> None:
        """Goes on to where a record begins, past one that is broken."""
        self._leave()
        while (found := RECORD.search(self._kept)) is None:
            self._at = max(0, len(self._kept) - 8)
            if not self._has(len(self._kept) - self._at + 1):
                self._at = len(self._kept)
                self._leave()
                if self._mark is not Mark.DAMAGE:
                    return
                self._mark = None
        self._at = found.start()


def fields_of(head: bytes) -> dict[str, str]:
    """Those headers below a first line that are asked for, by their names in small letters."""
    if b"\n " in head or b"\n\t" in head:
        head = FOLDED.sub(b" ", head)
    return {name.lower(): value.strip() for name, value in FIELD.findall(head.decode("utf-8", "replace"))}


class Record:
    """A record: its headers, and what is left of its block."""

    def __init__(self, window: Window) -> None:
        if not window.begins(b"WARC/"):
            raise Broken("none begins here")
        self.fields, self._window = fields_of(window.head(LONGEST_HEAD)), window
        length = self.fields.get("content-length", "")
        if not (length.isascii() and length.isdecimal() and len(length) < 19):
            raise Broken("it has no length")
        self.left = int(length)

    def take(self, size: int) -> bytes:
        """So many bytes of its block, or what is left."""
        size = min(size, self.left)
        found = self._window.take(size)
        self.left -= len(found)
        if len(found) < size:
            raise Broken("it is cut off")
        return found

    def head(self) -> bytes:
        """The head of the HTTP message that its block is."""
        found = self._window.head(min(LONGEST_HEAD, self.left))
        self.left -= len(found)
        return found

    def end(self) -> None:
        """Leaves the rest of its block, after which another record has to come."""
        while self.left:
            self.take(PIECE)
        if not self._window.is_between():
            raise Broken("its length is wrong")


def page_in(record: Record, where: Where, left_out: Counter[str], most: int) -> Found | None:
    """The page that a record has, if it has one."""
    kind, fields = record.fields.get("warc-type", "").lower(), record.fields
    if kind not in ("response", "resource"):
        left_out["of another kind of record"] += 1
        return None
    if kind == "response":
        is_http = fields.get("content-type", "application/http").lower().startswith("application/http")
        fields = fields_of(record.head()) if is_http else {}
    if fields.get("content-type", "").partition(";")[0].strip().lower() != "text/html":
        left_out["of another type"] += 1
        return None
    if record.left > 2 * most:  # (chunks take more than what they hold)
        raise Unread("TooLarge", most)
    if kind == "resource":  # (no message of HTTP, so without codings)
        fields = {}
    return Found(*where, record.take(record.left), fields.get("transfer-encoding", ""), fields.get("content-encoding", ""))


def passed(record: Record, where: Where, left_out: Counter[str], most: int) -> Found | None:
    """The page that a record has, or why it is not read, when all of the record is passed."""
    try:
        page = page_in(record, where, left_out, most)
    except Unread as why:
        page = Found(*where, status=why.status, at=why.at)
    record.end()
    return page


def pages(archive: str, file: BinaryIO, begin: tuple[int, int], is_done: Callable[[int], bool], left_out: Counter[str], most: int) -> Iterator[Found]:
    """The pages of a WARC file and its broken records, each with the number of its record."""
    is_packed = file.read(2) == MAGIC[:2]
    file.seek(begin[0])
    window = Window(Members(file) if is_packed else Pieces(file))
    number = begin[1]
    while window.is_left():
        begin = window.begin(number, begin)
        number += 1
        if usual := window.usual_page(most):
            if not is_done(number):
                yield Found(archive, number, usual[0], begin, usual[1], span=usual[2])
            continue
        where = archive, number, archive, begin
        try:
            record = Record(window)
            where = archive, number, record.fields.get("warc-target-uri", archive).strip("<>"), begin
            if is_done(number):
                record.end()
                continue
            page = passed(record, where, left_out, most)
        except Broken as why:
            page = None if is_done(number) else Found(*where, status=why.status)
            window.seek()
        if page:
            yield page
