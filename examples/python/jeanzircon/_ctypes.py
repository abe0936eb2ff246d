"""The library by ctypes, over the shared object: for where the module in C is not built, with the same answers."""
from __future__ import annotations

import ctypes
import functools
import mmap
import os
import re
import struct
from collections.abc import Callable
from typing import Any

from . import _base, _lazy
from ._base import Given, Refused

SONAME = "libjeanzircon.so.0"
MEMORY, TOO_SHORT = 6, 13


BYTES: Any = ctypes.c_char_p
NUMBER: Any = ctypes.c_uint32
SIZE: Any = ctypes.c_size_t
LONG: Any = ctypes.c_uint64


class Options(ctypes.Structure):
    _fields_ = [("size", SIZE), *(it for name in ("context", "entities", "quirks") for it in ((name, BYTES), (name + "_length", SIZE))),
                *((name, LONG) for name in ("nodes", "open", "piece", "key_low", "key_high")), ("escaping", NUMBER), ("bad_bytes", NUMBER)]


class Answer(ctypes.Structure):
    status: int
    detail: int
    at: int
    length: int
    _fields_ = [("status", NUMBER), ("detail", NUMBER), *((name, LONG) for name in ("at", "length", "nodes"))]


class PageAnswer(ctypes.Structure):
    status: int
    detail: int
    at: int
    nodes: int
    words: int
    errors: int
    text: int
    _fields_ = [("status", NUMBER), ("detail", NUMBER), *((name, LONG) for name in ("at", "nodes", "words", "errors", "text"))]


# A jz_row, a jz_error and a jz_origin.
ROW, ERROR_ROW, ORIGIN_ROW = struct.Struct("=5I"), _lazy.ERROR_ROW, _lazy.ORIGIN_ROW


def opened() -> ctypes.CDLL:
    """The shared object that JEANZIRCON_LIBRARY names; without it that of the checkout or the prefix which this file lies in, if it is there, and
    else the one that the system finds by its name."""
    here, told = os.path.dirname(os.path.realpath(__file__)), os.environ.get("JEANZIRCON_LIBRARY")
    near = {"/examples/python/jeanzircon": "../../../out/libjeanzircon.so", "/share/jeanzircon/python/jeanzircon": f"../../../../lib/{SONAME}"}
    beside = [os.path.normpath(f"{here}/{place}") for folder, place in near.items() if here.endswith(folder)]
    places = [told] if told else [*beside, SONAME]
    try:
        return declared(ctypes.CDLL(next((it for it in places[:-1] if os.path.exists(it)), places[-1])))
    except (OSError, AttributeError) as error:
        raise ImportError(f"{error}; looked for {', then '.join(places)}; JEANZIRCON_LIBRARY may name another") from error


def declared(library: ctypes.CDLL) -> ctypes.CDLL:
    """The library with the types of its functions, as jeanzircon.h has them."""
    output, answer = ctypes.POINTER(ctypes.c_char), ctypes.POINTER(Answer)
    lent: list[Any] = [BYTES, SIZE, ctypes.POINTER(Options)]
    rooms: list[Any] = [output, SIZE] * 5
    library.jz_version.argtypes = []
    library.jz_text.argtypes = [NUMBER, *lent, output, SIZE, answer]
    library.jz_page.argtypes = [NUMBER, *lent, *rooms, ctypes.POINTER(PageAnswer)]
    library.jz_table.argtypes = [BYTES, SIZE, output, SIZE, answer]
    library.jz_version.restype = library.jz_text.restype = library.jz_page.restype = library.jz_table.restype = NUMBER
    return library


LIBRARY = opened()
# Drawn once a program: a page can be made against keys that are known.
KEYS = divmod(int.from_bytes(os.urandom(16), "little"), 1 << 64)
NONE_GIVEN = _base.given()


def answered(answer: Answer | PageAnswer) -> bool:
    """Whether all was written; there was too little room where not. Else it is refused."""
    if answer.status not in (0, TOO_SHORT):
        raise Refused(answer.status, answer.detail, answer.at)
    return answer.status == 0


# Of no length, since ctypes keeps a type for each length that it is asked for.
LENT = ctypes.c_char * 0


def folders() -> list[str]:
    """Where the Standard's lists may lie: in the checkout or the prefix of the library, or in that of this file."""
    library, here = LIBRARY._name, os.path.dirname(os.path.realpath(__file__))
    if "/" not in library:
        with open("/proc/self/maps") as maps:
            library = next((line[line.index("/"):].rstrip() for line in maps if "/libjeanzircon.so" in line), "")
    library = os.path.dirname(os.path.realpath(library))
    return [os.path.normpath(it) for it in (f"{library}/../data", f"{library}/../share/jeanzircon", f"{here}/../../../data", f"{here}/../..")]


@functools.lru_cache(None)
def standard() -> tuple[bytes, bytes]:
    """The Standard's table of character references, in its flat form, and its quirks list. They are read once, when first wanted."""
    folder = next((it for it in folders() if os.path.exists(f"{it}/entities.json")), None)
    if folder is None:
        raise FileNotFoundError(f"no entities.json in {', '.join(folders())}")
    with open(f"{folder}/entities.json", "rb") as entities, open(f"{folder}/quirks.txt", "rb") as quirks:
        return table(entities.read()), quirks.read()


@functools.lru_cache(None)
def parts() -> dict[bytes, bytes]:
    """The entries of the Standard's table, in its flat form, by the first two letters of their names."""
    found: dict[bytes, bytes] = {}
    for it in re.finditer(rb"&(..)[^\x01\x02]*(?:\x01.{4}|\x02.{8})", standard()[0], re.S):
        found[it[1]] = found.get(it[1], b"") + it[0]
    return found


def entities_for(page: bytes) -> bytes:
    """What a page needs of the Standard's table: none where no `&` begins other than five names with a `;`, else what begins as its names do."""
    if not re.search(rb"&(?!(?:amp|lt|gt|quot|nbsp);)[0-9A-Za-z]", page):
        return b""
    return b"\1" + b"".join(parts()[it] for it in sorted(parts().keys() & {it[1] for it in re.finditer(b"&(?=([A-Za-z].))", page, re.S)}))


HEAD = re.compile(rb"(?:[\t\n\f\r ]|<\?[^>]*>)*(?:<!doctype([^>]*)|<?[0-9a-z]|<\?[^>]*\Z|\Z)", re.I)


@functools.lru_cache(None)
def listed(quirks: bytes) -> re.Pattern[bytes]:
    """An identifier of a quirks list after a quote."""
    return re.compile(rb"[\"'](?:%b)" % b"|".join(re.escape(line.partition(b" ")[2]) for line in quirks.splitlines()), re.I)


def quirks_matter(page: bytes, quirks: bytes) -> bool:
    """Whether the quirks list may matter to a page: not where it begins with a doctype without an identifier of the list, with a tag or a text."""
    head = HEAD.match(page)
    return head is None or (head[1] is not None and listed(quirks).search(head[1]) is not None)


def options(given: Given | None = None, page: bytes = b"&x") -> Options:
    """What is given with an input, as the library reads it. Of the Standard's lists those are not read that the input does not need."""
    it = given or NONE_GIVEN
    entities = entities_for(page) if it.entities is None else it.entities
    quirks = (standard()[1] if quirks_matter(page, standard()[1]) else b"") if it.quirks is None else it.quirks
    texts = [it for text in (it.context, entities, quirks) for it in (text, len(text))]
    high, low = it.keys or KEYS
    return Options(ctypes.sizeof(Options), *texts, it.nodes, it.open, it.piece, low, high, it.escaping, it.bad_bytes)


def version() -> int:
    number: int = LIBRARY.jz_version()
    return number


def block(size: int) -> bytearray | mmap.mmap:
    """So many bytes; where they are many, of memory that is touched where it is written alone."""
    try:
        return bytearray(size) if size < 1 << 20 else mmap.mmap(-1, size)
    except (MemoryError, OSError):
        raise Refused(MEMORY, 0, 0) from None


def written(call: Callable[[ctypes.Array[ctypes.c_char], int, Answer], int], size: int) -> bytes:
    """The bytes that a call writes, which is made again where they want more room."""
    answer = Answer()
    while True:
        output = block(size)
        call(LENT.from_buffer(output), size, answer)
        if answered(answer):
            return bytes(memoryview(output)[:answer.length])
        size = answer.length


def table(entities: bytes) -> bytes:
    return written(functools.partial(LIBRARY.jz_table, entities, len(entities)), len(entities) + 256)


def text(task: int, page: bytes, given: Given | None) -> bytes:
    call = functools.partial(LIBRARY.jz_text, task, page, len(page), options(given, page))
    return written(call, len(page) * (6 if task in (_base.TOKENS, _base.TREE) else 2) + 1024)


def page_of(wants: int, page: bytes, given: Given | None) -> list[bytes]:
    """What one parse gives, as the library writes it: rows and words, and errors (1), HTML (2) and origins (4) where they are wanted."""
    answer, lent, few, room = PageAnswer(), options(given, page), len(page) // 16 + 64, len(page) * 2 + 1024
    rooms, sizes = [few, room, few * (wants & 1), room * (wants >> 1 & 1), few * (wants >> 2)], (ROW.size, 1, ERROR_ROW.size, 1, ORIGIN_ROW.size)
    while True:
        buffers = [block(count * size + 1) for count, size in zip(rooms, sizes)]
        LIBRARY.jz_page(wants, page, len(page), lent, *(it for pair in zip(map(LENT.from_buffer, buffers), rooms) for it in pair), answer)
        rooms = [answer.nodes, answer.words, answer.errors, answer.text, answer.nodes * (wants >> 2)]
        if answered(answer):
            return [bytes(memoryview(it)[:count * size]) for it, count, size in zip(buffers, rooms, sizes)]


def parse(page: bytes, given: Given | None) -> _lazy.Page:
    rows, words, errors, *_ = page_of(1, page, given)
    return _lazy.Page(page, given, rows, words, errors)


def links(page: bytes, given: Given | None) -> list[tuple[str, str]]:
    rows, words, errors, *_ = page_of(0, page, given)
    return _lazy.Page(page, given, rows, words, errors).links()
