"""A page and its nodes over what ctypes gives: the rows and words as the library wrote them, of which a node is read when it is asked for."""
from __future__ import annotations

import itertools
import struct
from bisect import bisect_left
from collections import Counter
from collections.abc import Callable, Iterator
from typing import Any, TypeVar, overload

from . import _base
from ._base import CODES, NO_NODE, Given, Make, ParseError, Row

T = TypeVar("T")
DOCUMENT, DOCTYPE, ELEMENT, COMMENT, TEXT = range(5)
KINDS = "document", "doctype", "element", "comment", "text"
ERROR_ROW, ORIGIN_ROW = struct.Struct("=QI4x"), struct.Struct("=QII")


class Node(_base.Node):
    """A node: its page, its number, and the place of its row in tree order, -1 of the root."""
    __slots__ = "_page", "_number", "_place"

    def __init__(self, page: Page, number: int, place: int) -> None:
        self._page, self._number, self._place = page, number, place

    @property
    def page(self) -> Page:
        return self._page

    @property
    def number(self) -> int:
        return self._number

    @property
    def row(self) -> Row:
        return self._page._row(self._place)

    @property
    def kind(self) -> str:
        kind = self.row.kind
        return "fragment" if self._place < 0 and kind == ELEMENT else KINDS[kind]

    @property
    def words(self) -> list[str]:
        return [] if self._place < 0 else [it.decode() for it in self._page._parts[self._place].split(b"\xff")[:-1]]

    @property
    def name(self) -> str | None:
        return self.words[0] if self._place >= 0 and self.row.kind in (DOCTYPE, ELEMENT) else None

    @property
    def data(self) -> str | None:
        return self.words[0] if self.row.kind in (TEXT, COMMENT) else None

    @property
    def place(self) -> int | None:
        return self._page._origins().get(self._number)

    @property
    def attributes(self) -> dict[str, str]:
        words = self.words if self.row.kind == ELEMENT else []
        return dict(zip(words[1::2], words[2::2]))

    @property
    def parent(self) -> Node | None:
        return self._page._at(self.row.parent)

    @property
    def next(self) -> Node | None:
        return self._page._at(self.row.next)

    @property
    def children(self) -> list[_base.Node]:
        found: list[_base.Node] = []
        child = self._page._at(self.row.first_child)
        while child is not None:
            found.append(child)
            child = child.next
        return found

    @overload
    def get(self, name: str) -> str | None: ...
    @overload
    def get(self, name: str, default: T) -> str | T: ...
    def get(self, name: str, default: object = None) -> object:
        if not isinstance(name, str):
            raise TypeError("an attribute's name is a str")
        return self.attributes.get(name.encode().decode(), default)

    def text(self) -> str:
        page, end = self._page, self._page._past(self._place, {})
        places = range(max(self._place, 0), end)
        return b"".join(page._parts[it][:-1] for it in places if page._rows[5 * it + 1] == TEXT).decode()

    def iter(self, name: str | None = None) -> Iterator[Node]:
        return self._page._walk(self._place, name)

    def __iter__(self) -> Iterator[Node]:
        return self._page._walk(self._place, None)

    def __eq__(self, other: object) -> bool:
        if not isinstance(other, Node):
            return NotImplemented
        return self._page is other._page and self._number == other._number

    def __hash__(self) -> int:
        return hash((id(self._page), self._number))


class Page(_base.Page):
    """The rows, the words and the errors of a tree. Where a number has its row is found when a node around another is first asked for."""
    __slots__ = "_bytes", "_lent", "_rows", "_parts", "_errors", "_places", "_found"

    def __init__(self, page: bytes, given: Given | None, rows: bytes, words: bytes, errors: bytes) -> None:
        self._bytes, self._lent, self._errors = page, given, errors
        self._rows = memoryview(rows).cast("I")
        self._parts = words.split(b"\xfe")
        self._parts.pop()
        self._places: dict[int, int] | None = None
        self._found: dict[int, int | None] | None = None

    @property
    def _input(self) -> bytes:
        return self._bytes

    @property
    def _given(self) -> Given | None:
        return self._lent

    @property
    def _root(self) -> int:
        return 1 if self._lent and self._lent.context else 0

    @property
    def root(self) -> Node:
        return Node(self, self._root, -1)

    @property
    def errors(self) -> list[ParseError]:
        return [ParseError(at, CODES[code]) for at, code in ERROR_ROW.iter_unpack(self._errors)]

    @property
    def error_counts(self) -> dict[str, int]:
        counts = Counter(code for _, code in ERROR_ROW.iter_unpack(self._errors))
        return {CODES[code]: counts[code] for code in sorted(counts)}

    def _row(self, place: int) -> Row:
        if place < 0:
            return Row(self._root, ELEMENT if self._root else DOCUMENT, NO_NODE, self._rows[0] if self._parts else NO_NODE, NO_NODE)
        return Row._make(self._rows[5 * place:5 * place + 5])

    def _place(self, number: int) -> int:
        """Where the row of this number is; a KeyError where it is none."""
        if self._places is None:
            # (whole before another thread sees it)
            self._places = {**dict(zip(self._rows[::5].tolist(), range(len(self._parts)))), self._root: -1}
        return self._places[number]

    def _origins(self) -> dict[int, int | None]:
        """The byte from which each node comes, by its number. What is made again of an element has a higher number."""
        if self._found is None:
            from ._ctypes import page_of
            rows, _, _, _, origins = page_of(4, self._bytes, self._lent)
            found: dict[int, int | None] = {}
            for number, (at, in_source, again_of) in sorted(zip(memoryview(rows).cast("I")[::5].tolist(), ORIGIN_ROW.iter_unpack(origins))):
                found[number] = at if in_source else found.get(again_of)
            self._found = found
        return self._found

    def _at(self, number: int) -> Node | None:
        return None if number == NO_NODE else Node(self, number, self._place(number))

    def _past(self, place: int, known: dict[int, int]) -> int:
        """Where the first row past a node and all inside it is. What is found of the nodes that it is in is kept in `known`."""
        passed = []
        while place >= 0 and place not in known and self._rows[5 * place + 4] == NO_NODE:
            passed.append(place)
            place = self._place(self._rows[5 * place + 2])
        if place < 0:
            end = len(self._parts)
        else:
            end = known[place] if place in known else self._place(self._rows[5 * place + 4])
        known.update(dict.fromkeys(passed, end))
        return end

    def _walk(self, top: int, name: str | None) -> Iterator[Node]:
        """The nodes inside a node, in tree order; of these the elements of a name, where one is given."""
        if name is not None and not isinstance(name, str):
            raise TypeError("the name of elements is a str")
        begin = None if name is None else name.encode() + b"\xff"
        rows, places = self._rows, range(top + 1, self._past(top, {}))
        if begin is None:
            return (Node(self, rows[5 * it], it) for it in places)
        return (Node(self, rows[5 * it], it) for it in places if rows[5 * it + 1] == ELEMENT and self._parts[it].startswith(begin))

    def node(self, number: int) -> Node:
        if not isinstance(number, int) or number == NO_NODE:
            raise KeyError(number)
        return Node(self, number, self._place(number))

    def iter(self, name: str | None = None) -> Iterator[Node]:
        return self._walk(-1, name)

    def __iter__(self) -> Iterator[Node]:
        return self._walk(-1, None)

    def __eq__(self, other: object) -> bool:
        if not isinstance(other, Page):
            return NotImplemented
        ours, others = ((it._root, it._rows.tobytes(), it._parts, it._errors) for it in (self, other))
        return ours == others

    __hash__ = None  # type: ignore[assignment]

    def links(self) -> list[tuple[str, str]]:
        # The texts one after another: those inside a node are between two places.
        kinds = self._rows[1::5].tolist()
        places = [it for it, kind in enumerate(kinds) if kind == TEXT]
        texts = [self._parts[it][:-1] for it in places]
        lengths, whole = [0, *itertools.accumulate(map(len, texts))], b"".join(texts)
        known: dict[int, int] = {}
        found = []
        for place, part in enumerate(self._parts):
            if part.startswith(b"a\xff") and kinds[place] == ELEMENT:
                words = part.split(b"\xff")
                attributes = dict(zip(words[1:-1:2], words[2:-1:2]))
                if b"href" in attributes:
                    first, last = bisect_left(places, place), bisect_left(places, self._past(place, known))
                    found.append((attributes[b"href"].decode(), whole[lengths[first]:lengths[last]].decode()))
        return found

    def _etree(self, element: Make, sub: Make, comment: Make, fix: Callable[[str, str], str] | None) -> Any:
        fixed: Callable[[str, str], str] = fix or (lambda what, it: it)
        top: Any = element("DOCUMENT_FRAGMENT", {}) if self._root else None
        made, last, rows = {self._root: top} if self._root else {}, dict[int, Any](), self._rows.tolist()
        for number, kind, parent, part in zip(rows[::5], rows[1::5], rows[2::5], self._parts):
            words = [it.decode() for it in part.split(b"\xff")]
            if kind == ELEMENT and (parent in made or top is None):
                attributes = {fixed("name", name): fixed("text", value) for name, value in zip(words[1:-1:2], words[2:-1:2])}
                given = fixed("name", words[0]), attributes
                made[number] = sub(made[parent], *given) if parent in made else element(*given)
                top, last[parent] = made[number] if top is None else top, made[number]
            elif kind == COMMENT and parent in made:
                last[parent] = comment(fixed("comment", words[0]))
                made[parent].append(last[parent])
            elif kind == TEXT and parent in made:
                setattr(last.get(parent, made[parent]), "tail" if parent in last else "text", fixed("text", words[0]))
        return top
