"""What both ways to the library have in common: the numbers, refusals and errors, what is given with an input, a page and its nodes. A page
and a node are made by _c in C, or by _lazy over ctypes; what they can do is said here."""
from __future__ import annotations

import operator
import re
from collections.abc import Callable, Iterator
from typing import Any, NamedTuple, Protocol, TypedDict, TypeVar, Union, overload

VERSION = "0.1.0"
NUMBER = 100  # (as JZ_VERSION_NUMBER of jeanzircon.h)
T = TypeVar("T")
Bytes = Union[bytes, bytearray, memoryview]
Make = Callable[..., Any]
TOKENS, TREE, ERRORS, WRITE, PLAIN, PLAIN_DOCUMENT = range(6)
NO_NODE = 0xFFFFFFFF
NAMES = """Ok NotUtf8 OutOfProfile TooLarge TooManyNodes TooDeep Memory Read BadContext BadTable BadQuirks BadLimits Write TooShort NotText BadNumber
    Null BadSize""".split()
DETAILS = {2: ["", *"math svg template select option optgroup frame frameset keygen".split()], 9: ["", *"Json Shape Key Codepoints Characters".split()]}
# The codes of parse errors, each at its number, as jeanzircon.h has them.
CODES = """
    control-character-in-input-stream noncharacter-in-input-stream replaced-bytes abrupt-closing-of-empty-comment abrupt-doctype-public-identifier
    abrupt-doctype-system-identifier absence-of-digits-in-numeric-character-reference cdata-in-html-content character-reference-outside-unicode-range
    control-character-reference duplicate-attribute end-tag-with-attributes end-tag-with-trailing-solidus eof-before-tag-name eof-in-comment
    eof-in-doctype eof-in-script-html-comment-like-text eof-in-tag incorrectly-closed-comment incorrectly-opened-comment
    invalid-character-sequence-after-doctype-name invalid-first-character-of-tag-name missing-attribute-value missing-doctype-name
    missing-doctype-public-identifier missing-doctype-system-identifier missing-end-tag-name missing-quote-before-doctype-public-identifier
    missing-quote-before-doctype-system-identifier missing-semicolon-after-character-reference missing-whitespace-after-doctype-public-keyword
    missing-whitespace-after-doctype-system-keyword missing-whitespace-before-doctype-name missing-whitespace-between-attributes
    missing-whitespace-between-doctype-public-and-system-identifiers nested-comment noncharacter-character-reference null-character-reference
    surrogate-character-reference unexpected-character-after-doctype-system-identifier unexpected-character-in-attribute-name
    unexpected-character-in-unquoted-attribute-value unexpected-equals-sign-before-attribute-name unexpected-null-character
    unexpected-question-mark-instead-of-tag-name unexpected-solidus-in-tag unknown-named-character-reference
    non-void-html-element-start-tag-with-trailing-solidus tree-after-after-body tree-after-body tree-after-head tree-before-head tree-before-html
    tree-in-body tree-in-caption tree-in-cell tree-in-column-group tree-in-head tree-in-head-noscript tree-in-row tree-in-table tree-in-table-body
    tree-in-table-text tree-initial tree-text
""".split()


class Row(NamedTuple):
    """A node: its number, its kind (1 a doctype, 2 an element, 3 a comment, 4 a text), and the nodes around it or NO_NODE."""
    number: int
    kind: int
    parent: int
    first_child: int
    next: int


class Entry(NamedTuple):
    """A node with its words: the name of an element and the name and the value of each of its attributes, the name and both identifiers of a
    doctype, the data of a comment, the characters of a text."""
    row: Row
    words: list[str]


class ParseError(NamedTuple):
    """A parse error, which refuses nothing: its byte in the input, and its code as the HTML Standard spells it."""
    at: int
    code: str


class Refused(ValueError):
    """Why there is nothing: its status, the number of the element or the cause that it names, and its byte (of a quirks list the line)."""

    def __init__(self, status: int, detail: int, at: int) -> None:
        super().__init__(status, detail, at)
        self.status, self.detail, self.at = status, detail, at

    def __str__(self) -> str:
        words = [NAMES[self.status], *DETAILS.get(self.status, [""])[self.detail:self.detail + 1]]
        places = {10: ["line", str(self.at)], **dict.fromkeys(range(1, 6), ["at", str(self.at)])}
        return " ".join(filter(None, words + places.get(self.status, [])))


class Settings(TypedDict, total=False):
    """What may be given with an input. `context` is the name of the element in which a fragment is. Without `entities` and `quirks` these are the
    Standard's; empty ones are the core table and no list. `bad_bytes=1` reads what is not UTF-8 as U+FFFD."""
    context: Bytes
    entities: Bytes | None
    quirks: Bytes | None
    nodes: int
    open: int
    piece: int
    keys: int | None
    escaping: int
    bad_bytes: int


class Given(NamedTuple):
    """Settings as both ways take them. None stands for what is the Standard's, or drawn once a program."""
    context: bytes
    entities: bytes | None
    quirks: bytes | None
    nodes: int
    open: int
    piece: int
    keys: tuple[int, int] | None
    escaping: int
    bad_bytes: int


def lent(value: Bytes) -> bytes:
    """The bytes of a value. A str has none: which they are depends on its encoding, and the place of an error on that."""
    if isinstance(value, str):
        raise TypeError("bytes are read, and this is a str: hand in text.encode()")
    return value if isinstance(value, bytes) else bytes(memoryview(value))


def whole(value: int, bits: int = 64) -> int:
    """A number of so many bits. What takes it would cut it to them."""
    number = operator.index(value)
    if not 0 <= number < 1 << bits:
        raise ValueError(f"{number} has no place in {bits} bits")
    return number


def given(context: Bytes = b"", entities: Bytes | None = None, quirks: Bytes | None = None, nodes: int = 16777216, open: int = 1048576,
          piece: int = 65536, keys: int | None = None, escaping: int = 1, bad_bytes: int = 0) -> Given:
    """What is given with an input."""
    lists = [None if it is None else lent(it) for it in (entities, quirks)]
    both = None if keys is None else divmod(whole(keys, 128), 1 << 64)
    return Given(lent(context), lists[0], lists[1], whole(nodes), whole(open), whole(piece), both, whole(escaping, 32), whole(bad_bytes, 32))


class Node:
    """A node of a page. It holds the page, and is made when it is asked for: a node equals itself alone, however often it is made. Iteration
    gives the nodes inside it, in tree order, and `in` asks whether a node is one of them."""
    __slots__ = ()

    @property
    def page(self) -> Page:
        """The page that it is of."""
        raise NotImplementedError

    @property
    def number(self) -> int:
        """Its number in the page; in no order."""
        raise NotImplementedError

    @property
    def kind(self) -> str:
        """document, doctype, element, comment, text, or fragment, which is the root of one."""
        raise NotImplementedError

    @property
    def name(self) -> str | None:
        """That of an element or a doctype."""
        raise NotImplementedError

    @property
    def data(self) -> str | None:
        """The characters of a text or a comment."""
        raise NotImplementedError

    @property
    def place(self) -> int | None:
        """The byte of the page from which it comes: where its start tag, its comment, its doctype or its first character begins; of an element that
        was made again, as where formatting elements are misnested, the start tag of the first of these. None of what the parser added, as a html,
        head, body or tbody that the page leaves out, and of the root. All of a page are found by a parse of its own, when one is first asked for."""
        raise NotImplementedError

    @property
    def attributes(self) -> dict[str, str]:
        """Those of an element, in their order, made anew at each call; get asks for one."""
        raise NotImplementedError

    @property
    def parent(self) -> Node | None:
        """The node that it is in."""
        raise NotImplementedError

    @property
    def next(self) -> Node | None:
        """The node after it in the same parent."""
        raise NotImplementedError

    @property
    def children(self) -> list[Node]:
        """The nodes that it is the parent of."""
        raise NotImplementedError

    @property
    def words(self) -> list[str]:
        """Its words, as an Entry has them."""
        raise NotImplementedError

    @property
    def row(self) -> Row:
        """Its number and kind with the numbers of the nodes around it."""
        raise NotImplementedError

    @overload
    def get(self, name: str) -> str | None: ...
    @overload
    def get(self, name: str, default: T) -> str | T: ...
    def get(self, name: str, default: object = None) -> object:
        """The value of an attribute."""
        raise NotImplementedError

    def text(self) -> str:
        """All text at or inside the node, in tree order."""
        raise NotImplementedError

    def iter(self, name: str | None = None) -> Iterator[Node]:
        """The nodes inside it, in tree order; of these the elements of this name, where one is given."""
        raise NotImplementedError

    def __iter__(self) -> Iterator[Node]:
        raise NotImplementedError

    def __contains__(self, other: object) -> bool:
        it = other.parent if isinstance(other, Node) else None
        while it is not None and it != self:
            it = it.parent
        return it is not None

    def __repr__(self) -> str:
        if self.data is not None:
            return f"<{self.kind} {self.data if len(self.data) < 40 else self.data[:39] + '…'!r}>"
        return f"<{' '.join([self.kind, *filter(None, [self.name]), *(f'{name}={value!r}' for name, value in self.attributes.items())])}>"

    def __reduce__(self) -> tuple[Callable[[int], Node], tuple[int]]:
        return self.page.node, (self.number,)


class Page:
    """What one parse gives: a tree and its parse errors. Two parses of one page are equal. Iteration gives the nodes inside the root, in tree
    order, and `in` asks whether a node is one of them. What is pickled is the input with its settings, which is parsed again."""
    __slots__ = ()

    @property
    def root(self) -> Node:
        """The document, or of a fragment what its nodes stand in."""
        raise NotImplementedError

    @property
    def errors(self) -> list[ParseError]:
        """The parse errors, in the order of their places."""
        raise NotImplementedError

    @property
    def error_counts(self) -> dict[str, int]:
        """How many parse errors there are of each code that occurs."""
        raise NotImplementedError

    @property
    def _input(self) -> bytes:
        """What was parsed."""
        raise NotImplementedError

    @property
    def _given(self) -> Given | None:
        """What was given with it."""
        raise NotImplementedError

    def node(self, number: int) -> Node:
        """The node of this number; a KeyError where there is none."""
        raise NotImplementedError

    def links(self) -> list[tuple[str, str]]:
        """The href of each a that has one, with its text."""
        raise NotImplementedError

    def iter(self, name: str | None = None) -> Iterator[Node]:
        """The nodes inside the root, in tree order; of these the elements of this name, where one is given."""
        raise NotImplementedError

    def __iter__(self) -> Iterator[Node]:
        raise NotImplementedError

    def _etree(self, element: Make, sub: Make, comment: Make, fix: Callable[[str, str], str] | None) -> Any:
        """What jeanzircon.etree gives, made by these functions."""
        raise NotImplementedError

    @property
    def title(self) -> str:
        """The text of the first title, as a browser shows it: white space at its ends is left out, and is one space within."""
        first = next(self.iter("title"), None)
        words = "" if first is None else "".join(it.data or "" for it in first.children if it.kind == "text")
        return re.sub("[\t\n\f\r ]+", " ", words).strip(" ")

    @property
    def nodes(self) -> list[Entry]:
        """The nodes inside the root with their words, in tree order."""
        return [Entry(it.row, it.words) for it in self]

    @property
    def html(self) -> bytes:
        """The page written as HTML, by a parse of its own."""
        return engine().text(WRITE, self._input, self._given)

    def __contains__(self, other: object) -> bool:
        return isinstance(other, Node) and other.page is self and other != self.root

    def __repr__(self) -> str:
        return f"<Page {self.title!r}, {sum(1 for _ in self)} nodes, {len(self.errors)} parse errors>"

    def __reduce__(self) -> tuple[Callable[[bytes, Given | None], Page], tuple[bytes, Given | None]]:
        return parsed, (self._input, self._given)


class Engine(Protocol):
    """A way to the library."""

    def parse(self, page: bytes, given: Given | None) -> Page: ...
    def links(self, page: bytes, given: Given | None) -> list[tuple[str, str]]: ...
    def text(self, task: int, page: bytes, given: Given | None) -> bytes: ...
    def table(self, entities: bytes) -> bytes: ...
    def standard(self) -> tuple[bytes, bytes]: ...
    def version(self) -> int: ...


def engine() -> Engine:
    """The way that is taken: the module in C where there is one, but where JEANZIRCON_LIBRARY names a shared object this one by ctypes."""
    from ._engine import ENGINE
    return ENGINE


def parsed(page: bytes, given: Given | None) -> Page:
    """A page that is made again of what was pickled."""
    return engine().parse(page, given)
