"""HTML as a browser reads it: a page with its nodes, links and parse errors, texts of an input, read with the Standard's lists and with keys of
the system unless others are given.

>>> page = parse(b"<title>A &amp; B</title><p>one <a href=/two>two</a>")
>>> page.title, page.links()
('A & B', [('/two', 'two')])
>>> [(node.kind, node.text()) for node in page.root.iter("p")]
[('element', 'one two')]
>>> next(page.iter("a")).attributes
{'href': '/two'}
"""
from __future__ import annotations

import sys
from collections.abc import Iterator
from typing import TYPE_CHECKING

from ._base import (CODES, ERRORS, NO_NODE, PLAIN, PLAIN_DOCUMENT, TOKENS, TREE, VERSION, WRITE, Bytes, Entry, Node, Page, ParseError, Refused, Row,
                    Settings, given, lent, whole)
from ._engine import ENGINE
from ._lines import Lines
from .etree import to_etree

if TYPE_CHECKING:
    from typing_extensions import Unpack

__version__ = VERSION
__all__ = ["CODES", "ERRORS", "NO_NODE", "PLAIN", "PLAIN_DOCUMENT", "TOKENS", "TREE", "WRITE", "Bytes", "Entry", "Lines", "Node", "Page",
           "ParseError", "Refused", "Row", "Settings", "errors", "is_compiled", "links", "parse", "standard", "table", "text", "to_etree", "tree",
           "version"]


def is_compiled() -> bool:
    """Whether the module in C is what is called; the answers are the same."""
    return ENGINE is sys.modules.get("jeanzircon._c")


def version() -> str:
    """The version of the library, as "0.1.0"."""
    number = ENGINE.version()
    return f"{number // 10000}.{number // 100 % 100}.{number % 100}"


def standard() -> tuple[bytes, bytes]:
    """The Standard's table of character references, in its flat form, and its quirks list."""
    return ENGINE.standard()


def table(entities: Bytes) -> bytes:
    """The flat form of a table that is given as JSON. As `entities` it is read in a sixtieth of the time."""
    return ENGINE.table(lent(entities))


def parse(page: Bytes, **settings: Unpack[Settings]) -> Page:
    """The tree and the parse errors of one parse. A fragment is parsed in a context, the name of the element that it is to stand in, and its
    root is that element:

    >>> page = parse(b"<td>one<td/>two", context=b"tr")
    >>> page.root.children, page.errors
    ([<element td>, <element td>], [ParseError(at=7, code='non-void-html-element-start-tag-with-trailing-solidus')])
    >>> page.html, [it.place for it in page]
    (b'<td>one</td><td>two</td>', [0, 4, 7, 12])
    """
    return ENGINE.parse(lent(page), given(**settings) if settings else None)


def links(page: Bytes, **settings: Unpack[Settings]) -> Iterator[tuple[str, str]]:
    """The links of a page, each with its text. The time is that of the nodes and of the texts that are given, however they are nested."""
    return iter(ENGINE.links(lent(page), given(**settings) if settings else None))


def tree(page: Bytes, **settings: Unpack[Settings]) -> list[Entry]:
    """The nodes inside the root with their words, in tree order:

    >>> [words for row, words in tree(b"a<br>", context=b"div")]
    [['a'], ['br']]
    """
    return parse(page, **settings).nodes


def text(task: int, page: Bytes, **settings: Unpack[Settings]) -> bytes:
    """The bytes of a task's text.

    PLAIN says whether a fragment comes back when what is written of it inside an element of the context's name is parsed in that context.
    WRITE gives that, but in style, script, iframe and noembed: there it escapes the text, which stands in a root without that name, and what
    comes back is the text as it is:

    >>> text(PLAIN, b"a<b", context=b"style"), text(WRITE, b"a<b", context=b"style"), tree(b"a<b", context=b"style")[0].words
    (b'plain\\n', b'a&lt;b', ['a<b'])

    PLAIN_DOCUMENT says whether a document comes back when what WRITE gives is parsed. It is asked without a context.
    """
    return ENGINE.text(whole(task, 32), lent(page), given(**settings) if settings else None)


def errors(page: Bytes, **settings: Unpack[Settings]) -> list[ParseError]:
    """The parse errors, in the order of their places. They are read from a text, since the tree may take far more memory than its page."""
    lines = map(str.split, text(ERRORS, page, **settings).decode().splitlines())
    return [ParseError(int(at), code) for at, code in lines]
