"""A tree builder for Beautiful Soup. Once this is imported, BeautifulSoup(page, "jeanzircon") gives the tree that a browser makes, as with
"html5lib"; a page that is refused raises Refused."""
from __future__ import annotations

from typing import TYPE_CHECKING, Any

from . import parse
from ._base import Node

if TYPE_CHECKING:  # bs4 need not be there for a check of types
    class HTMLTreeBuilder:
        soup: Any

    Comment: Any
    Doctype: Any
    NavigableString: Any
    UnicodeDammit: Any
    builder_registry: Any
else:
    from bs4.builder import HTMLTreeBuilder, builder_registry
    from bs4.dammit import UnicodeDammit
    from bs4.element import Comment, Doctype, NavigableString


class TreeBuilder(HTMLTreeBuilder):
    NAME = "jeanzircon"
    features = [NAME]
    TRACKS_LINE_NUMBERS = False

    def prepare_markup(self, markup: str | bytes, user_specified_encoding: str | None = None, document_declared_encoding: str | None = None,
                       exclude_encodings: Any = None) -> Any:
        """The markup as UTF-8, with the encoding that it had."""
        if isinstance(markup, bytes):
            told = [it for it in (user_specified_encoding, document_declared_encoding) if it]
            dammit = UnicodeDammit(markup, told, is_html=True, exclude_encodings=exclude_encodings)
            found, had = dammit.unicode_markup, (dammit.original_encoding, dammit.declared_html_encoding, dammit.contains_replacement_characters)
        else:
            found, had = markup, (None, None, False)
        yield (found or "").encode("utf-8", "replace"), *had

    def feed(self, markup: bytes) -> None:
        """Hands over each node, in tree order: an element is ended where the next node is in another."""
        inside: list[Node] = []
        for node in parse(markup):
            while inside and node.parent != inside[-1]:
                self.soup.handle_endtag(inside.pop().name, None)
            if node.kind == "element":
                self.soup.handle_starttag(node.name, None, None, node.attributes)
                inside.append(node)
            else:
                self.soup.endData()
                self.soup.object_was_parsed(self.string_of(node))
        while inside:
            self.soup.handle_endtag(inside.pop().name, None)

    def string_of(self, node: Node) -> Any:
        if node.kind == "doctype":
            return Doctype.for_name_and_ids(node.name, *(it or None for it in node.words[1:]))
        return (Comment if node.kind == "comment" else self.soup.string_container(NavigableString))(node.data)

    def test_fragment_to_document(self, fragment: str) -> str:
        return f"<html><head></head><body>{fragment}</body></html>"


builder_registry.register(TreeBuilder)
