"""A page as a tree of xml.etree or of lxml, by the conventions of html5lib where elements have no namespace."""
from __future__ import annotations

import functools
import re
import xml.etree.ElementTree
from typing import Any

from ._base import Page

# What XML takes in no text, and neither does lxml.
NO_TEXT = "[^\t\n\r -\ud7ff\ue000-\ufffd\U00010000-\U0010ffff]"
# What begins a name of XML, but U+FFFD, and what else is in one.
START = ("A-Z_a-z\xc0-\xd6\xd8-\xf6\xf8-\u02ff\u0370-\u037d\u037f-\u1fff\u200c\u200d\u2070-\u218f\u2c00-\u2fef\u3001-\ud7ff\uf900-\ufdcf\ufdf0-\ufffc"
         "\U00010000-\U000effff")
NO_START, NO_NAME = f"[^{START}]", f"[^-.0-9\xb7\u0300-\u036f\u203f\u2040{START}]"


def to_etree(page: Page, etree: Any = xml.etree.ElementTree) -> Any:
    """The html element of a page, or an element DOCUMENT_FRAGMENT with what is in a fragment: of xml.etree, or of lxml where lxml.etree is handed
    in. That refuses names and texts which XML has not: of a name such a character becomes U and its number (`xmlU0003Alang`), of a text U+FFFD
    (a form feed a space).

    >>> from jeanzircon import parse
    >>> to_etree(parse(b"<p class=a>b<br>c")).find("body/p").attrib
    {'class': 'a'}
    """
    return page._etree(etree.Element, etree.SubElement, etree.Comment, None if etree is xml.etree.ElementTree else allowed)


@functools.lru_cache(4096)
def allowed_name(name: str) -> str:
    def number(found: re.Match[str]) -> str:
        return f"U{ord(found[0]):05X}"
    return re.sub(NO_START, number, name[:1]) + re.sub(NO_NAME, number, name[1:])


def allowed(what: str, it: str) -> str:
    """A name, a text or a comment as XML takes it; what it takes already stays."""
    if what == "name":
        return allowed_name(it)
    it = re.sub(NO_TEXT, "\ufffd", it.replace("\f", " "))
    if what == "comment":
        while "--" in it:
            it = it.replace("--", "- -")
        it += " " * it.endswith("-")
    return it
