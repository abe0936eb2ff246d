"""Lines and columns of the bytes of a page."""
from __future__ import annotations

import bisect
import itertools
import re

from ._base import Bytes


class Lines:
    """The lines of a page, found once: of each byte its line and its column, both from 1. A line ends at LF, CR LF or CR; columns count characters.

    >>> lines = Lines(b"<p>\\xc3\\xa9\\r\\n\\r<br/>")
    >>> [lines.line_column(at) for at in (0, 5, 7, 8, 99)]
    [(1, 1), (1, 5), (2, 1), (3, 1), (3, 6)]
    """

    # The bytes that begin no character, and how many bytes have one count of those that do.
    REST, STEP = bytes(range(0x80, 0xC0)), 4096

    def __init__(self, page: Bytes) -> None:
        self._page = bytes(page)
        self._starts = [0, *(it.end() for it in re.finditer(rb"\r\n?|\n", self._page))]
        parts = (self._page[at:at + self.STEP] for at in range(0, len(self._page), self.STEP))
        self._begun = [0, *itertools.accumulate(len(it.translate(None, self.REST)) for it in parts)]

    def _characters(self, at: int) -> int:
        """How many characters begin before a byte."""
        mark = at // self.STEP
        return self._begun[mark] + len(self._page[mark * self.STEP:at].translate(None, self.REST))

    def line_column(self, at: int) -> tuple[int, int]:
        """The line and the column of the byte at this offset; one past the end is taken for the end."""
        at = min(at, len(self._page))
        line = bisect.bisect_right(self._starts, at)
        return line, 1 + self._characters(at) - self._characters(self._starts[line - 1])
