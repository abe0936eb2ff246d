"""Prints the links of a page, each with its text, and with --in NAME whether a fragment is plain."""
import sys

from jeanzircon import PLAIN, Refused, links, text

if len(sys.argv) != 2 and not (len(sys.argv) == 4 and sys.argv[1] == "--in"):
    sys.exit("name a page, or --in NAME and a fragment")
try:
    with open(sys.argv[-1], "rb") as file:
        page = file.read()
    if sys.argv[1] == "--in":
        sys.stdout.buffer.write(text(PLAIN, page, context=sys.argv[2].encode()))
    else:
        for link, words in links(page):
            print(link, words)
except Refused as refused:
    sys.exit(f"refused: {refused}")
