"""python3 -m jeanzircon COMMAND [--in NAME] [FILE]: prints what htmlp prints for the command, with the Standard's lists, or the links."""
import argparse
import sys

from . import ERRORS, PLAIN, TOKENS, TREE, WRITE, Refused, __version__, links, text

TASKS = {"tokens": TOKENS, "tree": TREE, "errors": ERRORS, "write": WRITE, "plain": PLAIN}


def main() -> None:
    words = argparse.ArgumentParser(prog="python3 -m jeanzircon", description="Reads HTML as a browser does.")
    words.add_argument("command", choices=[*TASKS, "links"])
    words.add_argument("file", nargs="?", type=argparse.FileType("rb"), default=sys.stdin.buffer, help="standard input where none is named")
    words.add_argument("--in", dest="context", default="", metavar="NAME", help="it is a fragment in an element of this name")
    words.add_argument("--version", action="version", version=f"jeanzircon {__version__}")
    told = words.parse_args()
    page, context = told.file.read(), told.context.encode()
    try:
        if told.command == "links":
            said = "".join(f"{link} {it}\n" for link, it in links(page, context=context)).encode()
        else:
            said = text(TASKS[told.command], page, context=context)
    except Refused as refused:
        print(f"refused: {refused}", file=sys.stderr)
        sys.exit(2)
    sys.stdout.buffer.write(said)


if __name__ == "__main__":
    main()
