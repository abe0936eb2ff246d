"""The stored cases of data/cases, as runs of htmlp.

A line of a file X.jsonl is what comes of an input: the words of a command line, the input (`text`, or `input` in hex where it is no text), and
`stdout`, `stderr` and `status`, which are empty or 0 where they are missing. `entities` and `quirks` are lists of its own.

A file X.dat has records in the form of html5lib's tests of trees: a line with the name of a section, and then the section's lines. An
empty line is between two records. A page has `#data`, `#errors`, `#document-fragment` with the name of its context if it is a fragment,
and `#document`, its tree. A list of trees has `#written`, its HTML, `#document-fragment`, `#document`, and if it does not come back
`#limit`, which limit of plain content it breaks, and `#back`, the tree that comes back or the refusal. In it \\r and \\0 are CR and NUL."""
import collections
import glob
import json
import os
import re
import zlib

import kit

DATA = f"{kit.ROOT}/data/cases"
# Contexts whose text is as it is: what the program writes of a fragment has references, and comes back as another text.
RAW = ("iframe", "noembed", "script", "style")
SECTION = re.compile(r"^(#(?:data|errors|document-fragment|document|written|limit|back))\n", re.M)
# What an option of a command line tells the library for C. (An empty list is none there, and the program reads it.)
OPTIONS = {"--in": ("context", str.encode), "--entities": ("entities", lambda it: kit.read(it) or b" "), "--quirks": ("quirks", kit.read),
           "--bad-bytes": ("bad_bytes", ["refuse", "replace"].index), "--escape": ("escaping", int), "--nodes": ("nodes", int), "--open": ("open", int)}
# A run: its name, its words, its input, and what must come of it: the status, standard output and standard error.
Run = collections.namedtuple("Run", "name words input wanted")


def of_lines(path):
    """The runs of a file of lines. Lists of their own become files of the current folder."""
    for case in map(json.loads, kit.read(path).splitlines()):
        words, given = case["words"], case["text"].encode() if "text" in case else bytes.fromhex(case["input"])
        for option in ("entities", "quirks"):
            if option in case:
                own = case[option].encode()
                words = [*words, f"--{option}", kit.write(f"{zlib.crc32(own):08x}.{option}", own)]
        yield Run(case["id"], words, given, (case.get("status", 0), case.get("stdout", "").encode(), case.get("stderr", "").encode()))


def records(path):
    """The records of a file, each as its sections, without the end of their last lines."""
    for record in re.split(r"\n(?=#(?:data|written)\n)", kit.text(path)):
        parts = SECTION.split(record.replace("\\r", "\r").replace("\\0", "\0") if "#written" in record else record)
        yield {name: text.removesuffix("\n") for name, text in zip(parts[1::2], parts[2::2])}


def of_records(path):
    """The runs of a file of records: the tree and the errors of a page; what comes back of a list of trees, and whether it is plain."""
    for number, record in enumerate(records(path), 1):
        context = ["--in", record["#document-fragment"]] if "#document-fragment" in record else []
        back = record.get("#back", record["#document"])
        wanted = {"fragment" if context else "tree": f"{back}\n" if back else ""}
        if "#data" in record:
            wanted["errors"] = record["#errors"] + "\n" * bool(record["#errors"])
        elif "#back" not in record:
            wanted |= {"write": record["#written"]} if record.get("#document-fragment") not in RAW else {}
            wanted |= {"plain": "plain\n"} if context else {}
        for command, text in wanted.items():
            came = (2, b"", text.encode()) if text.startswith("refused: ") else (0, text.encode(), b"")
            yield Run(f"{os.path.basename(path)} {number} {command}", [command, *context], record.get("#data", record.get("#written")).encode(), came)


def runs():
    """All of them."""
    for path in sorted(glob.glob(f"{DATA}/*")):
        yield from (of_lines if path.endswith(".jsonl") else of_records)(path)


def told(words):
    """What the options of a command line tell the library."""
    found = {"entities": b"", "quirks": b""}
    parts = [part for it in words[1:] for part in it.split("=", 1)]
    for option, value in zip(parts[::2], parts[1::2]):
        name, read = OPTIONS[option]
        found[name] = read(value)
    return found
