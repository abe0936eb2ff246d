"""The tests of the Python package: what its pages and functions give, on stored cases too, and beside html5lib. The same are run over the module
in C and, where JEANZIRCON_LIBRARY names a shared object, over ctypes.

    python3 tests.py [CHECKOUT]     CHECKOUT: where the stored cases are (.ci/cases.py). What wants lxml, bs4, html5lib or mypy is skipped where
                                    there is none"""
import collections
import copy
import ctypes
import doctest
import functools
import gzip
import importlib
import importlib.util
import io
import json
import os
import pickle
import re
import signal
import subprocess
import sys
import tarfile
import tempfile
import threading
import time
import unittest
import unittest.mock
import warnings
import xml.etree.ElementTree as ElementTree
import zlib

import jeanzircon as jz
from jeanzircon import _warc
from jeanzircon._archives import Archives, Done, Place, kind_of
from jeanzircon._crew import MORE, Lines, are_more, links_of, said, said_by_nodes
from jeanzircon._stored import PARTS, Unread

CHECKOUT = sys.argv.pop(1) if len(sys.argv) > 1 and os.path.isdir(sys.argv[1]) else None
PAGE = b"<!DOCTYPE html><!-- c --><title> a\n b </title><p class=x id=y>1<a href=/one>2<b>3</b></a>&copy;<a>4</a><!--d--></p>5"


def needs(*names):
    """Skips a test where one of these is not there, and says so."""
    lacks = [it for it in names if importlib.util.find_spec(it) is None]
    return unittest.skipIf(lacks, f"no {', no '.join(lacks)}")


@functools.cache
def cases():
    """The stored cases that ask for a tree: the page, what is told, and the tree's lines, or why there is none."""
    if CHECKOUT is None:
        return []
    sys.path.insert(0, f"{CHECKOUT}/.ci")
    stored, found = importlib.import_module("cases"), []
    for run in stored.runs():
        if run.words[0] in ("tree", "fragment") and not {"--in=", "--entities", "--quirks"} & {*run.words}:
            found.append((run.input, stored.told(run.words), (run.wanted[1] + run.wanted[2]).decode()))
    return found


def outline(nodes):
    """The lines that `htmlp tree` prints of these nodes."""
    depths, lines = {}, []
    for node in nodes:
        depths[node] = depth = depths.get(node.parent, -1) + 1
        ids = f' "{node.words[1]}" "{node.words[2]}"' if node.kind == "doctype" and any(node.words[1:]) else ""
        said = {"doctype": f"<!DOCTYPE {node.name}{ids}>", "element": f"<{node.name}>", "comment": f"<!-- {node.data} -->", "text": f'"{node.data}"'}
        attributes = sorted(node.attributes.items(), key=lambda it: it[0].encode())
        lines += ["| " + "  " * depth + said[node.kind], *("| " + "  " * (depth + 1) + f'{name}="{value}"' for name, value in attributes)]
    return "".join(f"{line}\n" for line in lines)


def element_outline(top):
    """The same lines of what is in an element of etree."""
    lines, left = [], [(top, -1, True)]
    while left:
        it, depth, is_first = left.pop()
        if isinstance(it, str):
            lines.append("| " + "  " * depth + f'"{it}"')
            continue
        if it is not top:
            lines.append("| " + "  " * depth + (f"<!-- {it.text} -->" if it.tag is ElementTree.Comment else f"<{it.tag}>"))
            lines += ["| " + "  " * (depth + 1) + f'{name}="{value}"' for name, value in sorted(it.attrib.items(), key=lambda it: it[0].encode())]
        inside = [] if it.tag is ElementTree.Comment or not it.text else [(it.text, depth + 1, False)]
        for child in it:
            inside += [(child, depth + 1, False), *([(child.tail, depth + 1, False)] if child.tail else [])]
        left += reversed(inside)
    return "".join(f"{line}\n" for line in lines)


def begins(node, page):
    """Whether a node is such as begins at its place in the bytes of a page, or an element without one."""
    if node.place is None:
        return node.kind == "element"
    first, text = page[node.place:node.place + 2], node.data or "\ufffd"
    if node.kind == "text":
        return first[:1] in b"&\r" or text[0] == "\ufffd" or page[node.place:].startswith(text[0].encode())
    return first.lower() == f"<{node.name[0]}".encode() if node.kind == "element" else first in (b"<!", b"<?", b"</")


def top_of(page):
    """The nodes that stand in what to_etree gives."""
    return page.root if page.root.kind == "fragment" else next(page.iter("html"))


class Pages(unittest.TestCase):
    def test_a_page(self):
        page = jz.parse(PAGE)
        self.assertEqual((page.title, page.root.kind, page.root.name, page.root.data, page.root.parent), ("a b", "document", None, None, None))
        self.assertEqual([it.kind for it in page.root.children], ["doctype", "comment", "element"])
        self.assertEqual([it.text() for it in page.iter("p")], ["123©4"])
        self.assertEqual(page.links(), [("/one", "23")])
        self.assertEqual((page.links(), list(page)), (list(jz.links(PAGE)), list(page.root)))
        self.assertEqual(page.errors, jz.errors(PAGE))
        self.assertEqual(jz.parse(b"\0<p>\0").error_counts, {"unexpected-null-character": 2, "tree-initial": 1, "tree-in-body": 2})
        self.assertEqual(page.html, jz.text(jz.WRITE, PAGE))
        self.assertEqual((page.nodes, [it.row for it, _ in zip(page, range(3))]), (jz.tree(PAGE), [row for row, _ in jz.tree(PAGE)[:3]]))
        self.assertEqual(repr(page), "<Page 'a b', 18 nodes, 0 parse errors>")
        self.assertEqual((jz.parse(b"").title, jz.parse(b"", context=b"p").root.children), ("", []))

    def test_a_node(self):
        page = jz.parse(PAGE)
        node = next(page.iter("p"))
        self.assertEqual((node.kind, node.name, node.data, node.attributes), ("element", "p", None, {"class": "x", "id": "y"}))
        self.assertEqual((node.get("id"), node.get("x"), node.get("x", 1), node.words), ("y", None, 1, ["p", "class", "x", "id", "y"]))
        self.assertEqual([it.kind for it in node.children], ["text", "element", "text", "element", "comment"])
        self.assertEqual((node.next.data, node.next.next, node.parent.name), ("5", None, "body"))
        self.assertEqual([it.name for it in node.iter("a")] + [it.text() for it in node.iter("b")], ["a", "a", "3"])
        self.assertEqual([repr(it) for it in node.children[:2]], ["<text '1'>", "<element a href='/one'>"])
        self.assertEqual(repr(page.root.children[0]), "<doctype html>")
        self.assertEqual((node.text(), node.children[0].text(), node.children[4].text(), node.children[4].data), ("123©4", "1", "", "d"))
        self.assertEqual([list(it) for it in node.children[:1]], [[]])
        self.assertIs(node.page, page)

    def test_places(self):
        text = b"\xef\xbb\xbf<!doctype html><p><b>x<p>y<table>z<tr><!--c--></table><IMAGE>&lt;"
        page, begin = jz.parse(text), text.index
        again = ("b", begin(b"<b"))
        self.assertEqual([(it.name or it.data, it.place) for it in page],
                         [("html", 3), ("html", None), ("head", None), ("body", None), ("p", begin(b"<p")), again, ("x", begin(b"x")), ("p", begin(b"<p>y")), again,
                          ("y", begin(b"y<")), again, ("z", begin(b"z")), ("table", begin(b"<ta")), ("tbody", None), ("tr", begin(b"<tr")), ("c", begin(b"<!--")),
                          again, ("img", begin(b"<IM")), ("<", begin(b"&"))])
        self.assertEqual((page.root.place, jz.parse(b"").root.place), (None, None))
        self.assertEqual((page, pickle.loads(pickle.dumps(page.node(7))).place), (jz.parse(text), page.node(7).place))
        part = jz.parse(b"<td>\xff<td/>", context=b"tr", bad_bytes=1, entities=b"")
        self.assertEqual([(it.kind, it.place) for it in (part.root, *part)], [("fragment", None), ("element", 0), ("text", 4), ("element", 5)])

    def test_what_is_in_what(self):
        page = jz.parse(PAGE)
        paragraph, bold = next(page.iter("p")), next(page.iter("b"))
        self.assertTrue(bold in paragraph and bold in page and paragraph in page and bold in page.root)
        self.assertFalse(paragraph in bold or paragraph in paragraph or page.root in page or "b" in page or next(jz.parse(PAGE).iter("b")) in page)

    def test_what_is_equal(self):
        page, other = jz.parse(PAGE), jz.parse(PAGE)
        self.assertEqual(page, other)
        self.assertNotEqual(page, jz.parse(PAGE + b"<p>"))
        self.assertNotEqual(jz.parse(b"<p>"), jz.parse(b"<b>"))
        self.assertNotEqual(jz.parse(b"<p>"), jz.parse(b"<p\0>"))
        self.assertFalse(page == 1 or page.root == 1 or page.root == other.root)
        self.assertEqual(len({next(page.iter("p")), next(page.iter("p")), next(page.iter("b"))}), 2)
        self.assertRaises(TypeError, hash, page)
        self.assertRaises(TypeError, type(page))
        node = page.node(page.root.number)
        self.assertEqual((node, hash(node)), (page.root, hash(page.root)))
        for number in (-1, 10**6, 2**32 - 1, 2**64, 2**70, "1"):
            self.assertRaises(KeyError, page.node, number)

    def test_copies(self):
        for page in (jz.parse(PAGE), jz.parse(b"<td>&lt", context=bytearray(b"tr"), entities=b"", keys=5)):
            for again in (pickle.loads(pickle.dumps(page)), copy.copy(page), copy.deepcopy(page)):
                self.assertEqual((again, again.html, again.nodes), (page, page.html, page.nodes))
        node = next(page.iter("td"))
        self.assertEqual(pickle.loads(pickle.dumps(node)).text(), node.text())
        error = jz.Refused(2, 2, 1)
        self.assertEqual([str(it) for it in (error, copy.copy(error), pickle.loads(pickle.dumps(error)))], ["OutOfProfile svg at 1"] * 3)

    def test_what_is_no_call(self):
        for call in (jz.parse, jz.links, jz.tree, jz.errors, jz.table, lambda it: jz.text(1, it)):
            for it in ("a", None, 5):
                self.assertRaises(TypeError, call, it)
        self.assertRaisesRegex(TypeError, r"encode\(\)", jz.parse, "a")
        for settings in ({"context": "div"}, {"nodes": "20"}, {"keys": 1.5}, {"none": 1}, {"entities": "x"}):
            self.assertRaises(TypeError, jz.parse, b"a", **settings)
        for settings in ({"nodes": 2**64 + 20}, {"open": -1}, {"keys": 2**128}, {"bad_bytes": 2**32}):
            self.assertRaises(ValueError, jz.parse, b"a", **settings)
        page = jz.parse(PAGE)
        for it in (5, b"p", None):
            self.assertRaises(TypeError, page.root.get, it)
        for it in (5, b"p"):
            self.assertRaises(TypeError, page.iter, it)
        for call in (page.root.get, page.iter):
            self.assertRaises(UnicodeEncodeError, call, "\ud800")
        self.assertRaises((AttributeError, TypeError), setattr, page, "title", "x")

    def test_refusals(self):
        calls = [(b"a<svg>", {}, "OutOfProfile svg at 1"), (b"a\xff", {}, "NotUtf8 at 1"), (b"a", {"entities": b"["}, "BadTable Json"),
                 (b"a", {"entities": b"[1]"}, "BadTable Shape"), (b"<p>" * 99, {"nodes": 16}, "TooManyNodes at"), (b"a", {"context": b"\xff"}, "NotText"),
                 (b"a", {"nodes": 1}, "BadLimits"), (b"a", {"quirks": b"a\n\nb"}, "BadQuirks line")]
        for page, settings, why in calls:
            for call in (jz.parse, jz.links, jz.tree, jz.errors):
                with self.assertRaises(jz.Refused) as came:
                    call(page, **settings)
                self.assertIn(why, str(came.exception))
                self.assertIsInstance(came.exception, ValueError)
        self.assertRaises(jz.Refused, jz.table, b"{")

    def test_bytes(self):
        for page in (bytearray(PAGE), memoryview(PAGE), memoryview(PAGE + PAGE)[:len(PAGE)]):
            self.assertEqual(jz.parse(page), jz.parse(PAGE))
        self.assertEqual(jz.parse(b"a\xffb", bad_bytes=1).root.text(), "a\ufffdb")

    def test_sizes(self):
        types = len(ctypes.Array.__subclasses__())
        for size in range(99):
            jz.parse(PAGE * size, entities=b""), jz.text(jz.TREE, b"x" * size, entities=b"")
        self.assertLessEqual(len(ctypes.Array.__subclasses__()) - types, not jz.is_compiled())

    def test_tables(self):
        flat = jz.table(b'{"&copy;": {"codepoints": [169], "characters": "\\u00a9"}}')
        self.assertEqual([jz.parse(b"&copy;&lt;", context=b"p", entities=it).root.text() for it in (flat, b"", None)], ["©&lt;", "&copy;<", "©<"])
        page = b"x &amp y&&eacute<a b='&copy=&notit;'>&zz;&"
        self.assertEqual(jz.parse(page, entities=jz.standard()[0], quirks=jz.standard()[1]), jz.parse(page))
        quirks = b'<!DOCTYPE html PUBLIC "-//W3C//DTD HTML 3.2//EN"><p><table>'
        self.assertEqual([next(jz.parse(quirks, quirks=it).iter("table")).parent.name for it in (None, b"")], ["p", "body"])

    def test_large_pages(self):
        deep, flat = jz.parse(b"<div>" * 20000 + b"x"), jz.parse(b"<p>x" * 20000)
        self.assertEqual((len(list(deep.iter("div"))), deep.root.text(), len(list(flat.iter("p"))), flat.root.text()), (20000, "x", 20000, "x" * 20000))
        self.assertEqual(jz.parse(b"<a href=/b><object>" * 9999 + b"y").links(), [("/b", "y")] * 9999)
        self.assertEqual(len(jz.to_etree(flat).findall("body/p")), 20000)
        top, depth = jz.to_etree(deep), 0
        while len(top):
            top, depth = top[-1], depth + 1
        self.assertEqual(depth, 20001)

    def test_threads(self):
        page, wrong = jz.parse(PAGE * 20), []
        wanted = page.links(), page.root.text(), [it.attributes for it in page.iter("p")], outline(page), [it.place for it in jz.parse(PAGE * 20)]

        def work():
            for _ in range(20):
                came = page.links(), page.root.text(), [it.attributes for it in page.iter("p")], outline(page), [it.place for it in page]
                wrong.append(came != wanted or jz.parse(PAGE * 20) != page)

        threads = [threading.Thread(target=work) for _ in range(4)]
        for it in threads:
            it.start()
        for it in threads:
            it.join()
        self.assertEqual(wrong, [False] * 80)

    def test_documentation(self):
        for name in ("jeanzircon", "jeanzircon.etree", "jeanzircon._lines"):
            self.assertEqual(doctest.testmod(importlib.import_module(name))[0], 0)
        self.assertEqual((jz.__version__, [it for it in jz.__all__ if not hasattr(jz, it)]), (jz.version(), []))
        self.assertEqual(jz.is_compiled(), not os.environ.get("JEANZIRCON_LIBRARY"))

    def test_program(self):
        with tempfile.NamedTemporaryFile() as file:
            file.write(PAGE)
            file.flush()
            calls = [(["tree", file.name], 0, jz.text(jz.TREE, PAGE)), (["links", file.name], 0, b"/one 23\n"), (["links", "--in", "svg"], 2, b"")]
            for words, status, said in calls:
                words, room = [sys.executable, "-m", "jeanzircon", *words], os.path.dirname(jz.__path__[0])
                it = subprocess.run(words, stdin=subprocess.DEVNULL, capture_output=True, cwd=room)
                self.assertEqual((it.returncode, it.stdout), (status, said))

    @needs("mypy")
    def test_types(self):
        words = [sys.executable, "-m", "mypy", "--strict", "--enable-incomplete-feature=Unpack", "--cache-dir", os.devnull, "-p", "jeanzircon"]
        it = subprocess.run(words, capture_output=True, text=True, cwd=os.path.dirname(jz.__path__[0]))
        self.assertEqual(it.returncode, 0, it.stdout + it.stderr)


@unittest.skipIf(CHECKOUT is None, "no stored cases are named")
class Stored(unittest.TestCase):
    def test_trees(self):
        count = 0
        for page, settings, wanted in cases():
            with self.subTest(page=page, settings=settings):
                try:
                    made = jz.parse(page, **settings)
                    came = outline(made)
                    self.assertEqual(made.errors, jz.errors(page, **settings))
                    self.assertEqual(made.error_counts, collections.Counter(it.code for it in made.errors))
                    self.assertEqual(element_outline(jz.to_etree(made)), outline(top_of(made)))
                    self.assertEqual([it for it in made if not begins(it, page)], [])
                except jz.Refused as refused:
                    came = f"refused: {refused}\n"
                self.assertEqual(came, wanted)
            count += 1
        self.assertGreater(count, 600)

    def beside(self, same, made):
        """Compares what we make of a page with what html5lib makes of it, on each case of which it has the same tree."""
        import html5lib
        count = other = 0
        for page, settings, _ in cases():
            context = settings["context"].decode() if "context" in settings else None
            try:
                ours, text = jz.parse(page, **({"context": context.encode()} if context else {})), page.decode()
                tree = html5lib.parseFragment(text, context, namespaceHTMLElements=False) if context else html5lib.parse(text, namespaceHTMLElements=False)
            except (jz.Refused, UnicodeDecodeError):
                continue
            if element_outline(tree) != outline(top_of(ours)):
                other += 1
                continue
            with self.subTest(page=page, context=context):
                self.assertEqual(*made(text, context, ours, tree))
            count += 1
        print(f"beside html5lib, {same}: {count} cases the same, {other} of which html5lib has another tree")
        self.assertGreater(count, 300)

    @needs("html5lib")
    def test_beside_html5lib(self):
        self.beside("xml.etree", lambda text, context, ours, tree: [ElementTree.tostring(it) for it in (tree, jz.to_etree(ours))])

    @needs("html5lib", "lxml")
    def test_lxml_beside_html5lib(self):
        import html5lib
        import lxml.etree

        def made(text, context, ours, tree):
            if context:
                return 0, 0
            try:
                theirs = html5lib.parse(text, treebuilder="lxml", namespaceHTMLElements=False).getroot()
            except ValueError:  # (a character that XML has not)
                return 0, 0
            return [lxml.etree.tostring(it, method="c14n") for it in (theirs, jz.to_etree(ours, lxml.etree))]

        with warnings.catch_warnings():
            warnings.simplefilter("ignore")
            self.beside("lxml.etree", made)

    @needs("html5lib", "bs4")
    def test_soup_beside_html5lib(self):
        import bs4
        importlib.import_module("jeanzircon.soup")

        def made(text, context, ours, tree):
            theirs, soup = ([] if context else [bs4.BeautifulSoup(text, it) for it in ("html5lib", "jeanzircon")]) or (0, 0)
            # (theirs counts no b in b, and writes an identifier that is empty)
            is_other = context or len(theirs.find_all(True)) != len(list(ours.iter("html"))) + len(list(tree.iterfind(".//*"))) or ' ""' in str(theirs)
            return (0, 0) if is_other else (str(theirs), str(soup))

        with warnings.catch_warnings():
            warnings.simplefilter("ignore")
            self.beside("Beautiful Soup", made)


class Others(unittest.TestCase):
    @needs("lxml")
    def test_lxml(self):
        import lxml.etree
        page = jz.parse("<html xml:lang=a xmlns:b=c><p 1=2 é=ü>\x01\x0c<!--a--b-->".encode())
        tree = jz.to_etree(page, lxml.etree)
        self.assertEqual(dict(tree.attrib), {"xmlU0003Alang": "a", "xmlnsU0003Ab": "c"})
        self.assertEqual((dict(tree.find("body/p").attrib), tree.find("body/p").text), ({"U00031": "2", "é": "ü"}, "\ufffd "))
        self.assertEqual(tree.find("body/p")[0].text, "a- -b")

    @needs("bs4")
    def test_soup(self):
        import bs4
        importlib.import_module("jeanzircon.soup")
        for markup in (PAGE, PAGE.decode(), PAGE.decode().encode("utf-16")):
            soup = bs4.BeautifulSoup(markup, "jeanzircon")
            self.assertEqual((soup.title.text, soup.p["class"], soup.a["href"], soup.p.text), (" a\n b ", ["x"], "/one", "123©4"))
        self.assertRaises(jz.Refused, bs4.BeautifulSoup, "a<svg>", "jeanzircon")


def record(kind, address, content_type, block, length=None):
    """A record of a WARC file."""
    fields = {"WARC-Type": kind, "WARC-Target-URI": f"http://a/{address}", "Content-Type": content_type}
    fields["Content-Length"] = len(block) if length is None else length
    return b"".join([b"WARC/1.0\r\n", *(f"{name}: {it}\r\n".encode() for name, it in fields.items()), b"\r\n", block, b"\r\n\r\n"])


def response(address, body, *fields, kind="text/html; charset=utf-8", length=None):
    head = "\r\n".join(["HTTP/1.1 200 OK", f"Content-Type: {kind}", *fields, "", ""]).encode()
    return record("response", address, "application/http; msgtype=response", head + body, length)


def chunks(body):
    return b"5;x=y\r\n%b\r\n%x\r\n%b\r\n0\r\n\r\n" % (body[:5], len(body) - 5, body[5:])


def folder_of(case, **files):
    """A folder that has these files, with `_` for the dots in their names; it goes when the test is over."""
    room = tempfile.TemporaryDirectory()
    case.addCleanup(room.cleanup)
    for name, content in files.items():
        with open(f"{room.name}/{name.replace('_', '.')}", "wb") as file:
            file.write(content)
    return room.name


def lines_of(*paths, most=1 << 20, done=None):
    """The lines that are made of archives, and what is left out of them."""
    archives = Archives(done or Done(), most)
    text = Lines(archives.pages(paths), most).text
    return list(map(json.loads, text.splitlines())), dict(archives.left_out)


def tar_of(**files):
    packed = io.BytesIO()
    with tarfile.open(fileobj=packed, mode="w:gz") as tar:
        for name, content in files.items():
            member = tarfile.TarInfo(name.replace("_", "."))
            member.size = len(content)
            tar.addfile(member, io.BytesIO(content))
    return packed.getvalue()


PACKED = zlib.compressobj(wbits=-15)
RECORDS = [
    (None, record("warcinfo", "", "application/warc-fields", b"x: y\r\n")), (None, record("request", "plain", "application/http", b"GET / HTTP/1.0\r\n\r\n")),
    ("ok", response("plain", PAGE)), ("ok", response("chunks", chunks(PAGE), "Transfer-Encoding: chunked")),
    ("ok", response("no-chunks", PAGE, "transfer-encoding:chunked")), ("ok", response("gzip", gzip.compress(PAGE), "Content-Encoding: gzip")),
    ("ok", response("deflate", zlib.compress(PAGE), "Content-Encoding: deflate")),
    ("ok", response("raw", PACKED.compress(PAGE) + PACKED.flush(), "Content-Encoding: deflate")),
    ("ok", response("both", chunks(gzip.compress(PAGE)), "Content-Encoding: gzip", "Transfer-Encoding: chunked")),
    ("UnknownCoding br", response("br", PAGE, "Content-Encoding: br")), (None, response("image", PAGE, kind="image/png")),
    ("ok", record("resource", "resource", "text/html", PAGE)), ("OutOfProfile svg", response("svg", b"a<svg>")), ("ok", response("bytes", b"a\xff")),
    ("BrokenRecord a chunk is cut off", response("cut", chunks(PAGE)[:-20], "Transfer-Encoding: chunked")),
    ("BrokenRecord its headers do not end", record("response", "head", "application/http", b"HTTP/1.1 200 OK\r\n")),
    ("BrokenRecord its content cannot be unpacked", response("no-gzip", b"\x1f\x8bxxxxxxxxxxxxxxx", "Content-Encoding: gzip")),
    ("BrokenRecord its length is wrong", response("short", PAGE, length=99)), ("ok", response("after", PAGE)),
    ("BrokenRecord it has no length", record("response", "none", "text/html", b"", length="x")), ("ok", response("last", PAGE)),
]
WARC = b"".join(it for _, it in RECORDS)


class Crawls(unittest.TestCase):
    def test_records(self):
        wanted = [(number, status) for number, (status, _) in enumerate(RECORDS, 1) if status]
        each = b"".join(gzip.compress(it) for _, it in RECORDS)
        room = folder_of(self, a_warc=WARC, b_warc_gz=gzip.compress(WARC), c_warc_gz=each, d=WARC[:5000] + WARC[5000:].replace(b"\r\n\r\nWARC", b"\nWARC"))
        for name in ("a.warc", "b.warc.gz", "c.warc.gz", "d"):
            lines, left_out = lines_of(f"{room}/{name}")
            self.assertEqual([(it["record"], it["status"]) for it in lines], wanted)
            self.assertEqual(left_out, {"of another type": 1, "of another kind of record": 2})
            first = {**lines[0], "seconds": 0}
            self.assertEqual(first, {"archive": f"{room}/{name}", "record": 3, "address": "http://a/plain", "status": "ok", "at": None, "title": "a b",
                                     "links": [["/one", "23"]], "errors": {}, "bytes": len(PAGE), "seconds": 0})
            self.assertEqual({json.dumps(it["links"]) for it in lines if it["bytes"] == len(PAGE)}, {'[["/one", "23"]]'})
            self.assertEqual([(it["at"], it["links"]) for it in lines if "svg" in it["status"]], [(1, [])])
            self.assertEqual([it["errors"] for it in lines if it["address"] == "http://a/bytes"], [{"replaced-bytes": 1, "tree-initial": 1}])

    def test_usual_heads(self):
        """What is read of both heads at once is what is read of them header by header."""
        usual = response("a", PAGE, "Content-Length: 9", "X-A: \xe9")
        others = [(b"WARC-Type", b"warc-type"), (b"WARC-Type: response\r\n", b""),
                  (b"e: response", b"e: response\r\nWARC-Type: request"), (b"e: response", b"e: request"),
                  (b"http://a/a", b"<http://a/a>"), (b"http://a/a", b"http://a/ a"), (b"http://a/a", b"http://a/\xc3\xa9"), (b"WARC-Target-URI", b"X-URI"),
                  (b"http://a/a", b"http://a/a\r\nWARC-Target-URI: b"), (b"Content-Length: ", b"Content-Length:0"), (b"Content-Length: ", b"Content-Length: 9"),
                  (b"Content-Length: ", b"Content-Length: 9\r\nContent-Length: "), (b"Content-Length: ", b"content-length: 5\r\nContent-Length: "),
                  (b"Content-Length: ", b"Content-Length: 5\r\ncontent-length: "), (b"\r\nContent-Length: ", b"\r\n Content-Length: "),
                  (b"application/http;", b"application/httpx;"), (b"application/http;", b"text/html;"), (b"1.0\r\n", b"1.0\n"),
                  (b"1.0\r\n", b"1.0\r\n x: y\r\n"),
                  (b"1.0\r\n", b"1.0\r\nx: \ny: \r\n"), (b"1.0\r\n", b"1.0\r\nx: " + b"y" * 70000 + b"\r\n"), (b"200 OK\r\n", b"200 OK\r\n\r\n"),
                  (b"HTTP/1.1 200 OK\r\n", b""), (b"text/html;", b"Text/HTML ;"), (b"text/html;", b"text/htm;"), (b"text/html;", b"text/html;\r\n "),
                  (b"text/html;", b"image/png\r\nContent-Type: text/html;"), (b"text/html;", b"text/html\r\nContent-Type: image/png;"),
                  (b"200 OK\r\n", b"200 OK\r\nContent-Encoding: x\r\n"), (b"200 OK\r\n", b"200 OK\r\ntransfer-encoding : chunked\r\n"), (b"", b"")]
        records = [usual.replace(one, other, 1) for one, other in others] + [usual[:-9], usual + b"x", response("a", b"a\r\n\r\nb")]
        text = b"".join(it for record in records for it in (record, response("b", b"b")))
        room = folder_of(self, a_warc=text, b_warc_gz=gzip.compress(text), c_warc_gz=b"".join(map(gzip.compress, records)))
        for most in (20, 1 << 20):
            came = []
            for way in (_warc.USUAL, re.compile(b"(?!)")):
                with unittest.mock.patch.object(_warc, "USUAL", way):
                    archives = Archives(Done(), most)
                    pages = [it._replace(content=PARTS.read(it.archive, *it.span), span=(0, 0)) if it.span[1] else it for it in archives.pages([room])]
                    came.append((pages, archives.left_out))
            self.assertEqual(*came)
        self.assertEqual((_warc.USUAL.match(usual).end(), _warc.USUAL.match(usual[1:])), (usual.index(PAGE), None))

    def test_damage(self):
        members = [gzip.compress(it) for it in (response(str(number), PAGE * 9) for number in range(5))]
        bad = bytearray(members[1])
        bad[90] ^= 255
        again = [members[0], members[1][:90], b"\0" * 9, *members[2:]]
        for parts in ([members[0], bytes(bad), *members[2:]], again):
            room = folder_of(self, a_warc_gz=b"".join(parts))
            self.assertEqual([it["status"][:6] for it in lines_of(room)[0]], ["ok", "Broken", "ok", "ok", "ok"])
        ends = {"ok": b"\r\n", "BrokenRecord none begins here": b"junk", "BrokenRecord it is cut off": response("x", PAGE)[:-9]}
        for status, end in ends.items():
            room = folder_of(self, a_warc=response("a", PAGE) + end, b_warc_gz=gzip.compress(response("a", PAGE) + end))
            self.assertEqual([it["status"] for it in lines_of(room)[0]][-1:], [status])
        self.assertEqual(lines_of(folder_of(self, a_warc=b"", b_warc_gz=b""))[0], [])

    def test_passing_over(self):
        room = folder_of(self, a_warc=WARC[:900] + b"x" * 9 + WARC[900:], b_warc_gz=gzip.compress(WARC), c_tar=tar_of(a_html=PAGE, b_html=PAGE), d_html=PAGE)
        found = [(it["archive"], it["record"]) for it in lines_of(room)[0]]
        done = Done()
        for it in found[::2]:
            done.add(*it)
        self.assertEqual([(it["archive"], it["record"]) for it in lines_of(room, done=done)[0]], found[1::2])

    def test_parts(self):
        each = b"".join(gzip.compress(it) for _, it in RECORDS)
        two = b"".join(gzip.compress(it[1] + other[1]) for it, other in zip(RECORDS, RECORDS[1:]))
        room = folder_of(self, a_warc=WARC[:900] + b"x" * 9 + WARC[900:], b_warc_gz=gzip.compress(WARC), c_warc_gz=each[:2000] + b"\0" * 9 + each[2000:],
                         d_warc_gz=two, e_tar=tar_of(a_html=PAGE, b_html=PAGE), f_html=PAGE)
        for path in (f"{room}/{it}" for it in os.listdir(room)):
            pages = [*Archives(Done(), 1 << 20).pages([path])]
            for number, it in enumerate(pages):
                left = Archives(Done(), 1 << 20).at(Place(path, kind_of(path), it.record, it.begin))
                self.assertEqual([*left], pages[number:])
            self.assertEqual(len({it.begin for it in pages}) == len(pages), os.path.basename(path) in ("a.warc", "c.warc.gz", "f.html"))

    def test_files(self):
        tar = tar_of(a_html=PAGE, b_txt=PAGE, c_htm=b"a<svg>", d_html=b"x" * 2000)
        broken = gzip.compress(gzip.decompress(tar).replace(b"b.txt", b"B.txt"))
        room = folder_of(self, a_tar_gz=tar, b_tgz=broken, c_tar=gzip.decompress(tar)[:2000], d_html=PAGE, e_txt=PAGE, f=PAGE)
        os.symlink("nowhere", f"{room}/g.html")
        lines, left_out = lines_of(room, f"{room}/f", most=1000)
        found = [(os.path.relpath(it["archive"], room), it["record"], it["status"], it["at"]) for it in lines]
        self.assertEqual(found[:3], [("a.tar.gz", 1, "ok", None), ("a.tar.gz", 3, "OutOfProfile svg", 1), ("a.tar.gz", 4, "TooLarge", 1000)])
        self.assertEqual([it[:2] for it in found[3:]], [("b.tgz", 1), ("b.tgz", 0), ("c.tar", 1), ("c.tar", 0), ("d.html", 1), ("g.html", 0), ("f", 1)])
        self.assertEqual({it[2].split()[0] for it in found if not it[1]}, {"Unreadable"})
        self.assertEqual((lines[0]["address"], left_out), ("a.html", {"of another name": 4}))

    def test_limits(self):
        large = gzip.compress(b"x" * 4000000)
        room = folder_of(self, a_warc=response("a", large, "Content-Encoding: gzip") + response("b", b"x" * 3000000), b_html=b"")
        self.assertEqual([it["status"] for it in lines_of(room)[0]], ["TooLarge", "TooLarge", "ok"])

    def test_large_links(self):
        for begin in (b"<a href=/b><object>" * 200, b"<p><a href=%b>" % (b"x" * 9999) + b"<p>y" * 99, b"<a href=/b>x</a><p><a>y</a>" * 2000):
            page = jz.parse(begin + b"y" * 4000)
            made = page.links()
            count = sum(len(it) + len(text) for it, text in made)
            self.assertEqual([are_more(page, it) for it in (0, count - 1, count, 2 * count)], [True, True, False, False])
            self.assertEqual(links_of(page, count), made)
            self.assertRaises(Unread, links_of, page, -MORE)

    def test_said(self):
        pages = [PAGE, b"", b"a<svg>", b"<a href=/b>" * 9,
                 "<title>\t\f é<!--x-->\U0001f600\u2028  \x7f\"\\ </title><a href=é\x01>\ud7ff\r\n\t\x0b</a><p\0>".encode()]
        for page in pages + [it for it, _, _ in cases()]:
            came = []
            for call in (said, said_by_nodes):
                try:
                    came.append(call(page))
                except (jz.Refused, Unread) as why:
                    came.append(str(why))
            self.assertEqual(*came)
        large = b"<a href=/b><object>" * 2000 + b"y" * 100000
        for call in (said, said_by_nodes):
            self.assertRaisesRegex(Unread, "LinksTooLarge", call, large)

    def ran(self, *words):
        words = [sys.executable, "-X", "dev", "-m", "jeanzircon.crawl", *words]
        return subprocess.Popen(words, 0, stdout=subprocess.PIPE, stderr=subprocess.PIPE, cwd=os.path.dirname(jz.__path__[0]))

    def test_going_on(self):
        large = b"<p><a href=%b>" % (b"x" * 200000) + b"<p>y" * 20000
        room = folder_of(self, a_warc=WARC, b_tgz=tar_of(a_html=PAGE, b_html=PAGE), c_html=PAGE, d_html=large)
        with self.ran("--processes", "1", room) as it:
            one, said = it.communicate()
            self.assertEqual((it.returncode, said.count(b"\n"), one.count(b'"status": "Memory"')), (0, 1, 1), said)

        def lines(text):
            return sorted(re.sub('"seconds".*', "", it) for it in text.decode().splitlines())

        for kept in (1, len(one) // 2):
            with open(f"{room}/out", "wb") as file:
                file.write(one[:kept])
            with self.ran("--processes", "2", "--output", f"{room}/out", room) as it:
                self.assertEqual((it.communicate()[0], it.returncode), (b"", 0))
            with open(f"{room}/out", "rb") as file:
                self.assertEqual(lines(file.read()), lines(one))
        for status, words in {3: ["--output", f"{room}/c.html", room], 2: ["--no-such-word", room]}.items():
            with self.ran(*words) as it:
                self.assertEqual((it.communicate()[0], it.returncode), (b"", status))
        with open(f"{room}/c.html", "rb") as file:
            self.assertEqual(file.read(), PAGE)

    def test_ctrl_c(self):
        room = folder_of(self, a_warc=response("a", PAGE) * 5000)
        with self.ran("--processes", "2", room) as it:
            first = it.stdout.readline()
            it.send_signal(signal.SIGINT)
            rest, said = it.communicate()
        self.assertEqual((it.returncode, said.count(b"\n"), (first + rest)[-1:]), (130, 1, b"\n"), said)
        self.assertLess((first + rest).count(b"\n"), 5000)
        for line in (first + rest).splitlines():
            json.loads(line)

    def start(self, what, *words):
        """A scheduler or a worker of a Dask cluster on this machine; it ends when the test is over."""
        words = [sys.executable, "-m", f"distributed.cli.dask_{what}", "--host", "127.0.0.1", "--no-dashboard", *words]
        env = {**os.environ, "PYTHONPATH": os.path.dirname(jz.__path__[0]), "OMP_NUM_THREADS": "1"}
        it = subprocess.Popen(words, env=env, stdout=subprocess.DEVNULL, stderr=subprocess.DEVNULL)
        self.addCleanup(it.wait)
        self.addCleanup(it.kill)
        return it

    @needs("distributed")
    def test_cluster(self):
        body = b"<p><a href=/b>" + b"y" * 50000 + b"</a>"
        many = b"".join(gzip.compress(response(str(it), body)) for it in range(250))
        pages = {f"p{it}_html": PAGE for it in range(300)}
        room = folder_of(self, a_warc_gz=many, b_warc_gz=many, c_warc_gz=gzip.compress(WARC), d_tar=tar_of(a_html=PAGE, b_html=body), **pages)
        with tempfile.TemporaryDirectory() as other:
            told = "--scheduler-file", f"{other}/scheduler"
            self.start("scheduler", "--port", "0", *told)
            workers = [self.start("worker", "--no-nanny", "--nthreads", "1", "--local-directory", f"{other}/{it}", *told) for it in range(2)]
            while not os.path.exists(told[1]):
                time.sleep(0.1)
            with open(told[1]) as file:
                address = json.load(file)["address"]
            with self.ran("--scheduler", address, "--output", f"{other}/lines", room) as it:
                while it.poll() is None and not (os.path.exists(f"{other}/lines") and os.path.getsize(f"{other}/lines")):
                    time.sleep(0.01)
                workers[0].kill()
                self.assertEqual((it.communicate()[0], it.returncode), (b"", 0))
            with open(f"{other}/lines") as file:
                came = list(map(json.loads, file))
        wanted = lines_of(room, most=8 << 20)[0]
        for them in (came, wanted):
            them.sort(key=lambda it: (it["archive"], it["record"], it.pop("seconds")))
        self.assertEqual(len(came), 500 + len([it for it, _ in RECORDS if it]) + 302)
        self.assertTrue(came == wanted)

    def test_nothing_of_a_cluster(self):
        words = "import jeanzircon.crawl, sys; sys.exit(any(it.split('.')[0] in ('dask', 'distributed', 'tornado') for it in sys.modules))"
        self.assertEqual(subprocess.run([sys.executable, "-c", words], cwd=os.path.dirname(jz.__path__[0])).returncode, 0)


if __name__ == "__main__":
    result = unittest.main(exit=False, verbosity=0).result
    for why in sorted({why for _, why in result.skipped}):
        print(f"skipped: {why}")
    sys.exit(not result.wasSuccessful())
