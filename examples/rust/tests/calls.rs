//! What the wrapper gives.

use jeanzircon::{
    errors, is_plain, links, text, version, BadBytes, Doctype, Error, ErrorKind, Kind, Lines, Node,
    Options, Page, Parser, Table, Task, Tree, QUIRKS,
};
use std::collections::HashSet;
use std::iter::successors;

const PAGE: &[u8] =
    b"<!DOCTYPE html><p title='a&lt;b'>x<a href=/one>one <b>two</b></a><!--c--><a>no link</a>";

fn div<'a>() -> Options<'a> {
    Options {
        context: "div",
        ..Options::default()
    }
}

#[test]
fn a_tree_is_walked() {
    let tree = Tree::parse(PAGE, &Options::default()).unwrap();
    let found: Vec<_> = links(&tree).collect();
    assert_eq!(found, [("/one", "one two".to_string())]);
    let kinds: Vec<_> = tree.root().children().map(|node| node.kind()).collect();
    assert_eq!(kinds, [Kind::Doctype, Kind::Element]);
    let paragraph = tree
        .root()
        .descendants()
        .find(|node| node.name() == Some("p"))
        .unwrap();
    assert_eq!(paragraph.attribute("title"), Some("a<b"));
    assert_eq!(paragraph.parent().unwrap().name(), Some("body"));
}

fn outside(node: Node<'_>) -> impl Iterator<Item = Node<'_>> {
    successors(node.parent(), |it| it.parent())
}

#[test]
fn links_between_nodes_agree() {
    let page =
        b"<p>a<b>b<i></i></b><!--c--></p><table><tr><td>x<td>y</table>z<b><p>1</b>2<div><div>";
    for options in [Options::default(), div()] {
        let tree = Tree::parse(page, &options).unwrap();
        let (mut left, mut walked) = (vec![tree.root()], Vec::new());
        while let Some(node) = left.pop() {
            let mut children: Vec<_> = node.children().collect();
            assert!(children.iter().all(|it| it.parent() == Some(node)));
            assert_eq!(node.first_child(), children.first().copied());
            children.reverse();
            left.extend(children);
            walked.push(node);
        }
        let inside: Vec<_> = tree.root().descendants().collect();
        assert_eq!(walked[1..], inside);
        for node in walked {
            let found = inside
                .iter()
                .filter(|it| outside(**it).any(|it| it == node));
            assert!(node.descendants().eq(found.copied()));
        }
        assert_eq!((tree.root().parent(), tree.root().next()), (None, None));
    }
    let empty = Tree::parse(b"", &div()).unwrap();
    assert_eq!(empty.root().descendants().count(), 0);
    assert_eq!((empty.root().name(), empty.root().next()), (None, None));
}

#[test]
fn nodes_tell_where_they_come_from() {
    let input = b"<!doctype html><p><b>x<p>y<table><tr>";
    let places = |tree: &Tree| {
        let nodes = tree.root().descendants();
        nodes.map(|it| it.place()).collect::<Vec<_>>()
    };
    let tree = Tree::parse_places(input, &Options::default()).unwrap();
    let wanted = [0, 99, 99, 99, 15, 18, 21, 22, 18, 25, 26, 99, 33];
    let wanted = wanted.map(|it| (it != 99).then_some(it));
    assert_eq!(places(&tree), wanted);
    assert_eq!(tree.root().place(), None);
    let without = Tree::parse(input, &Options::default()).unwrap();
    assert!(places(&without).iter().all(Option::is_none));
    assert_eq!(format!("{tree:?}"), format!("{without:?}"));
}

#[test]
fn links_in_links_have_the_texts_inside_them() {
    let page = b"<a href=1>a<object>b<a href=2>c</a></object>d</a>e<a href=3></a><a href=4>f<object><a href=5>g";
    let tree = Tree::parse(page, &Options::default()).unwrap();
    let found: Vec<_> = links(&tree).collect();
    let wanted = [
        ("1", "abcd"),
        ("2", "c"),
        ("3", ""),
        ("4", "fg"),
        ("5", "g"),
    ];
    assert_eq!(found, wanted.map(|(link, text)| (link, text.to_string())));
}

#[test]
fn doctypes_have_identifiers() {
    let of = |page: &[u8]| {
        let tree = Tree::parse(page, &Options::default()).unwrap();
        let first = tree.root().first_child().unwrap();
        format!("{:?}", first.doctype())
    };
    let said = Doctype {
        name: "html",
        public: "-//p",
        system: "s",
    };
    assert_eq!(
        of(b"<!doctype html public '-//p' 's'>"),
        format!("{:?}", Some(said))
    );
    assert_eq!(
        of(b"<!doctype html>"),
        r#"Some(Doctype { name: "html", public: "", system: "" })"#
    );
    assert_eq!(of(b"<p>"), "None");
}

#[test]
fn nodes_are_shown_and_compared() {
    let page = b"<!doctype html><p title=t>x<!--c--></p><p title=t>x";
    let tree = Tree::parse(page, &Options::default()).unwrap();
    let again = Tree::parse(page, &Options::default()).unwrap();
    assert_eq!(
        format!("{tree:?}"),
        concat!(
            r#"[(0, Doctype { name: "html", public: "", system: "" }), (0, Element { name: "html", attributes: [] }), "#,
            r#"(1, Element { name: "head", attributes: [] }), (1, Element { name: "body", attributes: [] }), "#,
            r#"(2, Element { name: "p", attributes: [("title", "t")] }), (3, Text("x")), (3, Comment("c")), "#,
            r#"(2, Element { name: "p", attributes: [("title", "t")] }), (3, Text("x"))]"#,
        )
    );
    assert_eq!(format!("{:?}", tree.root()), "Document");
    let nodes: Vec<_> = tree.root().descendants().collect();
    assert_eq!(nodes[1], nodes[3].parent().unwrap());
    assert_ne!(nodes[4], nodes[7]);
    assert_ne!(tree.root(), again.root());
    let different: HashSet<_> = nodes.iter().chain(&nodes).collect();
    assert_eq!(different.len(), nodes.len());
    assert_eq!(Options::default(), Options::default());
    assert_ne!(Options::default(), div());
}

#[test]
fn a_deep_tree_is_shown() {
    let page = "<div>".repeat(50_000);
    let tree = Tree::parse(page.as_bytes(), &div()).unwrap();
    assert!(format!("{tree:?}").contains("(49999, Element"));
}

#[test]
fn parse_errors_are_values() {
    let found = errors(b"<p>&\0<p", &div()).unwrap();
    let told: Vec<_> = found.iter().map(|it| (it.at, it.code.text())).collect();
    let wanted = [
        (4, "unexpected-null-character"),
        (4, "tree-in-body"),
        (7, "eof-in-tag"),
    ];
    assert_eq!(told, wanted);
    assert_eq!(found[2].code.number(), 17);
    assert_eq!(found[2].to_string(), "7 eof-in-tag");
    assert_eq!(errors(b"<p>", &div()).unwrap(), []);
    assert_eq!(errors(b"<svg>", &div()).unwrap_err().at(), Some(0));
}

#[test]
fn texts_longer_than_any_guess_are_made() {
    let page = "<b><div>".repeat(300);
    let tree = text(Task::Tree, page.as_bytes(), &div()).unwrap();
    assert!(tree.len() > page.len() * 20);
    let nodes = "<p>".repeat(1000);
    let tree = Tree::parse(nodes.as_bytes(), &div()).unwrap();
    assert_eq!(tree.root().descendants().count(), 1000);
}

#[test]
fn pieces_are_gathered() {
    let mut parser = Parser::new(div());
    for piece in PAGE.chunks(1) {
        parser.feed(piece);
    }
    let tree = parser.finish().unwrap();
    assert_eq!(tree.root().text_content(), "xone twono link");
    assert_eq!(
        tree.root()
            .descendants()
            .filter(|node| node.kind() == Kind::Comment)
            .count(),
        1
    );
}

#[test]
fn refusals_have_places() {
    let refused = Tree::parse(b"a<svg>", &Options::default()).err().unwrap();
    assert_eq!(
        refused,
        Error {
            status: 2,
            detail: 2,
            at: 1
        }
    );
    assert_eq!(refused.to_string(), "OutOfProfile svg at 1");
    assert_eq!(refused.kind(), ErrorKind::OutOfProfile);
    assert_eq!((refused.at(), refused.detail()), (Some(1), Some("svg")));
    assert_eq!(
        text(Task::Tree, b"a\xff", &div()).unwrap_err().to_string(),
        "NotUtf8 at 1"
    );
    let replaced = Options {
        bad_bytes: BadBytes::Replace,
        ..div()
    };
    assert_eq!(
        text(Task::Tree, b"a\xff", &replaced).unwrap(),
        "| \"a\u{FFFD}\"\n"
    );
    let context = Options {
        context: "svg",
        ..Options::default()
    };
    let refused = text(Task::Tree, b"", &context).unwrap_err();
    assert_eq!(refused.name(), "BadContext");
    assert_eq!(refused.kind(), ErrorKind::BadContext);
    assert_eq!((refused.at(), refused.detail()), (None, None));
    let quirks = Options {
        quirks: "public-is a\n!",
        ..Options::default()
    };
    let refused = text(Task::Tree, b"", &quirks).unwrap_err();
    assert_eq!(refused.kind(), ErrorKind::BadQuirks);
    assert_eq!((refused.at(), refused.line()), (None, Some(2)));
    assert_eq!(refused.to_string(), "BadQuirks line 2");
    assert_eq!(Table::read("[").unwrap_err().to_string(), "BadTable Json");
    let unknown = Error {
        status: 99,
        detail: 99,
        at: 0,
    };
    assert_eq!(unknown.kind(), ErrorKind::Other);
    assert_eq!(unknown.to_string(), "?");
}

#[test]
fn pages_are_read_as_browsers_read_them() {
    let page = b"<!doctype html public '-//w3c//dtd html 3.2//'><p><table>&copy;";
    let core = Options {
        entities: Table::core(),
        quirks: "",
        ..Options::default()
    };
    let html = |options: &Options| {
        let html = text(Task::Write, page, options).unwrap();
        html[html.find("<p>").unwrap()..html.find("</body>").unwrap()].to_string()
    };
    assert_eq!(html(&Options::default()), "<p>©<table></table></p>");
    assert_eq!(html(&core), "<p></p>&amp;copy;<table></table>");
    let own = Table::read(r#"{"&copy;": {"codepoints": [99], "characters": "c"}}"#).unwrap();
    let own = Options {
        entities: &own,
        ..Options::default()
    };
    assert_eq!(html(&own), "<p>c<table></table></p>");
    assert_ne!(Options::default().keys, 0);
    assert_eq!(Options::default().keys, Options::default().keys);
}

#[test]
fn the_standard_table_is_left_out_where_nothing_refers_to_it() {
    let json = include_str!(concat!(env!("JEANZIRCON_LISTS"), "/entities.json"));
    let own = Table::read(json).unwrap();
    assert_eq!(own, *Table::standard());
    assert_ne!(own, *Table::core());
    let tasks = [Task::Tree, Task::Errors, Task::Write, Task::Plain];
    for page in [
        "<p title='\"<'>x\u{A0}y</p>",
        "<xmp>copy;</xmp>",
        "<p>&copy",
        "x &amp y&&eacute<a b='&copy=&notit;'>&zz;&",
    ] {
        for task in tasks {
            let given = Options {
                entities: &own,
                ..div()
            };
            let wanted = text(task, page.as_bytes(), &given);
            assert_eq!(text(task, page.as_bytes(), &div()), wanted);
        }
    }
}

#[test]
fn one_parse_gives_all() {
    for page in [PAGE, b"", b"<p>&\0<p", "<b><div>".repeat(300).as_bytes()] {
        for options in [Options::default(), div()] {
            let all = Page::parse(page, &options).unwrap();
            let tree = Tree::parse(page, &options).unwrap();
            assert_eq!(format!("{:?}", all.tree), format!("{tree:?}"));
            assert_eq!(all.errors, errors(page, &options).unwrap());
            let lines: String = all.errors.iter().map(|it| format!("{it}\n")).collect();
            assert_eq!(lines, text(Task::Errors, page, &options).unwrap());
            assert_eq!(all.html, text(Task::Write, page, &options).unwrap());
        }
    }
    let refused = Page::parse(b"a<svg>", &div()).unwrap_err();
    assert_eq!(refused.to_string(), "OutOfProfile svg at 1");
}

#[test]
fn plain_fragments_are_told() {
    assert!(is_plain(b"<p>a<b>c</b></p>", &div()).unwrap());
    assert!(!is_plain(b"<form><div></form><form>x", &div()).unwrap());
}

#[test]
fn the_library_has_the_version_of_the_crate() {
    assert_eq!(version(), env!("CARGO_PKG_VERSION"));
}

#[test]
fn lines_are_found_once() {
    let page = b"<p>\xc3\xa9\r\n\r<br/>".repeat(30);
    let lines = Lines::new(&page);
    let found: Vec<_> = [0, 5, 7, 8, 256, 999]
        .iter()
        .map(|&at| lines.line_column(at))
        .collect();
    assert_eq!(found, [(1, 1), (1, 5), (2, 1), (3, 1), (41, 2), (61, 6)]);
}

#[test]
fn the_quirks_list_is_left_out_where_it_does_not_matter() {
    let own = format!("{QUIRKS}public-is an identifier of no page");
    let by_own = Options {
        quirks: &own,
        ..Options::default()
    };
    let mut are_quirky = 0;
    for before in ["", " \r<?xml?>", "<?", "<!-- c -->", "&#32;", "\u{FEFF}", "<p>", "a", "<"] {
        for public in ["", "PUBLIC 'htmL'", "public\"-//W3C//dtd HTML 3.2//x\"", "PUBLIC 'x'"] {
            for more in [">", "\"html\">", "", " 'http://x/'>"] {
                let page = format!("{before}<!DocType html {public}{more}<p><table>");
                let tree = |given| text(Task::Tree, page.as_bytes(), &given);
                let found = tree(Options::default());
                assert_eq!(found, tree(by_own), "{page}");
                are_quirky += usize::from(found.unwrap().ends_with("      <table>\n"));
            }
        }
    }
    assert!(are_quirky > 20);
}
