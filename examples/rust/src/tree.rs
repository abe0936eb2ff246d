//! The tree of an input, which lends its nodes and their words.

use crate::{parsed, raw, Error, Options, WANT_ORIGINS};
use std::hash::{Hash, Hasher};
use std::{fmt, iter, ptr, str};

/// No node.
const NONE: u32 = u32::MAX;

/// What a word ends with, and the words of a node.
const WORD_END: u8 = 0xFF;
const END: u8 = 0xFE;

/// A node in its place in tree order, where its first child is the node after it; the root is at 0.
#[derive(Clone, Copy)]
#[repr(C, packed(4))]
struct Spot {
    /// Where its words begin. They end where those of the node after it begin.
    words: u64,
    kind: u32,
    /// The places of its parent, of the root NONE, and of the first node past all inside it.
    parent: u32,
    past: u32,
}

/// The tree of an input. It owns all that it lends.
pub struct Tree {
    spots: Vec<Spot>,
    words: Vec<u8>,
    /// The bytes from which those inside the root come, where that was asked for.
    begins: Vec<Option<u64>>,
}

impl Tree {
    /// Parses an input.
    pub fn parse(input: &[u8], options: &Options) -> Result<Tree, Error> {
        Ok(parsed(0, input, options)?.tree)
    }

    /// Parses an input, and keeps where its nodes come from (`Node::place`), which makes the parse dearer.
    pub fn parse_places(input: &[u8], options: &Options) -> Result<Tree, Error> {
        Ok(parsed(WANT_ORIGINS, input, options)?.tree)
    }

    /// Of the library's rows, which are in tree order, their words, and how they came to be where that was asked for.
    pub(crate) fn of(
        rows: &[raw::Row],
        words: Vec<u8>,
        origins: &[raw::Origin],
        is_fragment: bool,
    ) -> Tree {
        let (number, kind) = if is_fragment { (1, 2) } else { (0, 0) };
        let mut spots = Vec::with_capacity(rows.len() + 1);
        spots.push(Spot {
            words: 0,
            kind,
            parent: NONE,
            past: NONE,
        });
        // The nodes that the next one may be in, each by its number and its place.
        let mut open = vec![(number, 0)];
        let mut at = 0;
        for (row, place) in rows.iter().zip(1..) {
            let parent = leave(&mut open, &mut spots, place, |number| number == row.parent);
            spots.push(Spot {
                words: at as u64,
                kind: row.kind,
                parent,
                past: NONE,
            });
            open.push((row.number, place));
            at += 1 + raw::find(END, &words[at..]).expect("a node's words end");
        }
        leave(&mut open, &mut spots, rows.len() as u32 + 1, |_| false);
        Tree {
            spots,
            words,
            begins: begins(rows, origins),
        }
    }

    /// The document, or the root element of a fragment.
    pub fn root(&self) -> Node<'_> {
        Node {
            tree: self,
            place: 0,
        }
    }
}

/// Leaves the open nodes up to one that is wanted, whose place it returns; all inside the others is before this place.
fn leave(
    open: &mut Vec<(u32, u32)>,
    spots: &mut [Spot],
    past: u32,
    is_wanted: impl Fn(u32) -> bool,
) -> u32 {
    while let Some(&(number, place)) = open.last() {
        if is_wanted(number) {
            return place;
        }
        spots[place as usize].past = past;
        open.pop();
    }
    NONE
}

/// The bytes from which nodes come, in tree order. An element that was made again of another has a higher number than that.
fn begins(rows: &[raw::Row], origins: &[raw::Origin]) -> Vec<Option<u64>> {
    let numbers = || rows.iter().zip(origins).map(|(row, _)| row.number as usize);
    let mut order = vec![None; numbers().max().map_or(0, |it| it + 1)];
    for (number, at) in numbers().zip(0..) {
        order[number] = Some(at);
    }
    let mut begins = vec![None; origins.len()];
    for at in order.iter().flatten().copied() {
        let origin: &raw::Origin = &origins[at];
        begins[at] = match origin.in_source {
            0 => order
                .get(origin.again_of as usize)
                .copied()
                .flatten()
                .and_then(|it: usize| begins[it]),
            _ => Some(origin.at),
        };
    }
    begins
}

/// The nodes in tree order, each after how deep it is.
impl fmt::Debug for Tree {
    fn fmt(&self, f: &mut fmt::Formatter) -> fmt::Result {
        let mut depths = vec![0; self.spots.len()];
        let nodes = self.root().descendants().map(|node| {
            let depth = depths[node.spot().parent as usize];
            depths[node.place as usize] = depth + 1;
            (depth, node)
        });
        f.debug_list().entries(nodes).finish()
    }
}

/// The kind of a node.
#[derive(Clone, Copy, Debug, PartialEq, Eq, Hash)]
pub enum Kind {
    Document,
    Doctype,
    Element,
    Comment,
    Text,
}

/// What a doctype says; a part that it leaves out is empty.
#[derive(Clone, Copy, Debug, PartialEq, Eq, Hash)]
pub struct Doctype<'a> {
    pub name: &'a str,
    pub public: &'a str,
    pub system: &'a str,
}

/// A node of a tree, which it is lent from. It equals itself alone, not another of the same name or text.
#[derive(Clone, Copy)]
pub struct Node<'a> {
    tree: &'a Tree,
    place: u32,
}

impl PartialEq for Node<'_> {
    fn eq(&self, other: &Self) -> bool {
        ptr::eq(self.tree, other.tree) && self.place == other.place
    }
}

impl Eq for Node<'_> {}

impl Hash for Node<'_> {
    fn hash<H: Hasher>(&self, state: &mut H) {
        ptr::hash(self.tree, state);
        self.place.hash(state);
    }
}

impl fmt::Debug for Node<'_> {
    fn fmt(&self, f: &mut fmt::Formatter) -> fmt::Result {
        let text = self.text().unwrap_or_default();
        match self.kind() {
            Kind::Document => f.write_str("Document"),
            Kind::Doctype => self.doctype().map_or(Ok(()), |it| fmt::Debug::fmt(&it, f)),
            Kind::Element => f
                .debug_struct("Element")
                .field("name", &self.name().unwrap_or_default())
                .field("attributes", &self.attributes().collect::<Vec<_>>())
                .finish(),
            Kind::Comment => f.debug_tuple("Comment").field(&text).finish(),
            Kind::Text => f.debug_tuple("Text").field(&text).finish(),
        }
    }
}

impl<'a> Node<'a> {
    fn spot(self) -> Spot {
        self.tree.spots[self.place as usize]
    }

    /// The node in a place, if there is one.
    fn at(self, place: u32) -> Option<Node<'a>> {
        let tree = self.tree;
        ((place as usize) < tree.spots.len()).then_some(Node { tree, place })
    }

    pub fn kind(self) -> Kind {
        [
            Kind::Document,
            Kind::Doctype,
            Kind::Element,
            Kind::Comment,
            Kind::Text,
        ][self.spot().kind as usize]
    }

    pub fn parent(self) -> Option<Node<'a>> {
        self.at(self.spot().parent)
    }

    pub fn first_child(self) -> Option<Node<'a>> {
        self.descendants().next()
    }

    pub fn next(self) -> Option<Node<'a>> {
        let next = self.at(self.spot().past)?;
        (next.spot().parent == self.spot().parent).then_some(next)
    }

    /// The byte of the input from which it comes: where its start tag, its comment, its doctype or its first character begins; of an
    /// element that was made again, as where formatting elements are misnested, the start tag of the first of these. None of what the
    /// parser added, of the root, and of each node of a tree that is not of `Tree::parse_places`.
    pub fn place(self) -> Option<u64> {
        let begins = &self.tree.begins;
        *begins.get((self.place as usize).checked_sub(1)?)?
    }

    /// The words of a node of one of these kinds; of any other none.
    fn words(self, kinds: &[Kind]) -> Words<'a> {
        if !kinds.contains(&self.kind()) {
            return Words { left: &[] };
        }
        let words = &self.tree.words;
        let next = self.at(self.place + 1);
        let end = next.map_or(words.len(), |it| it.spot().words as usize);
        Words {
            left: &words[self.spot().words as usize..end],
        }
    }

    /// The name of an element or a doctype.
    pub fn name(self) -> Option<&'a str> {
        self.words(&[Kind::Element, Kind::Doctype]).text()
    }

    /// The name and the identifiers of a doctype.
    pub fn doctype(self) -> Option<Doctype<'a>> {
        let mut words = self.words(&[Kind::Doctype]);
        Some(Doctype {
            name: words.text()?,
            public: words.text()?,
            system: words.text()?,
        })
    }

    /// The characters of a text, or the data of a comment.
    pub fn text(self) -> Option<&'a str> {
        self.words(&[Kind::Text, Kind::Comment]).text()
    }

    fn pairs(self) -> impl Iterator<Item = (&'a [u8], &'a [u8])> {
        let mut words = self.words(&[Kind::Element]);
        words.next(); // the element's name
        iter::from_fn(move || Some((words.next()?, words.next()?)))
    }

    /// The attributes of an element, in their order.
    pub fn attributes(self) -> impl Iterator<Item = (&'a str, &'a str)> {
        self.pairs().map(|(name, value)| (utf8(name), utf8(value)))
    }

    /// The value of an element's attribute of this name.
    pub fn attribute(self, name: &str) -> Option<&'a str> {
        let found = self.pairs().find(|pair| pair.0 == name.as_bytes());
        found.map(|(_, value)| utf8(value))
    }

    /// The children of a node.
    pub fn children(self) -> impl Iterator<Item = Node<'a>> {
        iter::successors(self.first_child(), |node| node.next())
    }

    /// The nodes inside a node, in tree order.
    pub fn descendants(self) -> impl Iterator<Item = Node<'a>> {
        let tree = self.tree;
        (self.place + 1..self.spot().past).map(move |place| Node { tree, place })
    }

    /// The characters of all texts inside a node.
    pub fn text_content(self) -> String {
        self.descendants()
            .filter(|node| node.kind() == Kind::Text)
            .filter_map(Node::text)
            .collect()
    }
}

/// What is left of a node's words, each with its end.
struct Words<'a> {
    left: &'a [u8],
}

impl<'a> Words<'a> {
    fn next(&mut self) -> Option<&'a [u8]> {
        let end = raw::find(WORD_END, self.left)?;
        let word = &self.left[..end];
        self.left = &self.left[end + 1..];
        Some(word)
    }

    fn text(&mut self) -> Option<&'a str> {
        self.next().map(utf8)
    }
}

fn utf8(word: &[u8]) -> &str {
    str::from_utf8(word).expect("the library writes UTF-8")
}

/// The links of a page, each with its text. The time is that of the nodes and of the texts that are given, however they are
/// nested.
pub fn links(tree: &Tree) -> impl Iterator<Item = (&str, String)> {
    // The texts one after another: those inside a node are from where it begins to where the first node past all inside it begins.
    let mut texts = String::new();
    let mut begins = vec![0];
    for node in tree.root().descendants() {
        begins.push(texts.len());
        if node.kind() == Kind::Text {
            texts.push_str(node.text().unwrap_or_default());
        }
    }
    begins.push(texts.len());
    let anchors = tree
        .root()
        .descendants()
        .filter(|node| node.name() == Some("a"));
    anchors.filter_map(move |node| {
        let inside = begins[node.place as usize]..begins[node.spot().past as usize];
        Some((node.attribute("href")?, texts[inside].to_string()))
    })
}
