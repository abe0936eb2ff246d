//! Safe Rust over the library for C: texts of an input, its tree, and why it is refused. It is read with the Standard's lists and
//! under keys of the system, unless the options say otherwise.
//!
//! The library's functions are proved; this crate is not, and keeps what they require: slices are Rust's, and no buffer overlaps
//! another.

mod codes;
mod error;
mod lines;
mod raw;
mod table;
mod tree;

pub use error::{Error, ErrorCode, ErrorKind, ParseError};
pub use lines::Lines;
use table::quirks_for;
pub use table::{Table, QUIRKS};
pub use tree::{links, Doctype, Kind, Node, Tree};

use std::collections::hash_map::RandomState;
use std::hash::{BuildHasher, Hasher};
use std::mem::size_of;
use std::sync::OnceLock;

/// The version of the library, as `0.1.0`.
pub fn version() -> String {
    // SAFETY: it takes nothing.
    let number = unsafe { raw::jz_version() };
    format!(
        "{}.{}.{}",
        number / 10_000,
        number / 100 % 100,
        number % 100
    )
}

/// What is made of an input.
#[derive(Clone, Copy, Debug, PartialEq, Eq)]
pub enum Task {
    Tokens,
    Tree,
    Errors,
    Write,
    Plain,
    PlainDocument,
}

/// What becomes of bytes that are not UTF-8.
#[derive(Clone, Copy, Debug, PartialEq, Eq)]
pub enum BadBytes {
    Refuse,
    Replace,
}

/// Keys of the system, drawn once a program.
fn keys() -> u128 {
    static KEYS: OnceLock<u128> = OnceLock::new();
    let half = || u128::from(RandomState::new().build_hasher().finish());
    *KEYS.get_or_init(|| half() << 64 | half())
}

/// What is given with the input. `Options::default()` reads a document as a browser does, under the greatest limits.
#[derive(Clone, Copy, Debug, PartialEq, Eq)]
pub struct Options<'a> {
    /// The name of the element in which a fragment is; empty for a document.
    pub context: &'a str,
    /// The table of character references, and the quirks list: the Standard's by default.
    pub entities: &'a Table,
    pub quirks: &'a str,
    pub nodes: u64,
    pub open: u64,
    /// How many bytes are read at a time. No answer depends on it.
    pub piece: u64,
    /// 16 random bytes, by default the system's: against keys that are known a page can be made that takes the square of its
    /// length. No answer depends on them.
    pub keys: u128,
    /// How `Task::Write` escapes: 1 or 2.
    pub escaping: u32,
    pub bad_bytes: BadBytes,
}

impl Default for Options<'_> {
    fn default() -> Self {
        Options {
            context: "",
            entities: Table::standard(),
            quirks: QUIRKS,
            nodes: 16_777_216,
            open: 1_048_576,
            piece: 65_536,
            keys: keys(),
            escaping: 1,
            bad_bytes: BadBytes::Refuse,
        }
    }
}

impl Options<'_> {
    /// What is handed in with an input, with these entries.
    fn raw(&self, input: &[u8], entities: &[u8]) -> raw::Options {
        raw::Options {
            size: size_of::<raw::Options>(),
            context: raw::Bytes::of(self.context.as_bytes()),
            entities: raw::Bytes::of(entities),
            quirks: raw::Bytes::of(quirks_for(self.quirks, input).as_bytes()),
            nodes: self.nodes,
            open: self.open,
            piece: self.piece,
            key_low: self.keys as u64,
            key_high: (self.keys >> 64) as u64,
            escaping: self.escaping,
            bad_bytes: self.bad_bytes as u32,
        }
    }
}

/// The status of too little room, which the functions here answer themselves.
const TOO_SHORT: u32 = 13;

/// A vector with room for so many, or with none where there is not so much memory. What is not written takes none.
fn with_room<T>(count: usize) -> Vec<T> {
    let mut made = Vec::new();
    let _ = made.try_reserve_exact(count);
    made
}

/// The bytes that a call writes, which is made again where they want more room.
fn written(
    mut room: usize,
    call: impl Fn(&mut Vec<u8>, &mut raw::Answer),
) -> Result<Vec<u8>, Error> {
    let mut answer = raw::Answer::default();
    loop {
        let mut output = with_room::<u8>(room);
        call(&mut output, &mut answer);
        match answer.status {
            0 => {
                // SAFETY: the library has written so many.
                unsafe { output.set_len(answer.length as usize) };
                output.shrink_to_fit();
                return Ok(output);
            }
            TOO_SHORT if room != answer.length as usize => room = answer.length as usize,
            TOO_SHORT => return Err(Error::memory()),
            _ => return Err(Error::of(&answer)),
        }
    }
}

fn utf8(bytes: Vec<u8>) -> String {
    String::from_utf8(bytes).expect("the library writes UTF-8")
}

/// The text of a task.
pub fn text(task: Task, input: &[u8], options: &Options) -> Result<String, Error> {
    let entities = options.entities.for_input(input);
    let given = options.raw(input, &entities);
    let bytes = written(text_room(task, input), |output, answer| {
        // SAFETY: the memory is Rust's and does not overlap, and lives through the call.
        unsafe {
            raw::jz_text(
                task as u32,
                input.as_ptr(),
                input.len(),
                &given,
                output.as_mut_ptr(),
                output.capacity(),
                answer,
            )
        };
    })?;
    Ok(utf8(bytes))
}

/// Room for the text of nearly every page.
fn text_room(task: Task, input: &[u8]) -> usize {
    input.len() * if task == Task::Errors { 24 } else { 6 } + 1024
}

/// The parse errors of an input, in the order of their places. They are read from a text, since the tree may take far more memory
/// than its page.
pub fn errors(input: &[u8], options: &Options) -> Result<Vec<ParseError>, Error> {
    let lines = text(Task::Errors, input, options)?;
    Ok(lines.lines().map(ParseError::of_line).collect())
}

/// Whether a fragment is plain in its context: it comes back, as the same nodes, when what is written of it inside an element of the
/// context's name is parsed in that context. `Task::Write` gives that, but in style, script, iframe and noembed: there it escapes the text,
/// which stands in a root without that name, and what comes back is the text as it is (`Node::text`).
pub fn is_plain(fragment: &[u8], options: &Options) -> Result<bool, Error> {
    Ok(text(Task::Plain, fragment, options)? == "plain\n")
}

/// Whether a document is plain: it comes back, as the same nodes, when what `Task::Write` gives is parsed. The options have no context.
pub fn is_plain_document(page: &[u8], options: &Options) -> Result<bool, Error> {
    Ok(text(Task::PlainDocument, page, options)? == "plain\n")
}

/// Gathers an input that comes in pieces. The library reads an input whole, so it is refused at the end and not before.
#[derive(Debug, Default)]
pub struct Parser<'a> {
    input: Vec<u8>,
    options: Options<'a>,
}

impl<'a> Parser<'a> {
    pub fn new(options: Options<'a>) -> Parser<'a> {
        Parser {
            input: Vec::new(),
            options,
        }
    }

    pub fn feed(&mut self, piece: &[u8]) {
        self.input.extend_from_slice(piece);
    }

    pub fn finish(self) -> Result<Tree, Error> {
        Tree::parse(&self.input, &self.options)
    }
}

/// What one parse gives.
#[derive(Debug)]
pub struct Page {
    pub tree: Tree,
    /// In the order of their places.
    pub errors: Vec<ParseError>,
    /// As `Task::Write` makes it.
    pub html: String,
}

impl Page {
    /// Parses an input.
    pub fn parse(input: &[u8], options: &Options) -> Result<Page, Error> {
        parsed(WANT_ERRORS | WANT_HTML, input, options)
    }
}

const WANT_ERRORS: u32 = 1;
const WANT_HTML: u32 = 2;
const WANT_ORIGINS: u32 = 4;

/// The tree of an input, and its errors, its HTML and where its nodes come from where they are wanted.
fn parsed(wants: u32, input: &[u8], options: &Options) -> Result<Page, Error> {
    let entities = options.entities.for_input(input);
    let (given, mut answer) = (options.raw(input, &entities), raw::PageAnswer::default());
    let few = input.len() / 4 + 64;
    let mut rooms = [few, input.len() * 2 + 256, 0, 0, 0];
    if wants & WANT_ERRORS != 0 {
        rooms[2] = few;
    }
    if wants & WANT_HTML != 0 {
        rooms[3] = text_room(Task::Write, input);
    }
    if wants & WANT_ORIGINS != 0 {
        rooms[4] = few;
    }
    loop {
        let mut rows = with_room::<raw::Row>(rooms[0]);
        let mut errors = with_room::<ParseError>(rooms[2]);
        let [mut words, mut html] = [1, 3].map(|it| with_room::<u8>(rooms[it]));
        let mut origins = with_room::<raw::Origin>(rooms[4]);
        // SAFETY: the memory is Rust's and does not overlap, and lives through the call.
        unsafe {
            raw::jz_page(
                wants,
                input.as_ptr(),
                input.len(),
                &given,
                rows.as_mut_ptr(),
                rows.capacity(),
                words.as_mut_ptr(),
                words.capacity(),
                errors.as_mut_ptr(),
                errors.capacity(),
                html.as_mut_ptr(),
                html.capacity(),
                origins.as_mut_ptr(),
                origins.capacity(),
                &mut answer,
            )
        };
        let origin_count = answer.nodes * u64::from(wants / WANT_ORIGINS);
        let needed = [
            answer.nodes,
            answer.words,
            answer.errors,
            answer.text,
            origin_count,
        ];
        let needed = needed.map(|it| it as usize);
        match answer.status {
            0 => {
                // SAFETY: the library has written so many.
                unsafe {
                    rows.set_len(needed[0]);
                    words.set_len(needed[1]);
                    errors.set_len(needed[2]);
                    html.set_len(needed[3]);
                    origins.set_len(needed[4]);
                }
                words.shrink_to_fit();
                errors.shrink_to_fit();
                html.shrink_to_fit();
                return Ok(Page {
                    tree: Tree::of(&rows, words, &origins, !options.context.is_empty()),
                    errors,
                    html: utf8(html),
                });
            }
            TOO_SHORT if rooms != needed => rooms = needed,
            TOO_SHORT => return Err(Error::memory()),
            _ => return Err(Error::of_page(&answer)),
        }
    }
}
