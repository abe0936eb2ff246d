//! The Standard's lists, and tables of character references.

use crate::{raw, written, Error};
use std::borrow::Cow;
use std::fmt;
use std::sync::OnceLock;

/// The Standard's table, in either form.
const ENTITIES: &[u8] = include_bytes!(concat!(env!("OUT_DIR"), "/entities"));

/// What a flat form begins with, and no JSON.
const FLAT: u8 = 1;

/// The Standard's quirks list.
pub const QUIRKS: &str = include_str!(concat!(env!("JEANZIRCON_LISTS"), "/quirks.txt"));

/// A table of character references, in the form in which the library reads it in a sixtieth of the time that its JSON takes.
#[derive(Clone)]
pub struct Table(Form);

#[derive(Clone)]
enum Form {
    Core,
    Standard,
    Own(Vec<u8>),
}

impl Table {
    /// That of a JSON text.
    pub fn read(json: &str) -> Result<Table, Error> {
        Table::of(json.as_bytes())
    }

    fn of(json: &[u8]) -> Result<Table, Error> {
        let flat = written(json.len() + 256, |output, answer| {
            // SAFETY: the memory is Rust's and does not overlap, and lives through the call.
            unsafe {
                raw::jz_table(
                    json.as_ptr(),
                    json.len(),
                    output.as_mut_ptr(),
                    output.capacity(),
                    answer,
                )
            };
        })?;
        Ok(Table(Form::Own(flat)))
    }

    fn flat(&self) -> &[u8] {
        static STANDARD: OnceLock<Table> = OnceLock::new();
        match &self.0 {
            Form::Core => &[],
            Form::Standard if ENTITIES[0] == FLAT => ENTITIES,
            Form::Standard => STANDARD
                .get_or_init(|| Table::of(ENTITIES).expect("the Standard's table is read"))
                .flat(),
            Form::Own(flat) => flat,
        }
    }

    /// The form in which it is handed in with an input: of the Standard's what the input needs.
    pub(crate) fn for_input(&self, input: &[u8]) -> Cow<'_, [u8]> {
        match self.0 {
            Form::Standard => Cow::Owned(entities_for(input)),
            _ => Cow::Borrowed(self.flat()),
        }
    }

    /// The Standard's, which browsers have.
    pub fn standard() -> &'static Table {
        &Table(Form::Standard)
    }

    /// The five references that serializers write: `&amp;`, `&lt;`, `&gt;`, `&quot;` and `&nbsp;`.
    pub fn core() -> &'static Table {
        &Table(Form::Core)
    }
}

/// A number of the first two letters of a name, in whose order the keys are; 0 where it has no two.
fn letters(name: &[u8]) -> usize {
    let &[first, second, ..] = name else { return 0 };
    usize::from(first & 63) << 6 | usize::from(second & 63)
}

/// The entries of a flat form whose names have the same first two letters stand together: these letters, and the entries.
fn parts_of(flat: &[u8]) -> Vec<(usize, &[u8])> {
    let mut parts: Vec<(usize, &[u8])> = Vec::new();
    let (mut begin, mut at) = (1, 1);
    while let Some(end) = flat[at..].iter().position(|it| matches!(it, 1 | 2)) {
        let next = at + end + 1 + 4 * usize::from(flat[at + end]);
        let letters = letters(&flat[at + 1..]);
        match parts.last_mut() {
            Some(part) if part.0 == letters => part.1 = &flat[begin..next],
            _ => {
                begin = at;
                parts.push((letters, &flat[at..next]));
            }
        }
        at = next;
    }
    parts
}

/// What an input needs of the Standard's table: none where no `&` begins another name than five, each with a `;`, else the entries that begin as
/// its names do.
fn entities_for(input: &[u8]) -> Vec<u8> {
    static PARTS: OnceLock<Vec<(usize, &[u8])>> = OnceLock::new();
    let (mut wanted, mut is_core, mut rest) = ([false; 4096], true, input);
    while let Some(at) = raw::find(b'&', rest) {
        rest = &rest[at + 1..];
        let is_name = rest.first().is_some_and(u8::is_ascii_alphanumeric);
        wanted[letters(rest)] |= is_name;
        is_core = is_core && (!is_name || ["amp;", "lt;", "gt;", "quot;", "nbsp;"].iter().any(|it| rest.starts_with(it.as_bytes())));
    }
    if is_core {
        return Vec::new();
    }
    let parts = PARTS.get_or_init(|| parts_of(Table::standard().flat()));
    let mut entries = vec![FLAT];
    for (_, part) in parts.iter().filter(|it| wanted[it.0]) {
        entries.extend_from_slice(part);
    }
    entries
}

/// The quirks list that is handed in with an input: where the Standard's does not matter, none.
pub(crate) fn quirks_for<'a>(list: &'a str, input: &[u8]) -> &'a str {
    if list == QUIRKS && !quirks_matter(input) { "" } else { list }
}

/// Whether a text begins so, in upper or lower letters.
fn begins(text: &[u8], with: &[u8]) -> bool {
    text.get(..with.len()).is_some_and(|front| front.eq_ignore_ascii_case(with))
}

/// Whether the Standard's quirks list may matter to an input: where it begins, after white space and what is in `<? >`, with a doctype in which an
/// identifier of the list stands after a quote, or with what is no doctype, start tag, letter or digit.
fn quirks_matter(input: &[u8]) -> bool {
    let mut rest = input;
    while rest.starts_with(b"<?") || rest.first().is_some_and(u8::is_ascii_whitespace) {
        let end = if rest[0] == b'<' { raw::find(b'>', rest) } else { Some(0) };
        let Some(end) = end else { return false };
        rest = &rest[end + 1..];
    }
    if !begins(rest, b"<!doctype") {
        let rest = rest.strip_prefix(b"<").filter(|it| !it.is_empty()).unwrap_or(rest);
        return rest.first().is_some_and(|it| !it.is_ascii_alphanumeric());
    }
    let doctype = &rest[..raw::find(b'>', rest).unwrap_or(rest.len())];
    let mut quoted = (1..=doctype.len()).filter(|&at| matches!(doctype[at - 1], b'"' | b'\''));
    quoted.any(|at| is_listed(&doctype[at..]))
}

/// Whether an identifier of the Standard's quirks list begins here: each line has one, after a space.
fn is_listed(text: &[u8]) -> bool {
    static LISTED: OnceLock<Vec<&str>> = OnceLock::new();
    let all = || QUIRKS.lines().filter_map(|line| Some(line.split_once(' ')?.1)).collect();
    LISTED.get_or_init(all).iter().any(|id| begins(text, id.as_bytes()))
}

impl PartialEq for Table {
    fn eq(&self, other: &Self) -> bool {
        self.flat() == other.flat()
    }
}

impl Eq for Table {}

impl fmt::Debug for Table {
    fn fmt(&self, f: &mut fmt::Formatter) -> fmt::Result {
        write!(f, "Table({} bytes)", self.flat().len())
    }
}
