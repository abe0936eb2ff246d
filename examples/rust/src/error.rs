//! Why an input is refused, and the parse errors of one that is not.

use crate::codes::TEXTS;
use crate::raw;
use std::{error, fmt};

/// What a refusal is of.
#[derive(Clone, Copy, Debug, PartialEq, Eq, Hash)]
#[non_exhaustive]
pub enum ErrorKind {
    NotUtf8,
    OutOfProfile,
    TooLarge,
    TooManyNodes,
    TooDeep,
    Memory,
    BadContext,
    BadTable,
    BadQuirks,
    BadLimits,
    BadNumber,
    Other,
}

/// Why an input is refused: a number of `jeanzircon.h`, what it names, and the byte (of a quirks list the line).
#[derive(Clone, Copy, Debug, PartialEq, Eq, Hash)]
pub struct Error {
    pub status: u32,
    pub detail: u32,
    pub at: u64,
}

const STATUSES: [&str; 18] = [
    "Ok",
    "NotUtf8",
    "OutOfProfile",
    "TooLarge",
    "TooManyNodes",
    "TooDeep",
    "Memory",
    "Read",
    "BadContext",
    "BadTable",
    "BadQuirks",
    "BadLimits",
    "Write",
    "TooShort",
    "NotText",
    "BadNumber",
    "Null",
    "BadSize",
];
const ELEMENTS: [&str; 10] = [
    "", "math", "svg", "template", "select", "option", "optgroup", "frame", "frameset", "keygen",
];
const CAUSES: [&str; 6] = ["", "Json", "Shape", "Key", "Codepoints", "Characters"];

impl Error {
    pub(crate) fn of(answer: &raw::Answer) -> Error {
        Error {
            status: answer.status,
            detail: answer.detail,
            at: answer.at,
        }
    }

    pub(crate) fn of_page(answer: &raw::PageAnswer) -> Error {
        Error {
            status: answer.status,
            detail: answer.detail,
            at: answer.at,
        }
    }

    pub(crate) fn memory() -> Error {
        Error {
            status: 6,
            detail: 0,
            at: 0,
        }
    }

    pub fn kind(&self) -> ErrorKind {
        match self.status {
            1 => ErrorKind::NotUtf8,
            2 => ErrorKind::OutOfProfile,
            3 => ErrorKind::TooLarge,
            4 => ErrorKind::TooManyNodes,
            5 => ErrorKind::TooDeep,
            6 => ErrorKind::Memory,
            8 => ErrorKind::BadContext,
            9 => ErrorKind::BadTable,
            10 => ErrorKind::BadQuirks,
            11 => ErrorKind::BadLimits,
            15 => ErrorKind::BadNumber,
            _ => ErrorKind::Other,
        }
    }

    /// Its name, as `NotUtf8`.
    pub fn name(&self) -> &'static str {
        STATUSES.get(self.status as usize).copied().unwrap_or("?")
    }

    /// The byte of the input, from 0, where it is refused.
    pub fn at(&self) -> Option<u64> {
        matches!(self.status, 1..=5).then_some(self.at)
    }

    /// The line of the quirks list, from 1, where that is refused.
    pub fn line(&self) -> Option<u64> {
        (self.status == 10).then_some(self.at)
    }

    /// The element that is out of the profile, or what is wrong with the table of character references.
    pub fn detail(&self) -> Option<&'static str> {
        let names: &[&str] = match self.status {
            2 => &ELEMENTS,
            9 => &CAUSES,
            _ => &[],
        };
        names.get(self.detail as usize).copied()
    }
}

/// As the program says it: `NotUtf8 at 1`, `OutOfProfile svg at 4`, `BadQuirks line 2`, `Memory`.
impl fmt::Display for Error {
    fn fmt(&self, f: &mut fmt::Formatter) -> fmt::Result {
        f.write_str(self.name())?;
        if let Some(detail) = self.detail() {
            write!(f, " {detail}")?;
        }
        if let Some(at) = self.at() {
            write!(f, " at {at}")?;
        }
        if let Some(line) = self.line() {
            write!(f, " line {line}")?;
        }
        Ok(())
    }
}

impl error::Error for Error {}

/// The code of a parse error.
#[repr(transparent)]
#[derive(Clone, Copy, PartialEq, Eq, Hash)]
pub struct ErrorCode(u32);

impl ErrorCode {
    /// As the HTML Standard spells it, as `eof-in-tag`; a code of the tree rules is `tree-` and the insertion mode.
    pub fn text(self) -> &'static str {
        TEXTS.get(self.0 as usize).copied().unwrap_or("?")
    }

    /// Its number in `jeanzircon.h`.
    pub fn number(self) -> u32 {
        self.0
    }
}

impl fmt::Display for ErrorCode {
    fn fmt(&self, f: &mut fmt::Formatter) -> fmt::Result {
        f.write_str(self.text())
    }
}

impl fmt::Debug for ErrorCode {
    fn fmt(&self, f: &mut fmt::Formatter) -> fmt::Result {
        f.write_str(self.text())
    }
}

/// A parse error, which refuses nothing, as the library writes it.
#[repr(C)]
#[derive(Clone, Copy, Debug, PartialEq, Eq, Hash)]
pub struct ParseError {
    /// Its byte in the input, from 0.
    pub at: u64,
    pub code: ErrorCode,
}

impl ParseError {
    /// That of a line of `Task::Errors`.
    pub(crate) fn of_line(line: &str) -> ParseError {
        let (at, code) = line.split_once(' ').expect("a byte and a code");
        let number = TEXTS.iter().position(|it| *it == code);
        ParseError {
            at: at.parse().expect("a byte"),
            code: ErrorCode(number.expect("a code of the header") as u32),
        }
    }
}

/// As the program says it: `2 eof-in-tag`.
impl fmt::Display for ParseError {
    fn fmt(&self, f: &mut fmt::Formatter) -> fmt::Result {
        write!(f, "{} {}", self.at, self.code)
    }
}
