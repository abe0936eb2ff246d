//! Writes a page whose hashes meet in one of so many groups where the keys of the hashes are known, those of Keys::for_tests, so that each
//! look-up passes all that are there. A hash is Rust's own (SipHash-1-3), fed a secret of 16 bytes 0 and then what is hashed.
//!
//!   known-keys attributes COUNT GROUPS > page.html     one tag: attributes whose names meet in the table of names
//!   known-keys elements COUNT GROUPS > page.html       elements <b b=..> that meet in the list of active formatting elements
//!
//! With GROUPS 1 nothing is sought: all are taken as they come.
use std::{collections::hash_map::DefaultHasher, env, hash::Hasher};

/// The number of the known name b (crates/names/src/tag.rt).
const B: u64 = 7;

fn hash(words: &[u64], rest: &[u8]) -> u64 {
    let mut hasher = DefaultHasher::new();
    hasher.write(&[0; 16]);
    words.iter().for_each(|it| hasher.write_u64(*it));
    hasher.write(rest);
    hasher.finish()
}

/// Where the table of names has a name (Rust's Hash of a str adds a byte FF).
fn name_number(name: &[u8]) -> u64 {
    let found = hash(&[], &[name, &[0xFF]].concat());
    (found ^ found >> 32) as u32 as u64
}

/// Where the list has an element b with one attribute b (crates/hopen/src/hashes.rt).
fn entry_number(value: &[u8]) -> u64 {
    hash(&[B, hash(&[B], value)], &[]) as u32 as u64 + 2
}

fn main() {
    let words: Vec<String> = env::args().collect();
    let (count, groups): (usize, u64) = (words[2].parse().unwrap(), words[3].parse().unwrap());
    let (number, begin, end) = match &*words[1] {
        "elements" => (entry_number as fn(&[u8]) -> u64, "<b b=", ">"),
        _ => (name_number as fn(&[u8]) -> u64, " ", ""),
    };
    // (seven letters for each number, its last digit to the base of 26 first)
    let texts = (0..).map(|it: u64| [0, 1, 2, 3, 4, 5, 6].map(|at| b'a' + (it / 26u64.pow(at) % 26) as u8));
    let found = texts.filter(|it| number(it) % groups == 0).take(count);
    let page: String = found.map(|it| format!("{begin}{}{end}", String::from_utf8_lossy(&it))).collect();
    println!("{}", if end.is_empty() { format!("<p{page}>") } else { page });
}
