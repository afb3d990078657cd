//! Stretches of plain bytes of every length, and an escape or a `+` at every place among them. The tests make each value
//! themselves, so they know byte for byte what it is read as.

mod beyond;
mod credentials;
mod malformed;
mod names_and_values;
mod random_values;
mod redirects;
mod states;

use crate::support::writing;

/// So many bytes that stand for themselves in every value, whether id, secret, redirect or state. The 89 there are come
/// round and round.
fn plain(length: usize) -> Vec<u8> {
    (0x21..=0x7e).filter(|byte| !b"%+&#:".contains(byte)).cycle().take(length).collect()
}

/// An escape or a `+`, or two side by side, and what they are read as.
type Mark = (&'static str, &'static str);

const MARKS: [Mark; 6] = [("+", " "), ("%7E", "~"), ("%7e", "~"), ("%2B", "+"), ("%25", "%"), ("%26", "&")];

const DOUBLED: [Mark; 4] = [("++", "  "), ("%7A%7a", "zz"), ("+%2b", " +"), ("%254", "%4")];

/// A value as it is written, and the bytes that it is read as.
#[derive(Clone, Debug)]
struct Value {
    written: Vec<u8>,
    read: Vec<u8>,
}

impl Value {
    /// As it stands; it has no `%` and no `+`.
    fn plain(bytes: &[u8]) -> Value {
        Value { written: bytes.to_vec(), read: bytes.to_vec() }
    }

    /// So many plain bytes, with a mark in place of those from here on.
    fn marked(length: usize, at: usize, (written, read): Mark) -> Value {
        let text = plain(length);
        let around = |mark: &str| [&text[..at], mark.as_bytes(), &text[at + read.len()..]].concat();
        Value { written: around(written), read: around(read) }
    }
}

/// Values that are read as so many bytes, with each of the marks at each place and all else plain.
fn marked(length: usize, marks: &[Mark]) -> impl Iterator<Item = Value> + '_ {
    marks.iter().flat_map(move |&mark| {
        let places = (length + 1).saturating_sub(mark.1.len());
        (0..places).map(move |at| Value::marked(length, at, mark))
    })
}

/// The text with some of its bytes escaped, the rest as it stands.
fn escaped_where(text: &[u8], escaped: impl Fn(usize) -> bool) -> Vec<u8> {
    let mut written = Vec::new();
    for (at, byte) in text.iter().enumerate() {
        match escaped(at) {
            true => written.extend(writing::full(&[*byte])),
            false => written.push(*byte),
        }
    }
    written
}

/// Ways to write a text that has no `%` and no `+` in it: nothing escaped, all of it, every second or third byte, the
/// first or the last half, and each byte alone, with large and with small digits.
fn ways(text: &[u8]) -> Vec<Vec<u8>> {
    let half = text.len() / 2;
    let mut ways = vec![
        text.to_vec(),
        writing::full(text),
        writing::full_small(text),
        escaped_where(text, |at| at % 2 == 0),
        escaped_where(text, |at| at % 2 == 1),
        escaped_where(text, |at| at % 3 == 2),
        escaped_where(text, |at| at < half),
        escaped_where(text, |at| at >= half),
    ];
    for at in 0..text.len() {
        for escape in [writing::full, writing::full_small] {
            ways.push([&text[..at], &escape(&text[at..=at]), &text[at + 1..]].concat());
        }
    }
    ways
}

/// Ways to write something else than a text: with one byte changed at each place (as it stands, escaped, a `+`), one
/// missing at each place, one more at either end.
fn near_misses(text: &[u8]) -> Vec<Vec<u8>> {
    let mut misses: Vec<Vec<u8>> = ["x", "+", "%00"].map(|more| [text, more.as_bytes()].concat()).into();
    misses.push([b"x", text].concat());
    for at in 0..text.len() {
        let changed = [text[at] ^ 1];
        let instead =
            [writing::sparse(&changed, writing::IN_VALUE), writing::full_small(&changed), vec![], b"+".into()];
        // A `+` is no miss where a space is.
        let count = if text[at] == b' ' { 3 } else { 4 };
        misses.extend(instead[..count].iter().map(|byte| [&text[..at], byte, &text[at + 1..]].concat()));
    }
    misses
}
