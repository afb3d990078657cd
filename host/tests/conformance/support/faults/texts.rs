//! Texts that are nearly right.

use crate::support::draft::Draft;

pub fn repeat(draft: &mut Draft, name: &str) {
    let value = draft.params.get(name).filter(|value| !value.is_empty()).unwrap_or(b"x").to_vec();
    draft.params.set(name, &value);
    draft.params.push(name, &value);
}

pub fn cut(text: &[u8]) -> Vec<u8> {
    text[..text.len() - 1].to_vec()
}

/// Cut by a byte, but never to nothing, which would count as missing.
pub fn one_less(text: &[u8]) -> Vec<u8> {
    match text.len() {
        1 => b"~~".to_vec(),
        _ => cut(text),
    }
}

pub fn longer(text: &[u8]) -> Vec<u8> {
    [text, b"x"].concat()
}

/// With a text put into its middle.
pub fn inside(text: &[u8], put: &[u8]) -> Vec<u8> {
    let (front, end) = text.split_at(text.len() / 2);
    [front, put, end].concat()
}

pub fn other_end(text: &[u8]) -> Vec<u8> {
    let mut text = text.to_vec();
    *text.last_mut().expect("a text that is not empty") ^= 1;
    text
}

pub fn shorten(bytes: &mut Vec<u8>) {
    bytes.pop();
}
