//! Reading and writing `application/x-www-form-urlencoded` (RFC 6749 Appendix B).

use std::fmt::Write;

/// A `%` that two hex digits do not follow.
#[derive(Clone, Copy, Debug, PartialEq, Eq)]
pub struct Malformed;

/// How often a name came, pieces with an empty value left out.
#[derive(Clone, Copy, Debug, PartialEq, Eq)]
pub enum Field<'a> {
    Missing,
    Once(&'a [u8]),
    Repeated,
}

impl<'a> Field<'a> {
    pub fn value(self) -> Option<&'a [u8]> {
        match self {
            Field::Once(value) => Some(value),
            Field::Missing | Field::Repeated => None,
        }
    }
}

/// The decoded names and values of a form, in order, pieces with an empty value left out.
#[derive(Clone, Debug, PartialEq, Eq)]
pub struct Form {
    pieces: Vec<(Vec<u8>, Vec<u8>)>,
}

impl Form {
    pub fn read(raw: &[u8]) -> Result<Form, Malformed> {
        let mut pieces = Vec::new();
        for piece in raw.split(|&byte| byte == b'&') {
            let (name, value) = split_name(piece);
            let (name, value) = (decode(name)?, decode(value)?);
            if !value.is_empty() {
                pieces.push((name, value));
            }
        }
        Ok(Form { pieces })
    }

    pub fn field(&self, name: &str) -> Field<'_> {
        let mut values = self.pieces.iter().filter(|piece| piece.0 == name.as_bytes()).map(|piece| piece.1.as_slice());
        match (values.next(), values.next()) {
            (None, _) => Field::Missing,
            (Some(value), None) => Field::Once(value),
            (Some(_), Some(_)) => Field::Repeated,
        }
    }
}

/// Name and value: they part at the first `=`; without one the value is empty.
fn split_name(piece: &[u8]) -> (&[u8], &[u8]) {
    match piece.iter().position(|&byte| byte == b'=') {
        Some(at) => (&piece[..at], &piece[at + 1..]),
        None => (piece, &[]),
    }
}

/// The bytes that one name or value stands for; `&` and `=` in it stand for themselves.
pub fn decode(text: &[u8]) -> Result<Vec<u8>, Malformed> {
    let mut bytes = Vec::with_capacity(text.len());
    let mut rest = text.iter().copied();
    while let Some(byte) = rest.next() {
        bytes.push(match byte {
            b'+' => b' ',
            b'%' => {
                let high = rest.next().and_then(hex_digit).ok_or(Malformed)?;
                let low = rest.next().and_then(hex_digit).ok_or(Malformed)?;
                high * 16 + low
            }
            other => other,
        });
    }
    Ok(bytes)
}

fn hex_digit(character: u8) -> Option<u8> {
    char::from(character).to_digit(16).map(|digit| digit as u8)
}

/// A value as it is written in a form.
pub fn encode(bytes: &[u8]) -> String {
    let mut text = String::with_capacity(bytes.len());
    for &byte in bytes {
        match byte {
            b'a'..=b'z' | b'A'..=b'Z' | b'0'..=b'9' | b'-' | b'.' | b'_' | b'*' => text.push(byte.into()),
            b' ' => text.push('+'),
            _ => write!(text, "%{byte:02X}").expect("a String takes every text"),
        }
    }
    text
}

#[cfg(test)]
mod tests {
    use super::*;

    fn read(text: &str) -> Form {
        Form::read(text.as_bytes()).unwrap()
    }

    #[test]
    fn the_bytes_of_appendix_b() {
        let bytes = [0x20, 0x25, 0x26, 0x2b, 0xc2, 0xa3, 0xe2, 0x82, 0xac];
        assert_eq!(encode(&bytes), "+%25%26%2B%C2%A3%E2%82%AC");
        assert_eq!(decode(b"+%25%26%2B%C2%A3%E2%82%AC").as_deref(), Ok(&bytes[..]));
    }

    #[test]
    fn what_is_written_reads_back_and_parts_nothing() {
        let bytes: Vec<u8> = (0..=255).collect();
        for bytes in [&bytes[..], &[]] {
            let text = encode(bytes);
            assert!(!text.contains(['&', '=']));
            assert_eq!(decode(text.as_bytes()).as_deref(), Ok(bytes));
        }
    }

    #[test]
    fn a_value_by_itself_is_not_parted() {
        assert_eq!(decode(b"a&b=c%26%3d;+:").as_deref(), Ok(&b"a&b=c&=; :"[..]));
        assert_eq!(decode(b"&=%"), Err(Malformed));
    }

    #[test]
    fn a_bad_percent_spoils_the_whole_form() {
        for text in ["a=%4", "a=%", "a=%g0", "a=%0g", "%4", "x%=1", "a=1&&b=%+1", "a=1&%zz="] {
            assert_eq!(Form::read(text.as_bytes()), Err(Malformed), "{text}");
        }
    }

    #[test]
    fn empty_values_are_dropped_before_repeats_are_counted() {
        assert_eq!(read("state=&state=x").field("state"), Field::Once(b"x"));
        assert_eq!(read("state=x&state=x").field("state"), Field::Repeated);
        assert_eq!(read("state&state=&&").field("state"), Field::Missing);
    }

    #[test]
    fn pieces_part_before_they_are_decoded() {
        assert_eq!(read("a=%26b=1").field("a"), Field::Once(b"&b=1"));
        assert_eq!(read("a==b+%2b").field("a"), Field::Once(b"=b +"));
        assert_eq!(read("client%5Fid=x").field("client_id"), Field::Once(b"x"));
        assert_eq!(read("a;b=1").field("a"), Field::Missing);
        assert_eq!(read("=x&==").field(""), Field::Repeated);
    }
}
