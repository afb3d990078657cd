//! Bytes written in a form, or in a half of the Basic header, in different ways that are all read as those bytes.

use poplarchime_host::sample;

use super::rng::Rng;

// What must be escaped, since it would be read as something else.
pub const IN_NAME: &[u8] = b"%+&=";
pub const IN_VALUE: &[u8] = b"%+&";
const IN_HEADER_ID: &[u8] = b"%+:";
const IN_HEADER_SECRET: &[u8] = b"%+";

/// A header of the Basic scheme (RFC 6749 section 2.3.1). Id and secret are written each by itself; `write` is handed
/// the text and what must be escaped in it.
pub fn basic_header(id: &[u8], secret: &[u8], mut write: impl FnMut(&[u8], &[u8]) -> Vec<u8>) -> Vec<u8> {
    sample::basic_header(&write(id, IN_HEADER_ID), &write(secret, IN_HEADER_SECRET))
}

/// As a client library would.
pub fn usual(bytes: &[u8]) -> Vec<u8> {
    let mut text = Vec::new();
    for &byte in bytes {
        match byte {
            b' ' => text.push(b'+'),
            _ if byte.is_ascii_alphanumeric() || b"-._".contains(&byte) => text.push(byte),
            _ => text.extend(escape(byte)),
        }
    }
    text
}

/// As the server writes it in its answers.
pub fn answered(bytes: &[u8]) -> String {
    let mut text = String::new();
    for &byte in bytes {
        match byte {
            b' ' => text.push('+'),
            _ if byte.is_ascii_alphanumeric() || b"-._*".contains(&byte) => text.push(byte.into()),
            _ => text.push_str(&format!("%{byte:02X}")),
        }
    }
    text
}

/// Nothing is escaped but what must be.
pub fn sparse(bytes: &[u8], escaped: &[u8]) -> Vec<u8> {
    let mut text = Vec::new();
    for &byte in bytes {
        match escaped.contains(&byte) {
            true => text.extend(escape(byte)),
            false => text.push(byte),
        }
    }
    text
}

/// Every byte is escaped.
pub fn full(bytes: &[u8]) -> Vec<u8> {
    bytes.iter().flat_map(|&byte| escape(byte)).collect()
}

/// Every byte is escaped, with small hex digits.
pub fn full_small(bytes: &[u8]) -> Vec<u8> {
    full(bytes).to_ascii_lowercase()
}

/// In any way: more or less escaped, with large and small hex digits.
pub fn any(bytes: &[u8], escaped: &[u8], rng: &mut Rng) -> Vec<u8> {
    let share = rng.pick(&[0, 0, 10, 50, 100]);
    let mut text = Vec::new();
    for &byte in bytes {
        match byte {
            b' ' if rng.chance(50) => text.push(b'+'),
            _ if escaped.contains(&byte) || rng.chance(share) => {
                for mut character in escape(byte) {
                    if rng.chance(50) {
                        character.make_ascii_lowercase();
                    }
                    text.push(character);
                }
            }
            _ => text.push(byte),
        }
    }
    text
}

fn escape(byte: u8) -> [u8; 3] {
    let digit = |value: u8| b"0123456789ABCDEF"[usize::from(value)];
    [b'%', digit(byte >> 4), digit(byte & 15)]
}
