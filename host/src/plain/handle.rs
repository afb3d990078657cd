//! Handles: twenty random bytes, shown to the outside as forty lower-case hex digits.

pub const HANDLE_SIZE: usize = 20;

pub type Handle = [u8; HANDLE_SIZE];

/// The handle that a presented text stands for; any text but forty lower-case hex digits stands for none.
pub fn parse(text: &[u8]) -> Option<Handle> {
    if text.len() != 2 * HANDLE_SIZE {
        return None;
    }
    let mut handle = [0; HANDLE_SIZE];
    for (byte, digits) in handle.iter_mut().zip(text.chunks_exact(2)) {
        *byte = digit(digits[0])? * 16 + digit(digits[1])?;
    }
    Some(handle)
}

fn digit(character: u8) -> Option<u8> {
    match character {
        b'0'..=b'9' => Some(character - b'0'),
        b'a'..=b'f' => Some(character - b'a' + 10),
        _ => None,
    }
}

pub fn text(handle: &Handle) -> String {
    let digit = |value: u8| char::from(b"0123456789abcdef"[usize::from(value)]);
    handle.iter().flat_map(|byte| [digit(byte >> 4), digit(byte & 15)]).collect()
}

#[cfg(test)]
mod tests {
    use super::*;

    #[test]
    fn a_handle_reads_back() {
        let handle: Handle = std::array::from_fn(|i| (i * 13) as u8);
        assert_eq!(parse(text(&handle).as_bytes()), Some(handle));
    }

    #[test]
    fn other_texts_stand_for_no_handle() {
        let text = "000102030405060708090a0b0c0d0e0f10111213";
        assert!(parse(text.as_bytes()).is_some());
        assert_eq!(parse(text.to_uppercase().as_bytes()), None);
        assert_eq!(parse(&text.as_bytes()[1..]), None);
        assert_eq!(parse(format!("{text}0").as_bytes()), None);
        assert_eq!(parse(format!("{}g", &text[1..]).as_bytes()), None);
        assert_eq!(parse(b""), None);
    }
}
