//! The C header says the same numbers as the programs.

use std::collections::BTreeMap;

use poplarchime_host::answers::{Authorization, CheckAnswer, ErrorWord, TokenReply};
use poplarchime_host::plain::{handle, registry, scope, store, CLOCK_LIMIT, FORM_LIMIT, LEAST_OUTPUT};
use poplarchime_host::sample;

const HEADER: &str = include_str!("../../../include/poplarchime.h");

/// The macros with a plain number, and the members of enums.
fn numbers() -> BTreeMap<&'static str, u64> {
    let mut numbers = BTreeMap::new();
    for line in HEADER.lines().flat_map(|line| line.split(['{', '}'])) {
        let mut words = line.split_whitespace();
        let (name, value) = match (words.next(), words.next(), words.next()) {
            (Some("#define"), Some(name), Some(value)) => (name, value),
            (Some(name), Some("="), Some(value)) => (name, value),
            _ => continue,
        };
        if let Ok(value) = value.trim_end_matches(',').parse() {
            assert_eq!(numbers.insert(name, value), None, "{name} stands twice");
        }
    }
    numbers
}

#[test]
fn sizes() {
    let numbers = numbers();
    let token_record = 1 + 1 + registry::ID_WIDTH + 1 + registry::REDIRECT_WIDTH + 1;
    let expected = [
        ("STORE_SIZE", store::STORE_SIZE),
        ("STORE_SLOTS", store::SLOTS),
        ("SLOT_SIZE", store::SLOT_SIZE),
        ("MOST_CLIENTS", registry::MOST_CLIENTS),
        ("PUBLIC_RECORD_SIZE", token_record),
        ("CONFIDENTIAL_RECORD_SIZE", token_record + 1 + registry::SECRET_WIDTH),
        ("ID_LIMIT", registry::ID_WIDTH),
        ("REDIRECT_LIMIT", registry::REDIRECT_WIDTH),
        ("SECRET_LIMIT", registry::SECRET_WIDTH),
        ("LEAST_OUTPUT", LEAST_OUTPUT),
        ("AUTHORIZE_RANDOM", handle::HANDLE_SIZE),
        ("TOKEN_RANDOM", 2 * handle::HANDLE_SIZE),
        ("QUERY_LIMIT", FORM_LIMIT),
        ("BODY_LIMIT", FORM_LIMIT),
        ("HEADER_LIMIT", 512),
        ("STATE_LIMIT", 200),
        ("TOKEN_LENGTH", 2 * handle::HANDLE_SIZE),
        ("CODE_LIFETIME", store::Kind::Code.lifetime() as usize),
        ("ACCESS_LIFETIME", store::Kind::Access.lifetime() as usize),
        ("REFRESH_LIFETIME", store::Kind::Refresh.lifetime() as usize),
    ];
    for (name, value) in expected {
        assert_eq!(numbers.get(&format!("POPLARCHIME_{name}")[..]), Some(&(value as u64)), "{name}");
    }
    // The tests' own number of slots.
    assert_eq!((sample::STORE_SIZE, sample::SLOTS), (store::STORE_SIZE, store::SLOTS));
    assert_eq!(CLOCK_LIMIT, 1 << 40);
    assert!(HEADER.contains("#define POPLARCHIME_CLOCK_LIMIT (UINT64_C(1) << 40)"));
    let words = 1 + ErrorWord::ALL.len();
    let (refusals, decisions) = (8, 2);
    assert_eq!(numbers.len(), expected.len() + words + refusals + decisions + scope::NAMES.len());
}

#[test]
fn error_words_and_scopes() {
    let numbers = numbers();
    for word in ErrorWord::ALL {
        let name = format!("POPLARCHIME_{}", word.text().to_uppercase());
        assert_eq!(numbers.get(&name[..]), Some(&u64::from(word.number())), "{name}");
    }
    for (bit, name) in scope::NAMES.iter().enumerate() {
        let name = format!("POPLARCHIME_SCOPE_{}", name.to_uppercase());
        assert_eq!(numbers.get(&name[..]), Some(&(1 << bit)), "{name}");
    }
}

#[test]
fn the_endpoints_are_declared() {
    let declared: Vec<&str> =
        HEADER.lines().filter(|line| line.ends_with('(')).filter_map(|line| line.split([' ', '(']).nth(2)).collect();
    assert_eq!(declared, ["poplarchime_authorize", "poplarchime_token", "poplarchime_revoke", "poplarchime_check"]);
}

#[test]
fn answers_have_the_size_that_c_gives_them() {
    assert_eq!(size_of::<Authorization>(), 16);
    assert_eq!(size_of::<TokenReply>(), 24);
    assert_eq!(size_of::<CheckAnswer>(), 32);
}
