//! A `%` without its two digits, at every place of values of every length: the whole form is malformed, or the header.

use poplarchime_host::sample::{self, Client, Slot};

use super::plain;
use crate::support::host::{bad_request, refresh_body, unauthorized, Authorized, Host, Reply, BARNAPP};

const TOKEN: [u8; 20] = [0xef; 20];

/// The text with a bad `%` put in at each place, and with one that the end cuts short.
fn malformed(text: &[u8]) -> Vec<Vec<u8>> {
    let mut values: Vec<Vec<u8>> = ["%", "%4", "%a"].map(|cut| [text, cut.as_bytes()].concat()).into();
    for at in 0..=text.len() {
        for bad in ["%g1", "%1G", "%%41"] {
            values.push([&text[..at], bad.as_bytes(), &text[at..]].concat());
        }
    }
    values
}

/// So many plain bytes of a name: a `=` would end it.
fn plain_name(length: usize) -> Vec<u8> {
    plain(length).iter().map(|&byte| if byte == b'=' { b'-' } else { byte }).collect()
}

/// The visit's host, with a refresh token of barnapp.
fn host() -> Host {
    let mut host = Host::visit();
    host.set_slot(0, Slot { client: 1, ..Slot::of(sample::REFRESH, TOKEN, 2000) });
    host
}

/// What the authorization endpoint says of a query that would be granted, with this piece behind it.
fn ask(piece: &[u8]) -> Authorized {
    host().authorize([BARNAPP.as_bytes(), b"&", piece].concat(), 1, 1000, 0x00)
}

/// The same of the token endpoint and a body.
fn refresh(piece: &[u8]) -> Reply {
    let body = [refresh_body(&TOKEN).as_bytes(), b"&client_id=barnapp&", piece].concat();
    host().token("", body, 1000, 0x20)
}

/// With this piece a query is refused with 5 and a body with `invalid_request`.
#[track_caller]
fn is_malformed(piece: &[u8]) {
    assert_eq!(ask(piece), Authorized::Refused(5), "{}", piece.escape_ascii());
    assert_eq!(refresh(piece), bad_request("invalid_request"), "{}", piece.escape_ascii());
}

/// With this piece, of an unknown name, both are granted.
#[track_caller]
fn is_ignored(piece: &[u8]) {
    assert!(matches!(ask(piece), Authorized::Redirected(_)), "{}", piece.escape_ascii());
    assert_eq!(refresh(piece).status, 200, "{}", piece.escape_ascii());
}

#[test]
fn a_bad_percent_at_every_place_of_a_value() {
    for length in 0..=80 {
        malformed(&plain(length)).iter().for_each(|value| is_malformed(&[b"nonce=", &value[..]].concat()));
    }
}

#[test]
fn a_bad_percent_at_every_place_of_a_known_value() {
    for length in (0..=40).chain([56, 57, 64, 80, 199, 200]) {
        for value in malformed(&plain(length)) {
            let (state, scope) = ([b"state=", &value[..]].concat(), [b"scope=", &value[..]].concat());
            assert_eq!(ask(&state), Authorized::Refused(5), "{}", value.escape_ascii());
            assert_eq!(refresh(&scope), bad_request("invalid_request"), "{}", value.escape_ascii());
        }
    }
}

#[test]
fn a_bad_percent_at_every_place_of_a_name() {
    for length in (0..=33).chain([57, 80]) {
        for name in malformed(&plain_name(length)) {
            is_malformed(&name);
            is_malformed(&[&name[..], b"=x"].concat());
        }
    }
}

#[test]
fn a_bad_percent_behind_a_byte_that_differs() {
    // Nothing of these values is right, but that is not what counts first.
    for length in (0..=40).chain([56, 57, 64, 80, 199, 200]) {
        for value in malformed(&plain(length)) {
            let front = [b"response_type=code&client_id=", &value[..]].concat();
            assert_eq!(host().authorize(front, 1, 1000, 0x00), Authorized::Refused(5), "{}", value.escape_ascii());
            is_malformed(&[b"redirect_uri=", &value[..]].concat());
        }
    }
}

#[test]
fn digits_beyond_the_end_do_not_count() {
    for length in 0..=80 {
        let text = plain_name(length);
        for (cut, rest) in [("%", "41"), ("%4", "1"), ("%", "41+%41"), ("%4", "1xxxxxxxxxxxxxxxxxxxxxxxxxxxxxxx")] {
            let [cut, rest] = [cut, rest].map(str::as_bytes);
            is_malformed(&[b"nonce=", &text[..], cut, b"&", rest, b"=x"].concat());
            is_malformed(&[&text[..], cut, b"=", rest].concat());
            is_malformed(&[&text[..], cut, b"&", rest].concat());
        }
        is_ignored(&[b"nonce=", &text[..], b"%41&", &text, b"%41=41&", &text, b"%41"].concat());
    }
}

/// A value that fills a query or body up to its limit.
fn long_value(front: &str) -> Vec<u8> {
    plain(4096 - front.len())
}

#[test]
fn at_every_place_of_the_longest_query() {
    let front = format!("{BARNAPP}&nonce=");
    let text = long_value(&front);
    let host = host();
    for at in 0..text.len() {
        // At the limit the digits are cut off.
        for (mark, sound) in [("%7z", false), ("%7A", at + 3 <= text.len()), ("+", true)] {
            let mut query = [front.as_bytes(), &text[..at], mark.as_bytes(), &text[at..]].concat();
            query.truncate(4096);
            let answer = host.clone().authorize(query, 1, 1000, 0x00);
            assert_eq!(answer != Authorized::Refused(5), sound, "{mark} at {at}");
        }
    }
}

#[test]
fn at_every_place_of_the_longest_body() {
    let front = format!("{}&client_id=barnapp&nonce=", refresh_body(&TOKEN));
    let text = long_value(&front);
    let host = host();
    for at in 0..text.len() {
        for (mark, sound) in [("%7z", false), ("%7A", at + 3 <= text.len()), ("+", true)] {
            let mut body = [front.as_bytes(), &text[..at], mark.as_bytes(), &text[at..]].concat();
            body.truncate(4096);
            let reply = host.clone().token("", body, 1000, 0x20);
            assert_eq!(reply.status, if sound { 200 } else { 400 }, "{mark} at {at}");
        }
    }
}

#[test]
fn a_bad_percent_at_every_place_of_a_half() {
    let token = |id: &[u8], secret: &[u8]| {
        // The client would be admitted if the halves were taken as they stand, or cut to what a registry can hold.
        let [id_held, secret_held] =
            [(id, 32), (secret, 64)].map(|(half, width)| half[..half.len().min(width)].to_vec());
        let client =
            Client { id: id_held, secret: Some(secret_held), ..Client::public("", "https://dryer.example/", 1) };
        Host::new(&[client]).token(sample::basic_header(id, secret), "grant_type=client_credentials", 1000, 0x20)
    };
    for length in 0..=64 {
        for half in malformed(&plain(length)) {
            assert_eq!(token(b"dryer", &half), unauthorized(true), "dryer:{}", half.escape_ascii());
            if length <= 32 {
                assert_eq!(token(&half, b"41secret"), unauthorized(true), "{}:41secret", half.escape_ascii());
            }
        }
    }
}
