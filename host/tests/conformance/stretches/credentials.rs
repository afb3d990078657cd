//! The halves of the Basic header, each form-coded by itself, and id and secret of every length.

use poplarchime_host::sample::{self, Client};

use super::{marked, near_misses, plain, ways, DOUBLED, MARKS};
use crate::support::host::{unauthorized, Host};

const ID: &[u8] = b"dryer";
const SECRET: &[u8] = b"secret";

fn client(id: &[u8], secret: &[u8]) -> Client {
    Client { id: id.into(), secret: Some(secret.into()), ..Client::public("", "https://dryer.example/cb", 32) }
}

/// A header with these halves, as they stand, admits the client or does not.
#[track_caller]
fn expect(client: &Client, id: &[u8], secret: &[u8], right: bool) {
    let header = sample::basic_header(id, secret);
    let reply = Host::new(std::slice::from_ref(client)).token(header, "grant_type=client_credentials", 1000, 0x20);
    let halves = format!("{}:{}", id.escape_ascii(), secret.escape_ascii());
    match right {
        true => assert_eq!(reply.status, 200, "{halves}"),
        false => assert_eq!(reply, unauthorized(true), "{halves}"),
    }
}

#[test]
fn an_escape_or_a_plus_at_every_place_of_an_id() {
    for length in 1..=32 {
        for value in marked(length, &MARKS).chain(marked(length, &DOUBLED)) {
            expect(&client(&value.read, SECRET), &value.written, SECRET, true);
        }
    }
}

#[test]
fn an_escape_or_a_plus_at_every_place_of_a_secret() {
    for length in (1..=41).chain([48, 49, 55, 56, 57, 63, 64]) {
        for value in marked(length, &MARKS).chain(marked(length, &DOUBLED)) {
            expect(&client(ID, &value.read), ID, &value.written, true);
        }
    }
}

#[test]
fn halves_may_be_written_in_any_way() {
    for length in 1..=64 {
        let (id, secret) = (plain(length.min(32)), plain(length));
        let client = client(&id, &secret);
        for (written_id, written_secret) in ways(&id).iter().cycle().zip(ways(&secret)) {
            expect(&client, written_id, &written_secret, true);
        }
    }
}

#[test]
fn halves_with_one_byte_wrong() {
    for length in 1..=64 {
        let secret = plain(length);
        near_misses(&secret).iter().for_each(|written| expect(&client(ID, &secret), ID, written, false));
    }
    for length in 1..=32 {
        let id = plain(length);
        near_misses(&id).iter().for_each(|written| expect(&client(&id, SECRET), written, SECRET, false));
    }
}

#[test]
fn longer_halves_with_an_escape_at_every_place() {
    // Behind the longest id and secret that there are; the header has at most 512 bytes.
    let (id, secret) = (plain(32), plain(64));
    let longest = client(&id, &secret);
    for length in [65, 66, 80, 96, 128, 200, 270] {
        for value in marked(length, &MARKS[..2]) {
            expect(&longest, &id, &value.written, false);
            expect(&longest, &value.written, &secret, false);
        }
    }
}
