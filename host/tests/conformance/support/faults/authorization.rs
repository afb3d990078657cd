//! The authorization endpoint: client, redirect and the request itself.

use poplarchime_host::plain::scope::ScopeSet;

use super::texts::{cut, longer, one_less, other_end, repeat};
use super::Apply;
use crate::support::draft::Draft;

// ---- error pages

pub const CLIENT: &[(&str, Apply)] = &[
    ("no client_id", |d, _| d.params.remove("client_id")),
    ("empty client_id", |d, _| d.params.set("client_id", "")),
    ("client_id twice", |d, _| repeat(d, "client_id")),
    ("two client_ids", |d, _| d.params.push("client_id", "other")),
    ("unknown client_id", |d, _| d.params.set("client_id", "nobody knows me")),
    ("client_id cut", |d, _| d.params.set("client_id", cut(&d.asking().id))),
    ("client_id longer", |d, _| d.params.set("client_id", longer(&d.asking().id))),
    ("client_id with a zero byte behind it", |d, _| d.params.set("client_id", [&d.asking().id[..], b"\0"].concat())),
    ("client_id of 33 bytes", |d, _| d.params.set("client_id", [b'a'; 33])),
    ("redirect_uri twice", |d, _| {
        d.params.set("redirect_uri", d.asking().redirect.clone());
        repeat(d, "redirect_uri");
    }),
    ("two redirect_uris", |d, _| {
        d.params.set("redirect_uri", d.asking().redirect.clone());
        d.params.push("redirect_uri", "https://evil.example/");
    }),
];

pub const REDIRECT: &[(&str, Apply)] = &[
    ("redirect_uri of a stranger", |d, _| d.params.set("redirect_uri", "https://evil.example/")),
    ("redirect_uri cut", |d, _| d.params.set("redirect_uri", one_less(&d.asking().redirect))),
    ("redirect_uri longer", |d, _| d.params.set("redirect_uri", longer(&d.asking().redirect))),
    ("redirect_uri with another last byte", |d, _| d.params.set("redirect_uri", other_end(&d.asking().redirect))),
    ("redirect_uri with another first byte", |d, _| {
        let mut redirect = d.asking().redirect.clone();
        redirect[0] ^= 0x20;
        d.params.set("redirect_uri", redirect);
    }),
    ("redirect_uri with a fragment", |d, _| {
        d.params.set("redirect_uri", [&d.asking().redirect[..], b"#"].concat());
    }),
    ("redirect_uri with a zero byte behind it", |d, _| {
        d.params.set("redirect_uri", [&d.asking().redirect[..], b"\0"].concat());
    }),
];

// ---- redirects

pub const REQUEST: &[(&str, Apply)] = &[
    ("no response_type", |d, _| d.params.remove("response_type")),
    ("empty response_type", |d, _| d.params.set("response_type", "")),
    ("response_type twice", |d, _| repeat(d, "response_type")),
    ("scope twice", |d, _| {
        let scope = ScopeSet(d.asking().scope).text();
        d.params.set("scope", &scope);
        d.params.push("scope", &scope);
    }),
    ("state twice", |d, _| repeat(d, "state")),
    ("two states", |d, _| {
        d.params.set("state", "one");
        d.params.push("state", "two");
    }),
    ("state of 201 bytes", |d, _| d.params.set("state", [b'~'; 201])),
    ("state of 300 bytes", |d, _| d.params.set("state", [b'a'; 300])),
    ("state with a control byte", |d, _| d.params.set("state", b"a\x1f")),
    ("state with a line end", |d, _| d.params.set("state", b"\n")),
    ("state with a zero byte", |d, _| d.params.set("state", b"a\0b")),
    ("state with a delete byte", |d, _| d.params.set("state", b"\x7fa")),
    ("state outside ASCII", |d, _| d.params.set("state", b"caf\xc3\xa9")),
];

pub const RESPONSE_TYPE: &[(&str, Apply)] = &[
    ("response_type token", |d, _| spoil_response_type(d, b"token")),
    ("response_type in capitals", |d, _| spoil_response_type(d, b"Code")),
    ("response_type cut", |d, _| spoil_response_type(d, b"cod")),
    ("response_type longer", |d, _| spoil_response_type(d, b"code ")),
    ("two response types in one", |d, _| spoil_response_type(d, b"code token")),
];

/// Leaves a missing response_type missing.
fn spoil_response_type(draft: &mut Draft, value: &[u8]) {
    if draft.params.get("response_type").is_some() {
        draft.params.set("response_type", value);
    }
}

pub const DECISION: &[(&str, Apply)] = &[
    ("decision 0", |d, _| d.decision = 0),
    ("decision 2", |d, _| d.decision = 2),
    ("decision 256", |d, _| d.decision = 256),
    ("decision 257", |d, _| d.decision = 257),
    ("decision 2^32+1", |d, _| d.decision = (1 << 32) + 1),
    ("decision 2^64-1", |d, _| d.decision = u64::MAX),
    ("farm 0", |d, _| d.farm = 0),
    ("decision 0 for farm 0", |d, _| (d.decision, d.farm) = (0, 0)),
    ("decision 2 for farm 0", |d, _| (d.decision, d.farm) = (2, 0)),
];

pub const HARMLESS_AUTHORIZATION: &[(&str, Apply)] = &[
    ("redirect_uri given", |d, _| d.params.set("redirect_uri", d.asking().redirect.clone())),
    ("no state", |d, _| d.params.remove("state")),
    ("state of 200 bytes", |d, rng| {
        let state: Vec<u8> = (0..200).map(|_| rng.between(0x20, 0x7e) as u8).collect();
        d.params.set("state", state);
    }),
    ("state of every byte allowed", |d, _| d.params.set("state", (0x20..=0x7e).collect::<Vec<u8>>())),
    ("farm 1", |d, _| d.farm = 1),
    ("farm 256", |d, _| d.farm = 256),
    ("farm 2^16", |d, _| d.farm = 1 << 16),
    ("farm 2^31", |d, _| d.farm = 1 << 31),
    ("farm 2^32-1", |d, _| d.farm = u32::MAX),
];
