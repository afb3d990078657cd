//! Every known name, and its value, in requests of every kind: with an escape at any place it is the same, with a byte
//! wrong at any place it is not.

use poplarchime_host::plain::form::decode;
use poplarchime_host::sample::{self, Client, Slot};

use super::{escaped_where, near_misses, plain, ways};
use crate::support::call::{Call, Request};
use crate::support::compare::{run_both, After};
use crate::support::pkce;

/// A known name, its value, and what comes out without them and with another value.
struct Param {
    name: &'static str,
    value: Vec<u8>,
    without: &'static str,
    wrong: &'static str,
}

fn param(name: &'static str, value: impl AsRef<[u8]>, without: &'static str, wrong: &'static str) -> Param {
    Param { name, value: value.as_ref().to_vec(), without, wrong }
}

fn client() -> Client {
    let redirect = [b"https://long.example/", &plain(179)[..]].concat();
    Client { id: plain(32), redirect, scope: 255, secret: Some(plain(64)) }
}

const CODE: [u8; 20] = [0xcd; 20];
const REFRESH: [u8; 20] = [0xef; 20];

fn store() -> Vec<u8> {
    let mut store = sample::empty_store();
    let code = Slot { scope: 255, ..Slot::of(sample::BOUND_CODE, CODE, 2000) };
    sample::set_slot(&mut store, 0, code.challenged(pkce::appendix_b().challenge));
    sample::set_slot(&mut store, 1, Slot { scope: 255, ..Slot::of(sample::REFRESH, REFRESH, 2000) });
    store
}

fn authorization() -> Vec<Param> {
    let Client { id, redirect, .. } = client();
    vec![
        param("response_type", "code", "invalid_request", "unsupported_response_type"),
        param("client_id", id, "refusal 6", "refusal 6"),
        param("redirect_uri", redirect, "code", "refusal 7"),
        param("scope", "power bill milking drying pump", "code", "invalid_scope"),
        param("state", plain(64), "code", "code"),
        param("code_challenge", pkce::CHALLENGE, "invalid_request", "invalid_request"),
        param("code_challenge_method", "S256", "invalid_request", "invalid_request"),
    ]
}

fn credentials() -> [Param; 2] {
    let Client { id, secret, .. } = client();
    [("client_id", id), ("client_secret", secret.expect("a secret"))]
        .map(|(name, value)| param(name, value, "401 invalid_client", "401 invalid_client"))
}

fn exchange() -> Vec<Param> {
    let mut params = vec![
        param("grant_type", "authorization_code", "400 invalid_request", "400 unsupported_grant_type"),
        param("code", sample::hex(&CODE), "400 invalid_request", "400 invalid_grant"),
        param("redirect_uri", client().redirect, "400 invalid_grant", "400 invalid_grant"),
        param("code_verifier", pkce::VERIFIER, "400 invalid_grant", "400 invalid_grant"),
    ];
    params.extend(credentials());
    params
}

fn refresh() -> Vec<Param> {
    let mut params = vec![
        param("grant_type", "refresh_token", "400 invalid_request", "400 unsupported_grant_type"),
        param("refresh_token", sample::hex(&REFRESH), "400 invalid_request", "400 invalid_grant"),
        param("scope", "tariff solar peak power", "200", "400 invalid_scope"),
    ];
    params.extend(credentials());
    params
}

fn form(pieces: impl IntoIterator<Item = Vec<u8>>) -> Vec<u8> {
    pieces.into_iter().collect::<Vec<_>>().join(&b'&')
}

/// One kind of request, which is granted as it stands.
struct Kind {
    params: Vec<Param>,
    granted: After,
}

impl Kind {
    fn all() -> [Kind; 3] {
        [authorization(), exchange(), refresh()].map(|params| {
            let form = form(params.iter().map(|param| piece(param.name.as_bytes(), &param.value)));
            let granted = run(&params, form);
            assert!(["code", "200"].contains(&&granted.outcome()[..]), "{}", granted.outcome());
            Kind { params, granted }
        })
    }

    /// What comes of the request when this piece stands in place of the parameter's.
    fn with(&self, param: &Param, instead: Vec<u8>) -> After {
        let piece = |other: &Param| match other.name == param.name {
            true => instead.clone(),
            false => piece(other.name.as_bytes(), &other.value),
        };
        run(&self.params, form(self.params.iter().map(piece)))
    }
}

/// Names and values here have no `%`, no `+` and no `&` in them, so they may stand as they are.
fn piece(name: &[u8], value: &[u8]) -> Vec<u8> {
    [name, value].join(&b'=')
}

fn run(params: &[Param], form: Vec<u8>) -> After {
    let authorization = params[0].name == "response_type";
    let (request, random) = match authorization {
        true => (Request::Authorize { query: form, decision: 1, farm: 7 }, (0..20).collect()),
        false => (Request::Token { header: Vec::new(), body: form }, (0..40).collect()),
    };
    let registry = sample::registry(&[client()]);
    run_both(&Call { request, registry, clock: 1000, random, output: 1024 }, &store())
}

/// Tries something with every parameter of every kind of request.
fn with_every_param(test: impl Fn(&Kind, &Param)) {
    for kind in Kind::all() {
        kind.params.iter().for_each(|param| test(&kind, param));
    }
}

#[test]
fn a_name_may_be_written_in_any_way() {
    with_every_param(|kind, param| {
        let name = param.name.as_bytes();
        let pairs = (0..name.len()).flat_map(|one| (0..one).map(move |other| [one, other]));
        let pairs = pairs.map(|pair| escaped_where(name, |at| pair.contains(&at)));
        for written in ways(name).into_iter().chain(pairs) {
            let after = kind.with(param, piece(&written, &param.value));
            assert!(after == kind.granted, "{}: {}", written.escape_ascii(), after.outcome());
        }
    });
}

#[test]
fn a_name_with_one_byte_wrong_is_another() {
    with_every_param(|kind, param| {
        let without = kind.with(param, Vec::new());
        assert_eq!(without.outcome(), param.without, "{}", param.name);
        assert!(without != kind.granted, "{}", param.name);
        for written in near_misses(param.name.as_bytes()) {
            let after = kind.with(param, piece(&written, &param.value));
            assert!(after == without, "{}: {}", written.escape_ascii(), after.outcome());
        }
    });
}

#[test]
fn a_name_written_in_two_ways_is_repeated() {
    with_every_param(|kind, param| {
        for written in ways(param.name.as_bytes()) {
            let twice = form([piece(param.name.as_bytes(), b"x"), piece(&written, b"x")]);
            let outcome = kind.with(param, twice).outcome();
            let expected = match param.name {
                _ if kind.params[0].name == "grant_type" => "400 invalid_request",
                "client_id" | "redirect_uri" => "refusal 6",
                _ => "invalid_request",
            };
            assert_eq!(outcome, expected, "{}", written.escape_ascii());
        }
    });
}

#[test]
fn a_value_may_be_written_in_any_way() {
    with_every_param(|kind, param| {
        for written in ways(&param.value) {
            let after = kind.with(param, piece(param.name.as_bytes(), &written));
            assert!(after == kind.granted, "{}: {}", written.escape_ascii(), after.outcome());
        }
    });
}

#[test]
fn a_value_with_one_byte_wrong_is_another() {
    with_every_param(|kind, param| {
        for written in near_misses(&param.value) {
            let after = kind.with(param, piece(param.name.as_bytes(), &written));
            let expected = match param.name {
                // A zero byte at its end is what makes a state unsound.
                "state" if written.ends_with(b"%00") => "invalid_request",
                "code_challenge" if pkce::is_challenge(&decode(&written).expect("well-formed")) => "code",
                _ => param.wrong,
            };
            assert_eq!(after.outcome(), expected, "{}", written.escape_ascii());
            assert!(after != kind.granted, "{}", written.escape_ascii());
        }
    });
}

#[test]
fn with_more_behind_it_neither_is_the_same() {
    with_every_param(|kind, param| {
        let without = kind.with(param, Vec::new());
        for more in (1..=300).chain([400, 511, 512, 513, 1024, 2048]) {
            let behind = vec![b'x'; more];
            let after = kind.with(param, piece(&[param.name.as_bytes(), &behind].concat(), &param.value));
            assert!(after == without, "{} and {more} bytes: {}", param.name, after.outcome());
            // States of every length are tried elsewhere.
            if param.name != "state" {
                let after = kind.with(param, piece(param.name.as_bytes(), &[&param.value[..], &behind].concat()));
                assert_eq!(after.outcome(), param.wrong, "the value of {} and {more} bytes", param.name);
            }
        }
    });
}

#[test]
fn a_space_between_scopes_is_a_space_in_any_writing() {
    with_every_param(|kind, param| {
        for space in ["+", "%20", " "].into_iter().filter(|_| param.name == "scope") {
            let parts: Vec<&[u8]> = param.value.split(|&byte| byte == b' ').collect();
            let written = parts.join(space.as_bytes());
            assert!(kind.with(param, piece(b"scope", &written)) == kind.granted, "{}", written.escape_ascii());
        }
    });
}
