//! PKCE at the authorization endpoint (RFC 7636 section 4.3): the challenge and its method.

use poplarchime_host::sample;

use super::texts::{cut, inside, longer, repeat};
use super::Apply;
use crate::support::draft::Draft;
use crate::support::pkce;
use crate::support::rng::Rng;

const NAMES: [&str; 2] = ["code_challenge", "code_challenge_method"];

pub const CHALLENGE: &[(&str, Apply)] = &[
    // One without the other.
    ("challenge without method", |d, rng| with(d, rng, |d| d.params.remove("code_challenge_method"))),
    ("challenge with an empty method", |d, rng| with_method(d, rng, "")),
    ("method without challenge", |d, rng| with(d, rng, |d| d.params.remove("code_challenge"))),
    ("method with an empty challenge", |d, rng| with(d, rng, |d| d.params.set("code_challenge", ""))),
    ("public client without challenge", |d, _| {
        be_public(d);
        NAMES.iter().for_each(|name| d.params.remove(name));
    }),
    ("public client with an empty challenge and method", |d, _| {
        be_public(d);
        NAMES.iter().for_each(|name| d.params.set(name, ""));
    }),
    // The method.
    ("method plain", |d, rng| with_method(d, rng, "plain")),
    ("method in small letters", |d, rng| with_method(d, rng, "s256")),
    ("method cut", |d, rng| with_method(d, rng, "S25")),
    ("method longer", |d, rng| with_method(d, rng, "S2566")),
    ("method with a space behind it", |d, rng| with_method(d, rng, "S256 ")),
    ("method with a space before it", |d, rng| with_method(d, rng, " S256")),
    ("method with a zero byte behind it", |d, rng| with_method(d, rng, "S256\0")),
    ("method of another digest", |d, rng| with_method(d, rng, "S512")),
    // The challenge.
    ("challenge of 42 characters", |d, rng| spoil(d, rng, cut)),
    ("challenge of 44 characters", |d, rng| spoil(d, rng, longer)),
    ("challenge of 44 characters, the last one A", |d, rng| spoil(d, rng, |own| [own, b"A"].concat())),
    ("challenge of 86 characters", |d, rng| spoil(d, rng, |own| own.repeat(2))),
    ("padded challenge", |d, rng| spoil(d, rng, |own| [own, b"="].concat())),
    ("padded challenge of 43 characters", |d, rng| spoil(d, rng, |own| [&own[..42], b"="].concat())),
    ("challenge with the low spare bit", |d, rng| spoil(d, rng, |own| spare(own, 1))),
    ("challenge with the high spare bit", |d, rng| spoil(d, rng, |own| spare(own, 2))),
    ("challenge with both spare bits", |d, rng| spoil(d, rng, |own| spare(own, 3))),
    ("+ in a challenge", |d, rng| spoil(d, rng, |own| other(own, b'+'))),
    ("/ in a challenge", |d, rng| spoil(d, rng, |own| other(own, b'/'))),
    ("= in a challenge", |d, rng| spoil(d, rng, |own| other(own, b'='))),
    ("space in a challenge", |d, rng| spoil(d, rng, |own| other(own, b' '))),
    ("~ in a challenge", |d, rng| spoil(d, rng, |own| other(own, b'~'))),
    (". in a challenge", |d, rng| spoil(d, rng, |own| other(own, b'.'))),
    ("zero byte in a challenge", |d, rng| spoil(d, rng, |own| other(own, 0))),
    ("byte above 7f in a challenge", |d, rng| spoil(d, rng, |own| other(own, 0xc1))),
    ("line end behind a challenge", |d, rng| spoil(d, rng, |own| [own, b"\n"].concat())),
    ("a character more in the middle of a challenge", |d, rng| spoil(d, rng, |own| inside(own, b"-"))),
    ("challenge in hex", |d, _| send(d, sample::hex(&pkce::appendix_b().challenge))),
    ("challenge as bytes", |d, _| send(d, pkce::appendix_b().challenge)),
    // Repeats.
    ("challenge twice", |d, rng| with(d, rng, |d| repeat(d, "code_challenge"))),
    ("two challenges", |d, rng| with(d, rng, |d| d.params.push("code_challenge", "x"))),
    ("method twice", |d, rng| with(d, rng, |d| repeat(d, "code_challenge_method"))),
    ("two methods", |d, rng| with(d, rng, |d| d.params.push("code_challenge_method", "plain"))),
    ("challenge twice, no method", |d, rng| {
        with(d, rng, |d| {
            d.params.remove("code_challenge_method");
            repeat(d, "code_challenge");
        });
    }),
];

pub const HARMLESS_CHALLENGE: &[(&str, Apply)] = &[
    ("challenge given", |d, rng| with(d, rng, |_| ())),
    ("challenge of zeros", |d, _| send(d, pkce::challenge_text(&[0; 32]))),
    ("challenge of ones", |d, _| send(d, pkce::challenge_text(&[0xff; 32]))),
    ("no challenge from a confidential client", |d, _| {
        if d.asking().secret.is_some() {
            NAMES.iter().for_each(|name| d.params.remove(name));
        }
    }),
    ("an empty challenge and method besides", |d, rng| {
        with(d, rng, |d| {
            NAMES.iter().for_each(|name| d.params.push(name, ""));
        });
    }),
    ("code_verifier, repeated", |d, _| repeat(d, "code_verifier")),
];

fn send(draft: &mut Draft, challenge: impl AsRef<[u8]>) {
    draft.params.set("code_challenge", challenge);
    draft.params.set("code_challenge_method", "S256");
}

/// A sound challenge, if the request has none, and then something done to it.
fn with(draft: &mut Draft, rng: &mut Rng, change: fn(&mut Draft)) {
    if draft.params.get("code_challenge").is_none() {
        send(draft, pkce::challenge_text(&pkce::sound_pair(rng).challenge));
    }
    change(draft);
}

fn with_method(draft: &mut Draft, rng: &mut Rng, method: &str) {
    with(draft, rng, |_| ());
    draft.params.set("code_challenge_method", method);
}

fn spoil(draft: &mut Draft, rng: &mut Rng, spoil: fn(&[u8]) -> Vec<u8>) {
    let sound = pkce::challenge_text(&pkce::sound_pair(rng).challenge);
    send(draft, spoil(sound.as_bytes()));
}

/// Sets spare bits of the last character, which are zero, so that it is one of the next three of the alphabet.
fn spare(challenge: &[u8], bits: usize) -> Vec<u8> {
    const ALPHABET: &[u8; 64] = b"ABCDEFGHIJKLMNOPQRSTUVWXYZabcdefghijklmnopqrstuvwxyz0123456789-_";
    let (last, front) = challenge.split_last().expect("43 characters");
    let digit = ALPHABET.iter().position(|character| character == last).expect("a digit");
    [front, &[ALPHABET[digit + bits]]].concat()
}

/// With another character in its middle.
fn other(challenge: &[u8], character: u8) -> Vec<u8> {
    let mut text = challenge.to_vec();
    text[20] = character;
    text
}

fn be_public(draft: &mut Draft) {
    if draft.asking().secret.is_some() {
        draft.register(None);
    }
}
